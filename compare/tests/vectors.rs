//! Single exceptions and short runs by note 6 of document 02, each sentence on lists
//! worked out by hand, asked of every engine.

mod common;

use common::short::{self, core_after, core_of, counts, put, run, NOP, RFE, SR};
use common::{asm, assert_card, Bench, BYTES};
use compare::card::File;
use compare::cards::Card;
use compare::cases::{self, Case};
use compare::dump;
use compare::exec::Cause::{self, *};
use compare::isa::Kind::{
    Add, Addi, Bf, Cflush, Div, Divu, Jal, Jalr, Jr, Lbs, Lhs, Lhz, Lwa, Lwz, Mfspr, Mtspr, Mul,
    Muli, Ori, Sb, Sh, Sub, Sw, Swa, J,
};
use compare::isa::{self, Insn};
use compare::lists;
use compare::rng::Rng;
use compare::runs::MEMORY_MOST;
use compare::state::{place, Core, DSX, IEE, OVE, SHEET_WORDS};
use compare::vectors::{Vectors, OLD};

/// "bus, align, illegal, range, syscall, trap, interrupt ... in that order", and where
/// document 01 and note 4 have them.
const CAUSES: [(Cause, u32); 7] = [
    (Bus, 0x200),
    (Alignment, 0x600),
    (Illegal, 0x700),
    (Range, 0xb00),
    (Syscall, 0xc00),
    (Trap, 0xe00),
    (Interrupt, 0x800),
];
/// One that shares nothing with the old one.
const LIST: [u32; 7] = [0x300, 0x320, 0x340, 0x360, 0x380, 0x3a0, 0x3c0];
const TRAP: u32 = 0x2100_0000;
const SYS: u32 = 0x2000_0000;
const ILLEGAL: u32 = 0xfc00_0000;
const END: u32 = BYTES as u32;

fn place_of(cause: Cause) -> usize {
    CAUSES.iter().position(|&(other, _)| other == cause).expect("one of seven")
}

/// A word that raises as `prepared` makes a core.
fn word(cause: Cause) -> u32 {
    match cause {
        Bus => asm(Lwz, 5, 3, 0, 0),
        Alignment => asm(Lwz, 5, 3, 0, 2),
        Illegal => ILLEGAL,
        Range => asm(Add, 5, 4, 4, 0),
        Syscall => SYS,
        Trap => TRAP,
        Interrupt => NOP,
    }
}

/// A case whose first core executes these words, the last entry's line high if it is
/// to be interrupted.
fn prepared(code: &[u32], cause: Cause, list: &[u32; 7]) -> Case {
    let mut levels = vec![0; code.len()];
    let mut case = short::case(code, &levels);
    (case.sheets[3], case.sheets[4]) = (END, 0x7fff_ffff);
    case.sheets[place::SR] |= OVE;
    if cause == Interrupt {
        case.sheets[place::SR] |= IEE;
        levels[code.len() - 1] = 1;
    }
    case.levels = levels;
    case.vectors = list.to_vec();
    case
}

/// One instruction that raises.
fn raising(cause: Cause, list: &[u32; 7]) -> Case {
    prepared(&[word(cause)], cause, list)
}

/// One more entry of core 0.
fn and_then(mut case: Case) -> Case {
    case.schedule.push(0);
    case.levels.push(0);
    case
}

/// "With no such file the old list holds", as a list: 01's addresses and note 4's.
#[test]
fn the_old_list() {
    for (cause, vector) in CAUSES {
        assert_eq!(OLD[place_of(cause)], vector, "{cause:?}");
        assert_eq!(Vectors::OLD.of(cause), vector);
        assert_eq!(core_after(&raising(cause, &OLD)).pc, vector, "{cause:?}");
    }
}

/// Each cause goes to its own line's address, and all else is as with the old list.
#[test]
fn each_cause_has_its_own_vector() {
    for (cause, _) in CAUSES {
        let (old, left) = (run(&raising(cause, &OLD)), run(&raising(cause, &LIST)));
        let expected = Core { pc: LIST[place_of(cause)], ..core_of(&old, 0) };
        assert_eq!(core_of(&left, 0), expected, "{cause:?}");
        assert_eq!((counts(&left), counts(&left).1), (counts(&old), 1), "{cause:?}");
        assert_eq!((&left.case.memory, &left.case.table), (&old.case.memory, &old.case.table));
    }
}

/// Every address in every place, and no other place's has a part in it.
#[test]
fn the_other_places_do_not_matter() {
    for (cause, _) in CAUSES {
        let own = place_of(cause);
        for vector in [0, 4, 0x100, 0x104, 0x800, 0xffc, 0x1000, 0x8_0000, 0xf_fff8, 0xf_fffc] {
            for others in [[0x10; 7], [0xf_0000; 7], [0x2000; 7]] {
                let mut list = [0, 1, 2, 3, 4, 5, 6].map(|number| others[0] + 8 * number);
                list[own] = vector;
                assert_eq!(core_after(&raising(cause, &list)).pc, vector, "{cause:?}");
            }
        }
    }
}

/// The old addresses in every turn, and with each two exchanged.
#[test]
fn the_old_addresses_in_another_order() {
    let mut lists: Vec<[u32; 7]> = vec![];
    for one in 0..7 {
        let mut turned = OLD;
        turned.rotate_left(one);
        lists.push(turned);
        for other in 0..one {
            let mut list = OLD;
            list.swap(one, other);
            lists.push(list);
        }
    }
    assert_eq!(lists.len(), 28);
    for list in lists {
        for (cause, _) in CAUSES {
            let vector = list[place_of(cause)];
            assert_eq!(core_after(&raising(cause, &list)).pc, vector, "{cause:?} {list:x?}");
        }
    }
}

/// In a slot: EPCR is the jump and DSX 1 as ever, and the vector is the list's.
#[test]
fn vectors_from_a_slot() {
    for cause in [Bus, Alignment, Illegal, Range, Trap] {
        for jump in [asm(J, 0, 0, 0, 0x40), asm(Bf, 0, 0, 0, 0x40), asm(Jal, 0, 0, 0, 0x40)] {
            let case = prepared(&[jump, word(cause)], cause, &LIST);
            let core = core_after(&case);
            let (vector, in_slot) = (LIST[place_of(cause)], core.sr & DSX);
            assert_eq!((core.pc, core.epcr, in_slot), (vector, 0x100, DSX), "{cause:?}");
            assert_eq!((core.delay, core.target), (false, 0), "{cause:?}");
        }
    }
    // l.sys is illegal there, and an interrupt waits for the slot's end.
    let jump = asm(J, 0, 0, 0, 0x40);
    assert_eq!(core_after(&prepared(&[jump, SYS], Syscall, &LIST)).pc, LIST[2]);
    let waiting = prepared(&[jump, NOP], Interrupt, &LIST);
    assert_eq!(core_after(&waiting).pc, 0x140);
    let core = core_after(&and_then(waiting));
    assert_eq!((core.pc, core.epcr), (LIST[6], 0x140));
}

/// All ways to each cause: one vector a cause, whatever raised.
#[test]
fn every_way_to_raise() {
    let rows = [
        (Bus, asm(Lwz, 5, 3, 0, 0)),
        (Bus, asm(Lwa, 5, 3, 0, 0)),
        (Bus, asm(Lbs, 5, 3, 0, 0)),
        (Bus, asm(Lhz, 5, 3, 0, 0)),
        (Bus, asm(Sw, 0, 3, 4, 0)),
        (Bus, asm(Sb, 0, 3, 4, 0)),
        (Bus, asm(Sh, 0, 3, 4, 0)),
        (Bus, asm(Swa, 0, 3, 4, 0)),
        (Bus, asm(Cflush, 0, 3, 0, 0)),
        // Below the limit.
        (Bus, asm(Sw, 0, 0, 4, 0x3c)),
        (Bus, asm(Sb, 0, 0, 4, 0x3f)),
        (Bus, asm(Sh, 0, 0, 4, 0x3e)),
        (Bus, asm(Swa, 0, 0, 4, 0x3c)),
        (Alignment, asm(Lwa, 5, 0, 0, 0x42)),
        (Alignment, asm(Lhs, 5, 0, 0, 0x41)),
        (Alignment, asm(Sw, 0, 0, 4, 0x42)),
        (Alignment, asm(Sh, 0, 0, 4, 0x41)),
        (Alignment, asm(Swa, 0, 0, 4, 0x41)),
        (Alignment, asm(Jr, 0, 0, 4, 0)),
        (Alignment, asm(Jalr, 0, 0, 4, 0)),
        (Illegal, ILLEGAL),
        (Illegal, 0x4800_4800),
        (Range, asm(Add, 5, 4, 4, 0)),
        (Range, asm(Addi, 5, 4, 0, 1)),
        (Range, asm(Sub, 5, 0, 6, 0)),
        (Range, asm(Mul, 5, 4, 4, 0)),
        (Range, asm(Muli, 5, 4, 0, 2)),
        (Range, asm(Div, 5, 4, 0, 0)),
        (Range, asm(Divu, 5, 4, 0, 0)),
        (Syscall, 0x2000_ffff),
        (Trap, 0x2100_ffff),
    ];
    for (cause, word) in rows {
        let mut case = prepared(&[word], cause, &LIST);
        (case.limit, case.sheets[6]) = (0x40, 0x8000_0000);
        let left = run(&case);
        let found = (core_of(&left, 0).pc, left.answer.raised);
        assert_eq!(found, (LIST[place_of(cause)], 1), "{cause:?} {word:08x}");
    }
    // Jumps, branches and l.rfe in a slot.
    for word in [asm(J, 0, 0, 0, 8), asm(Jr, 0, 0, 4, 0), asm(Bf, 0, 0, 0, 8), RFE] {
        let case = prepared(&[asm(J, 0, 0, 0, 0x40), word], Illegal, &LIST);
        assert_eq!(core_after(&case).pc, LIST[2], "{word:08x}");
    }
    // A fetch outside memory.
    for pc in [END, 0xffff_fffc] {
        let mut case = raising(Trap, &LIST);
        case.sheets[place::PC] = pc;
        let core = core_after(&case);
        assert_eq!((core.pc, core.epcr, core.eear), (LIST[0], pc, pc));
    }
}

/// Vectors may lie outside memory: the fetch there is a bus error as any other.
#[test]
fn vectors_outside_memory() {
    for (cause, _) in CAUSES {
        for vector in [END, END + 4, 0x1_0000, 0xf_fff8, 0xf_fffc] {
            let mut list = LIST;
            list[place_of(cause)] = vector;
            let case = raising(cause, &list);
            let first = core_after(&case);
            assert_eq!(first.pc, vector, "{cause:?}");
            let left = run(&and_then(case));
            let second = core_of(&left, 0);
            assert_eq!((second.pc, second.epcr, second.eear), (list[0], vector, vector));
            assert_eq!((second.esr, second.sr), (first.sr, first.sr & !DSX), "{cause:?}");
            assert_eq!((left.answer.executed, left.answer.raised), (2, 2), "{cause:?}");
        }
    }
}

/// With the bus errors' own outside, there is nothing else from the first one on.
#[test]
fn bus_errors_for_ever() {
    for vector in [END, 0xf_fffc] {
        let mut list = LIST;
        list[0] = vector;
        let mut case = raising(Bus, &list);
        case.set_schedule(vec![0; 1_000]);
        let left = run(&case);
        assert_eq!(counts(&left), (1_000, 1_000, 0));
        let core = core_of(&left, 0);
        assert_eq!((core.pc, core.epcr, core.eear), (vector, vector, vector));
    }
}

/// "below 1,048,576": the last address is the last word of the largest memory, and
/// what stands there is executed.
#[test]
fn the_last_vector_in_the_largest_memory() {
    for (cause, _) in CAUSES {
        let mut list = LIST;
        list[place_of(cause)] = 0xf_fffc;
        let mut case = and_then(raising(cause, &list));
        case.sheets[3] = MEMORY_MOST as u32;
        case.memory.resize(MEMORY_MOST, 0);
        case.table.resize(MEMORY_MOST / 4, 0);
        put(&mut case, 0xf_fffc, &[asm(Ori, 7, 0, 0, 0x77)]);
        let left = run(&case);
        let core = core_of(&left, 0);
        assert_eq!((core.pc, core.regs[7]), (0x10_0000, 0x77), "{cause:?}");
        assert_eq!(left.case.table[0x3_ffff], isa::decode(case.word(0x3_ffff)));
    }
}

/// A handler where the list says, from the exception to l.rfe, is fetched, held and
/// reused as other code is.
#[test]
fn handlers_elsewhere() {
    for (cause, _) in CAUSES {
        let vector = LIST[place_of(cause)] as usize;
        let mut case = raising(cause, &LIST);
        // It goes on after what raised; a system call and an interrupt do so by themselves.
        let skip = if [Syscall, Interrupt].contains(&cause) { 0 } else { 4 };
        let handler = [
            asm(Mtspr, 0, 0, 0, 0x4802),
            asm(Mfspr, 7, 0, 0, 32),
            asm(Addi, 7, 7, 0, skip),
            asm(Mtspr, 0, 0, 7, 32),
            RFE,
        ];
        put(&mut case, vector, &handler);
        let line = case.levels[0];
        case.set_schedule(vec![0; 7]);
        case.levels[0] = line;
        let left = run(&case);
        let after = if cause == Interrupt { 0x104 } else { 0x108 };
        let core = core_of(&left, 0);
        assert_eq!((core.pc, left.answer.raised), (after, 1), "{cause:?}");
        let held = (vector / 4..vector / 4 + 5).all(|at| left.case.table[at] != 0);
        assert!(held, "{cause:?}");
        // Again, from the table that this left.
        let again = Case { sheets: case.sheets.clone(), levels: case.levels, ..left.case };
        assert!(counts(&run(&again)).2 >= 6, "{cause:?}");
    }
}

/// Vectors at code: at the instruction that raises, which then does so again, and at a
/// word that a store makes into another.
#[test]
fn vectors_at_code() {
    for (cause, _) in CAUSES {
        let mut list = LIST;
        list[place_of(cause)] = 0x100;
        let mut case = raising(cause, &list);
        case.levels = vec![case.levels[0]; 5];
        case.schedule = vec![0; 5];
        let left = run(&case);
        let core = core_of(&left, 0);
        // IEE and OVE are 0 after the first: no interrupt and no range exception again.
        let once = [Range, Interrupt].contains(&cause);
        let (raised, pc) = if once { (1, 0x110) } else { (5, 0x100) };
        assert_eq!((left.answer.raised, core.pc), (raised, pc), "{cause:?}");
    }
    let mut list = LIST;
    list[5] = 0x108;
    let mut case = prepared(&[asm(Sw, 0, 0, 6, 0x108), TRAP, TRAP], Trap, &list);
    case.sheets[6] = asm(Ori, 7, 0, 0, 0x77);
    case.table[0x42] = isa::decode(TRAP);
    let left = run(&case);
    assert_eq!((core_of(&left, 0).regs[7], core_of(&left, 0).pc), (0x77, 0x10c));
    assert_eq!(left.case.table[0x42], isa::decode(case.sheets[6]));
}

/// A list of neighbours: each cause comes to its own word.
#[test]
fn vectors_side_by_side() {
    let list = [0x318, 0x314, 0x310, 0x30c, 0x308, 0x304, 0x300];
    for (cause, _) in CAUSES {
        let mut case = and_then(raising(cause, &list));
        for number in 0..7 {
            put(&mut case, 0x300 + 4 * number, &[asm(Ori, 7, 0, 0, number as u32 + 1)]);
        }
        let core = core_after(&case);
        assert_eq!(core.regs[7], 7 - place_of(cause) as u32, "{cause:?}");
    }
}

/// "Each run uses one list throughout": all entries and all cores.
#[test]
fn one_list_throughout() {
    let mut case = raising(Trap, &LIST);
    case.sheets = case.sheets.repeat(4);
    for (core, cause) in [(1, Illegal), (2, Syscall), (3, Alignment)] {
        let at = 0x100 + 0x10 * core as u32;
        case.sheets[core * SHEET_WORDS + place::PC] = at;
        put(&mut case, at as usize, &[word(cause)]);
    }
    for (place, after) in [(5, 2), (2, 4), (4, 1), (1, 5)] {
        // Each handler raises what another core began with.
        put(&mut case, LIST[place] as usize, &[word(CAUSES[after].0)]);
    }
    case.set_schedule(vec![0, 1, 2, 3, 3, 2, 1, 0, 0, 0, 1, 1, 2, 2, 3, 3]);
    let left = run(&case);
    assert_eq!((left.answer.executed, left.answer.raised), (16, 16));
    let ends = [0, 1, 2, 3].map(|core| core_of(&left, core).pc);
    assert_eq!(ends, [LIST[1], LIST[5], LIST[2], LIST[4]]);
}

/// Each run has its own: nothing of a list stays.
#[test]
fn each_run_has_its_own_list() {
    let case = raising(Trap, &LIST);
    let first = run(&case).case;
    assert_eq!(first.vectors, LIST);
    for list in [OLD, LIST, [4, 8, 12, 16, 20, 24, 28]] {
        let next = Case { sheets: case.sheets.clone(), vectors: list.to_vec(), ..first.clone() };
        assert_eq!(core_after(&next).pc, list[5]);
    }
}

/// Exceptions alone have to do with vectors: one step under two lists leaves the same
/// but for where an exception goes.
#[test]
fn one_step_under_two_lists() {
    let mut raised = 0;
    for seed in 0..2_000 {
        let mut rng = Rng::new(900_000 + seed);
        let mut case = cases::accepted_case(&mut rng, 1);
        let one = run(&case);
        let list = lists::good(&mut rng, &case);
        let before = std::mem::replace(&mut case.vectors, list);
        let mut other = run(&case);
        assert_eq!(one.answer, other.answer, "seed {seed}");
        if one.answer.raised == 1 {
            raised += 1;
            let pc = usize::from(case.schedule[0]) * SHEET_WORDS + place::PC;
            let at = |list: &[u32], pc: u32| list.iter().position(|&vector| vector == pc);
            let (from, to) = (one.case.sheets[pc], other.case.sheets[pc]);
            assert_eq!(at(&before, from), at(&case.vectors, to), "seed {seed}");
            assert!(at(&before, from).is_some(), "seed {seed}");
            other.case.sheets[pc] = from;
        }
        other.case.vectors = before;
        assert_eq!(one.case, other.case, "seed {seed}");
    }
    assert!(raised > 200, "only {raised} exceptions");
}

/// "the step rules are read with it": the step under the fast run too, of an entry that
/// its word is not the form of.
#[test]
fn the_fast_step_has_the_list() {
    let mut table = vec![0; BYTES / 4];
    table[0x40] = Insn::new(isa::Kind::Trap, 0, 0, 0, 0).entry();
    let mut bench = Bench::new(1);
    bench.put(0x100, NOP);
    bench.vectors = Vectors::of_list(&LIST).expect("a good list");
    let (step, reused) = bench.fast_step(0, &mut table);
    assert_eq!((step.raised, reused, bench.cores[0].pc), (Some(Trap), true, LIST[5]));
}

/// A handler in the read-only start of memory runs.
#[test]
fn handlers_below_the_limit() {
    let mut case = and_then(raising(Bus, &LIST));
    case.limit = END;
    put(&mut case, 0x300, &[asm(Ori, 7, 0, 0, 0x77)]);
    assert_eq!((core_after(&case).pc, core_after(&case).regs[7]), (0x304, 0x77));
}

/// The runner's card with its file: the same run but for its vectors.
#[test]
fn cards_with_a_file() {
    // l.trap at 4; the handler at 20 counts in r3 and halts; the old one is not there.
    let words = [NOP, TRAP, NOP, NOP, NOP, NOP, NOP, NOP, asm(Addi, 3, 3, 0, 7), 0x1500_0001];
    let card = Card { steps: 9, words: words.to_vec(), ..Card::default() }.text();
    let file = "bus=00000200\nalign=00000600\nillegal=00000700\nrange=00000b00\n\
        syscall=00000c00\ntrap=00000020\ninterrupt=00000800\n";
    let with_file = "executed=4\nraised=1\nreused=0\n\
        core=0 mode=0 pc=00000028 delay=0 sr=00008001\nr3=00000007\nend\n";
    // At e00 and e04 is 0: a jump in a jump's slot is illegal, and so on at 700.
    let without = "executed=9\nraised=4\nreused=3\n\
        core=0 mode=3 pc=00000704 delay=1 sr=0000a001\nend\n";
    let old = file.replace("trap=00000020", "trap=00000e00");
    let rows = [
        (File::Bytes(file.into()), with_file),
        (File::Absent, without),
        (File::Bytes(old.into()), without),
    ];
    for (file, expected) in rows {
        assert_card(&file, &card, expected);
    }
}

/// A dumped case has its vectors, and one without them has the old list.
#[test]
fn dumps_have_their_vectors() {
    for list in [LIST.to_vec(), vec![0; 7], vec![], vec![0x200; 9]] {
        let mut case = raising(Trap, &LIST);
        case.vectors = list;
        assert_eq!(dump::read_case(&dump::write_case(&case)), Some(case));
    }
    let text = dump::write_case(&raising(Trap, &OLD));
    let (start, rest) = text.split_once("vectors 7\n").expect("a section");
    let table = rest.find("table").expect("the next one");
    let older = dump::read_case(&format!("{start}{}", &rest[table..]));
    assert_eq!(older.expect("an older dump").vectors, OLD);
    assert_eq!(SR, 0x8001);
}
