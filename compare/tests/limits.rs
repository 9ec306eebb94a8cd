//! Single stores and short runs by note 5 of document 02, each sentence at limits
//! worked out by hand, asked of every engine.

mod common;

use common::short::{self, core_after, core_of, counts, full, put, run, NOP, RFE, SR};
use common::{asm, assert_card, Bench, BYTES};
use compare::card::{self, File};
use compare::cards::Card;
use compare::cases::Case;
use compare::dump;
use compare::exec::Cause;
use compare::isa::Kind::{self, *};
use compare::isa::{self, Insn};
use compare::state::{place, Core, CY, DSX, F, IEE, OV, SHEET_WORDS};

/// Stores and their widths.
const STORES: [(Kind, u32); 4] = [(Sw, 4), (Sh, 2), (Sb, 1), (Swa, 4)];
const VALUE: u32 = 0x1122_3344;

/// One core that stores r4 where r3 points to, at a limit.
fn store(kind: Kind, address: u32, limit: u32) -> Case {
    let mut case = short::case(&[asm(kind, 0, 3, 4, 0)], &[0]);
    (case.sheets[3], case.sheets[4], case.limit) = (address, VALUE, limit);
    case
}

/// The same with a link of the core.
fn linked(kind: Kind, address: u32, limit: u32, link: u32) -> Case {
    let mut case = store(kind, address, limit);
    (case.sheets[place::LINK], case.sheets[place::LINK_ADDRESS]) = (1, link);
    case
}

/// The program counter, EEAR and F after one.
fn end(case: &Case) -> (u32, u32, u32) {
    let core = core_after(case);
    (core.pc, core.eear, core.sr & F)
}

/// Bytes of memory that a run changed.
fn changed(case: &Case) -> Vec<usize> {
    let left = run(case).case.memory;
    (0..BYTES).filter(|&byte| left[byte] != case.memory[byte]).collect()
}

/// "raises bus error ..., writes no memory": all of the core, the counts, memory and
/// the table.
#[test]
fn a_refused_store_leaves() {
    for (kind, width) in STORES {
        for imm in [0x40, 0x80 - width] {
            let mut case = store(kind, 0, 0x80);
            put(&mut case, 0x100, &[asm(kind, 0, 0, 4, imm)]);
            let before = full();
            before.to_sheet(&mut case.sheets);
            let expected = Core {
                pc: 0x200,
                epcr: 0x100,
                eear: imm,
                esr: before.sr,
                sr: SR | F | CY | OV,
                link: false,
                link_address: 0,
                ..before
            };
            let left = run(&case);
            assert_eq!(core_of(&left, 0), expected, "{kind:?}");
            assert_eq!(counts(&left), (1, 1, 0), "{kind:?}");
            let mut table = case.table.clone();
            table[0x40] = isa::decode(case.word(0x40));
            assert_eq!((&left.case.memory, &left.case.table), (&case.memory, &table));
        }
    }
}

/// "Any store or l.swa reaching below it raises bus error after alignment": every
/// address around some limits.
#[test]
fn addresses_around_the_limit() {
    for limit in [0, 4, 0x40, 0x80, 0x104, 0x200, 0xffc, 0x1000] {
        for (kind, width) in STORES {
            for address in u32::saturating_sub(limit, 9)..limit + 9 {
                let case = linked(kind, address, limit, address & !3);
                let bus = address < limit || address + width > BYTES as u32;
                let (pc, eear, written) = match address.is_multiple_of(width) {
                    false => (0x600, address, 0),
                    true if bus => (0x200, address, 0),
                    true => (0x104, 0, width as usize),
                };
                let at = (kind, address, limit);
                assert_eq!((end(&case).0, end(&case).1), (pc, eear), "{at:x?}");
                let bytes: Vec<usize> = (0..written).map(|byte| address as usize + byte).collect();
                assert_eq!(changed(&case), bytes, "{at:x?}");
            }
        }
    }
}

/// "after alignment": also where the first or the last byte alone is below.
#[test]
fn alignment_comes_first() {
    for (kind, address) in [(Sw, 0x7e), (Sw, 0x7f), (Sw, 0x41), (Sh, 0x7f), (Swa, 0x7d)] {
        assert_eq!(end(&store(kind, address, 0x80)), (0x600, address, 0), "{kind:?}");
        let whole = store(kind, address, BYTES as u32);
        assert_eq!(end(&whole), (0x600, address, 0), "{kind:?}");
    }
}

/// "and before the link test": whatever the link, l.swa raises and F stays.
#[test]
fn the_link_is_tested_after() {
    for flag in [0, F] {
        for (limit, pc) in [(0x80, 0x200), (0x44, 0x200), (0x40, 0x104), (0, 0x104)] {
            for link in [None, Some(0x40), Some(0x44), Some(0x3c)] {
                let mut case = match link {
                    None => store(Swa, 0x40, limit),
                    Some(link) => linked(Swa, 0x40, limit, link),
                };
                case.sheets[place::SR] |= flag;
                let stores = pc == 0x104 && link == Some(0x40);
                let left_flag = match pc {
                    0x200 => flag,
                    _ if stores => F,
                    _ => 0,
                };
                let core = core_after(&case);
                assert_eq!((core.pc, core.sr & F, core.link), (pc, left_flag, false), "{link:?}");
                let eear = if pc == 0x200 { 0x40 } else { 0 };
                assert_eq!((core.eear, core.link_address), (eear, 0));
                assert_eq!(changed(&case).len(), if stores { 4 } else { 0 }, "{link:?}");
            }
        }
    }
}

/// "clears no other core's link", of a running core or a halted one. The core's own
/// link goes by the exception, to whatever word.
#[test]
fn links_after_a_refused_store() {
    for (kind, _) in STORES {
        for (limit, stays) in [(0x44, true), (0x40, false)] {
            let mut case = linked(kind, 0x40, limit, 0x40);
            case.sheets.extend(card::reset_sheets(3, 0x100));
            for (core, link) in [(1, 0x40), (2, 0x40), (3, 0x44)] {
                let sheet = &mut case.sheets[core * SHEET_WORDS..];
                (sheet[place::LINK], sheet[place::LINK_ADDRESS]) = (1, link);
            }
            case.sheets[2 * SHEET_WORDS + place::MODE] = 0;
            let left = run(&case);
            let links = [0, 1, 2, 3].map(|core| core_of(&left, core).link);
            assert_eq!(links, [false, stays, stays, true], "{kind:?} {limit:x}");
        }
        let core = core_after(&linked(kind, 0x40, 0x44, 0x300));
        assert_eq!((core.link, core.link_address), (false, 0), "{kind:?}");
    }
}

/// "Delay, target and link are cleared": after a refused store the core's l.swa past
/// the limit fails.
#[test]
fn a_refused_store_breaks_the_own_link() {
    let last = asm(Swa, 0, 0, 4, 0x80);
    let code = [asm(Lwa, 5, 0, 0, 0x80), asm(Sw, 0, 0, 4, 0x40), last];
    for (limit, flag) in [(0x80, 0), (0x44, 0), (0x40, F), (0, F)] {
        let mut case = short::case(&code, &[0; 3]);
        put(&mut case, 0x200, &[last]);
        case.limit = limit;
        let core = core_after(&case);
        assert_eq!((core.sr & F, core.pc), (flag, if flag == F { 0x10c } else { 0x204 }));
    }
}

/// A refused store is no store that writes: the table's entry of its word stays, and
/// the fetch of the refused one fills or reuses its own.
#[test]
fn the_table_after_a_refused_store() {
    for (kind, _) in STORES {
        for filled in [false, true] {
            let mut case = store(kind, 0x300, 0x400);
            let own = 0x100 / 4;
            if filled {
                case.table[0xc0] = isa::decode(NOP);
                case.table[own] = isa::decode(case.word(own));
            }
            let left = run(&case);
            assert_eq!(counts(&left), (1, 1, u32::from(filled)));
            let held: Vec<usize> = (0..BYTES / 4).filter(|&at| left.case.table[at] != 0).collect();
            assert_eq!(held, if filled { vec![0x40, 0xc0] } else { vec![0x40] }, "{kind:?}");
        }
        // Into its own word, of its own value or another.
        let case = store(kind, 0x100, 0x104);
        let left = run(&case);
        assert_eq!(left.case.table[0x40], isa::decode(case.word(0x40)), "{kind:?}");
        let stored = run(&linked(kind, 0x100, 0x100, 0x100));
        assert_eq!(stored.case.table[0x40], 0, "{kind:?}");
    }
}

/// Stores alone are named: loads, l.lwa, p.* and fetches go on below the limit.
#[test]
fn reads_below_the_limit() {
    let reads = [
        (Lwa, 0x1122_3344),
        (Lwz, 0x1122_3344),
        (Lws, 0x1122_3344),
        (Lbz, 0x11),
        (Lbs, 0x11),
        (Lhz, 0x1122),
        (Lhs, 0x1122),
    ];
    for (kind, value) in reads {
        let mut case = short::case(&[asm(kind, 5, 0, 0, 0x40)], &[0]);
        put(&mut case, 0x40, &[VALUE]);
        for limit in [0x40, 0x44, 0x104, BYTES as u32] {
            case.limit = limit;
            let core = core_after(&case);
            assert_eq!((core.pc, core.regs[5], core.link), (0x104, value, kind == Lwa));
        }
    }
    for kind in [Cinvalidate, Cwriteback, Cflush] {
        let mut case = short::case(&[asm(kind, 0, 0, 0, 0x43)], &[0, 0]);
        case.limit = BYTES as u32;
        let left = run(&case);
        assert_eq!((core_of(&left, 0).pc, counts(&left)), (0x108, (2, 0, 0)), "{kind:?}");
    }
}

/// A limit of memory's length: all of it is read-only, and a store outside is what
/// it was.
#[test]
fn all_of_memory_read_only() {
    for (kind, width) in STORES {
        for address in [0, 0x100, BYTES as u32 - width] {
            let case = linked(kind, address, BYTES as u32, address & !3);
            assert_eq!(end(&case), (0x200, address, 0), "{kind:?}");
            assert_eq!(changed(&case), []);
        }
        for limit in [0, BYTES as u32] {
            for address in [BYTES as u32, 0xffff_fff0] {
                assert_eq!(end(&store(kind, address, limit)), (0x200, address, 0), "{kind:?}");
            }
        }
    }
}

/// "0 for none": the first byte can be written; "a limit in bytes": not in words.
#[test]
fn limits_are_bytes() {
    assert_eq!(changed(&store(Sb, 0, 0)), [0]);
    assert_eq!(changed(&store(Sw, 0, 0)), [0, 1, 2, 3]);
    assert_eq!(changed(&store(Sb, 3, 4)), []);
    assert_eq!(changed(&store(Sb, 4, 4)), [4]);
    assert_eq!(changed(&store(Sw, 0x100, 0x100)), [0x100, 0x101, 0x102, 0x103]);
    assert_eq!(changed(&store(Sw, 0xfc, 0x100)), []);
}

/// In a slot EPCR is the jump and DSX 1; the target is gone.
#[test]
fn a_refused_store_in_a_slot() {
    for (kind, _) in STORES {
        for (jump, limit) in [(J, 0x44), (Bf, 0x44), (Bnf, 0x200)] {
            let code = [asm(jump, 0, 0, 0, 0x40), asm(kind, 0, 0, 4, 0x40)];
            let mut case = short::case(&code, &[0, 0]);
            case.limit = limit;
            let core = core_after(&case);
            assert_eq!((core.pc, core.epcr, core.eear), (0x200, 0x100, 0x40), "{kind:?}");
            assert_eq!((core.sr, core.esr), (SR | DSX, SR), "{kind:?}");
            assert_eq!((core.delay, core.target), (false, 0));
        }
    }
}

/// The limit holds for every core.
#[test]
fn every_core_has_the_limit() {
    let mut case = store(Sw, 0x40, 0x80);
    case.sheets = case.sheets.repeat(4);
    case.set_schedule(vec![3, 1, 0, 2]);
    let left = run(&case);
    assert_eq!((counts(&left), &left.case.memory), ((4, 4, 3), &case.memory));
}

/// An interrupt comes in place of the store, as of any instruction.
#[test]
fn interrupts_come_before_the_limit() {
    let mut case = store(Sw, 0x40, 0x80);
    case.sheets[place::SR] |= IEE;
    case.levels = vec![1];
    assert_eq!(end(&case), (0x800, 0, 0));
}

/// "programs probe this": one that stores to every word in turn until a store works,
/// its handler skipping those that raise.
#[test]
fn a_program_finds_the_limit() {
    let code = [
        asm(Addi, 6, 0, 0, 0),
        asm(Sw, 0, 3, 4, 0),
        asm(Addi, 6, 6, 0, 1),
        asm(Sfeqi, 0, 6, 0, 1),
        asm(Bnf, 0, 0, 0, 0u32.wrapping_sub(12)),
        asm(Addi, 3, 3, 0, 4),
        asm(Nop, 0, 0, 0, 1),
    ];
    // On to the compare, which finds r6 as it was.
    let handler = [asm(Mfspr, 7, 0, 0, 32), asm(Addi, 7, 7, 0, 8), asm(Mtspr, 0, 0, 7, 32), RFE];
    for limit in [0, 4, 0x40, 0x100] {
        let mut case = short::case(&code, &vec![0; 1_000]);
        put(&mut case, 0x200, &handler);
        (case.sheets[4], case.limit) = (VALUE, limit);
        let left = run(&case);
        let core = core_of(&left, 0);
        assert_eq!((core.is_running(), core.regs[3]), (false, limit + 4), "{limit:x}");
        assert_eq!(left.answer.raised, limit / 4);
        assert_eq!(left.case.word(limit as usize / 4), VALUE);
    }
}

/// "Runs take a limit": each its own; nothing of it stays.
#[test]
fn each_run_has_its_own_limit() {
    let mut case = store(Sw, 0x40, 0x80);
    let refused = run(&case).case;
    assert_eq!(refused.memory, case.memory);
    case = Case { sheets: case.sheets, limit: 0x40, ..refused };
    assert_eq!(run(&case).case.word(0x10), VALUE);
    case.limit = 0x44;
    assert_eq!(run(&case).case.word(0x10), NOP);
}

/// "executes a filled entry as it stands and not its word": the limit is for the
/// entry's store.
#[test]
fn the_fast_step_has_the_limit() {
    let mut table = vec![0; BYTES / 4];
    table[0x40] = Insn::new(Sw, 0, 0, 4, 0x40).entry();
    for (limit, raised, stored) in [(0x44, Some(Cause::Bus), None), (0x40, None, Some(0x40))] {
        let mut bench = Bench::new(1);
        bench.put(0x100, NOP);
        bench.limit = limit;
        let (step, reused) = bench.fast_step(0, &mut table.clone());
        assert_eq!((step.raised, step.stored, reused), (raised, stored, true), "{limit:x}");
    }
}

/// "the card runner uses 0": a card's program may store anywhere in its memory.
#[test]
fn cards_have_no_limit() {
    let words = [asm(Ori, 3, 0, 0, 0x55), asm(Sb, 0, 0, 3, 0), asm(Lwz, 4, 0, 0, 0)];
    let card = Card { steps: 3, words: words.to_vec(), ..Card::default() }.text();
    let expected = "executed=3\nraised=0\nreused=0\n\
        core=0 mode=3 pc=0000000c delay=0 sr=00008001\n\
        r3=00000055\nr4=55600055\nend\n";
    assert_card(&File::Absent, &card, expected);
}

/// A dumped case has its limit, and one without is at none.
#[test]
fn dumps_have_their_limit() {
    let case = store(Sw, 0x40, 0x80);
    let text = dump::write_case(&case);
    assert!(text.contains("\nlimit 128\n"), "{text}");
    assert_eq!(dump::read_case(&text), Some(case));
    let before = dump::read_case(&text.replace("limit 128\n", "")).expect("an older dump");
    assert_eq!(before.limit, 0);
}
