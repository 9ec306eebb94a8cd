//! Short runs by note 8 of document 02, each sentence on cores set up by hand, asked of
//! every engine.

mod common;

use common::short::{self, core_of, counts, full, put, run, NOP, RFE, SR};
use common::{asm, assert_card, engines, Bench, BYTES};
use compare::card::{self, File};
use compare::cards::Card;
use compare::cases::Case;
use compare::check::{self, Left};
use compare::isa::{self, Kind};
use compare::runs::Answer;
use compare::state::{place, Core, Mode, CY, F, IEE, OV, OVE, SHEET_WORDS};

const HALT: u32 = 0x1500_0001;
const TRAP: u32 = 0x2100_0000;
const ILLEGAL: u32 = 0xfc00_0000;

/// Core 0 at 100 and linked cores after it; all lines low.
fn case(cores: usize, code: &[u32], schedule: &[u8]) -> Case {
    let mut case = short::case(code, &vec![0; schedule.len()]);
    case.schedule = schedule.to_vec();
    case.sheets = card::reset_sheets(cores, 0x100);
    for core in 1..cores {
        word(&mut case, core, place::MODE, 1);
    }
    case
}

/// Puts a value on a core's sheet.
fn word(case: &mut Case, core: usize, place: usize, value: u32) {
    case.sheets[core * SHEET_WORDS + place] = value;
}

/// The same on every core, by its number.
fn each(case: &mut Case, place: usize, value: impl Fn(u32) -> u32) {
    for core in 0..case.cores() {
        word(case, core, place, value(core as u32));
    }
}

/// Something of every core.
fn all<T>(left: &Left, of: impl Fn(&Core) -> T) -> Vec<T> {
    (0..left.case.cores()).map(|core| of(&core_of(left, core))).collect()
}

/// What a core's sheet had.
fn was(case: &Case, core: usize) -> Core {
    Core::from_sheet(&case.sheets[core * SHEET_WORDS..][..SHEET_WORDS])
}

fn places(core: &Core) -> (u32, bool, u32) {
    (core.pc, core.delay, core.target)
}

/// "is executed by core 0 and then by every linked core in rising order": of stores to
/// one word the last one's stays, of stores to parts of it each one's.
#[test]
fn linked_cores_follow_in_rising_order() {
    for cores in 1..=4 {
        let mut case = case(cores, &[asm(Kind::Sw, 0, 0, 4, 0x40)], &[0]);
        each(&mut case, 4, |number| 10 + number);
        let left = run(&case);
        assert_eq!(left.case.word(0x10), 10 + cores as u32 - 1);
        assert_eq!(counts(&left), (1, 0, 0));
        assert!(all(&left, |core| core.pc).iter().all(|&pc| pc == 0x104));
    }
    let mut case = case(4, &[asm(Kind::Sb, 0, 3, 4, 0x40)], &[0]);
    each(&mut case, 3, |number| number);
    each(&mut case, 4, |number| 0x71 + number);
    assert_eq!(run(&case).case.word(0x10), 0x7172_7374);
}

/// What a lower one left is what the next one meets: a word is passed on by l.lwz and
/// l.sw, a step at a time.
#[test]
fn linked_cores_share_the_memory() {
    let code = [asm(Kind::Sw, 0, 3, 4, 0), asm(Kind::Lwz, 5, 3, 0, 0u32.wrapping_sub(4))];
    let mut case = case(4, &code, &[0, 0]);
    each(&mut case, 3, |number| 0x44 + 4 * number);
    each(&mut case, 4, |number| 70 + number);
    let left = run(&case);
    assert_eq!(all(&left, |core| core.regs[5]), [NOP, 70, 71, 72]);
    assert_eq!((0x11..0x15).map(|at| left.case.word(at)).collect::<Vec<_>>(), [70, 71, 72, 73]);
}

/// "each on its own registers".
#[test]
fn registers_are_their_own() {
    let code = [
        asm(Kind::Addc, 5, 3, 4, 0),
        asm(Kind::Sfgtui, 0, 3, 0, 1),
        asm(Kind::Cmov, 6, 3, 4, 0),
        asm(Kind::Maci, 0, 3, 0, 5),
        asm(Kind::Mtspr, 0, 0, 4, 48),
    ];
    let mut case = case(4, &code, &[0; 5]);
    each(&mut case, 3, |number| number);
    each(&mut case, 4, |number| 0xffff_fff0 + 8 * number);
    each(&mut case, place::SR, |number| SR | if number % 2 == 1 { CY } else { 0 });
    each(&mut case, place::MACLO, |number| 100 * number);
    let left = run(&case);
    // r4 is fffffff0, fffffff8, 0 and 8; cores 1 and 3 have a carry to add.
    assert_eq!(all(&left, |core| core.regs[5]), [0xffff_fff0, 0xffff_fffa, 2, 12]);
    assert_eq!(all(&left, |core| core.has(F)), [false, false, true, true]);
    assert_eq!(all(&left, |core| core.regs[6]), [0xffff_fff0, 0xffff_fff8, 2, 3]);
    assert_eq!(all(&left, |core| core.maclo), [0, 105, 210, 315]);
    assert_eq!(all(&left, |core| core.eear), [0xffff_fff0, 0xffff_fff8, 0, 8]);
    assert_eq!(counts(&left), (5, 0, 0));
}

/// Special registers too, 128 among them.
#[test]
fn special_registers_are_their_own() {
    let numbers = [128, 129, 17, 32, 48, 64, 0x2801, 0x2802, 0x4800, 0x4802, 96];
    for number in numbers {
        let mut case = case(3, &[asm(Kind::Mfspr, 5, 0, 0, number)], &[0]);
        each(&mut case, place::SR, |core| SR | core << 9);
        each(&mut case, place::EPCR, |core| 0x20 + 4 * core);
        each(&mut case, place::EEAR, |core| 0x31 + core);
        each(&mut case, place::ESR, |core| 0x8000 | core);
        each(&mut case, place::MACLO, |core| 0x51 + core);
        each(&mut case, place::MACHI, |core| 0x61 + core);
        each(&mut case, place::PICMR, |core| 0x73 + 4 * core);
        each(&mut case, place::PICSR, |core| 0x81 + core);
        let expected = match number {
            128 => [0, 1, 2],
            129 => [3, 3, 3],
            17 => [0x8001, 0x8201, 0x8401],
            32 => [0x20, 0x24, 0x28],
            48 => [0x31, 0x32, 0x33],
            64 => [0x8000, 0x8001, 0x8002],
            0x2801 => [0x51, 0x52, 0x53],
            0x2802 => [0x61, 0x62, 0x63],
            0x4800 => [0x73, 0x77, 0x7b],
            0x4802 => [0x81, 0x82, 0x83],
            _ => [0; 3],
        };
        assert_eq!(all(&run(&case), |core| core.regs[5]), expected, "{number:x}");
    }
    // Written, each its own.
    let code = [(17, place::SR), (32, place::EPCR), (64, place::ESR), (0x4802, place::PICSR)];
    for (number, written) in code {
        let mut case = case(3, &[asm(Kind::Mtspr, 0, 0, 4, number)], &[0]);
        each(&mut case, 4, |core| 0x8000 | (0x200 * core));
        each(&mut case, place::PICSR, |_| 0xffff_ffff);
        let left = run(&case);
        let sheets = left.case.sheets.chunks(SHEET_WORDS);
        let found: Vec<u32> = sheets.map(|sheet| sheet[written]).collect();
        assert_eq!(found, [0x8000, 0x8200, 0x8400], "{number:x}");
    }
}

/// "a linked core's own entry does nothing", whatever its lines, PICSR and PC.
#[test]
fn own_entries_do_nothing() {
    for (picsr, pc, lines) in [(0, 0x100, 0), (0, 0x100, u32::MAX), (1, 0x100, 1), (1, 0xffc, 3)] {
        let mut case = case(4, &[HALT], &[1, 2, 3, 1]);
        for core in 1..4 {
            word(&mut case, core, place::SR, SR | IEE);
            word(&mut case, core, place::PICSR, picsr);
            word(&mut case, core, place::PC, pc);
        }
        case.levels = vec![lines; 4];
        let left = run(&case);
        assert_eq!((&left.case, left.answer), (&case, Answer::default()), "{picsr} {pc:x}");
    }
}

/// The entry's lines are core 0's: linked cores latch none of them, and none takes an
/// interrupt.
#[test]
fn linked_cores_take_no_lines() {
    let mut case = case(2, &[asm(Kind::Addi, 5, 5, 0, 1); 3], &[0, 0, 0]);
    case.levels = vec![4, 8, 0];
    each(&mut case, place::PICMR, |core| if core == 0 { 3 } else { u32::MAX });
    word(&mut case, 1, place::SR, SR | IEE);
    word(&mut case, 1, place::PICSR, 0x100);
    let left = run(&case);
    assert_eq!(all(&left, |core| (core.pc, core.regs[5])), [(0x10c, 3), (0x10c, 3)]);
    assert_eq!(all(&left, |core| core.picsr), [0, 0x100]);
    assert_eq!(counts(&left), (3, 0, 0));
}

/// "Linked cores execute with core 0's PC and delay, and take its PC, delay and target
/// afterwards", whatever their sheets have there.
#[test]
fn places_are_core_0s() {
    let jump = asm(Kind::J, 0, 0, 0, 0x40);
    for (pc, delay, target) in
        [(0x100, 0, 0), (0x200, 0, 0), (0x200, 1, 0x300), (0xffff_fffc, 1, 0)]
    {
        for (code, expected) in [
            (vec![NOP], (0x104, false, 0)),
            (vec![jump], (0x104, true, 0x140)),
            (vec![jump, NOP], (0x140, false, 0)),
            (vec![asm(Kind::Bf, 0, 0, 0, 0x40)], (0x104, true, 0x108)),
        ] {
            let mut case = case(3, &code, &vec![0; code.len()]);
            for core in 1..3 {
                word(&mut case, core, place::PC, pc);
                word(&mut case, core, place::DELAY, delay);
                word(&mut case, core, place::TARGET, target);
            }
            let left = run(&case);
            assert_eq!(all(&left, places), [expected; 3], "{pc:x} {delay} {code:x?}");
            assert!(all(&left, |core| core.mode)[1..].iter().all(|mode| *mode == Mode::Linked));
        }
    }
    // In a slot of core 0, too, where they themselves have none.
    let mut case = case(2, &[NOP], &[0]);
    word(&mut case, 0, place::DELAY, 1);
    word(&mut case, 0, place::TARGET, 0x180);
    assert_eq!(all(&run(&case), places), [(0x180, false, 0); 2]);
}

/// "conditions ... included": by core 0's F.
#[test]
fn branches_are_core_0s() {
    for kind in [Kind::Bf, Kind::Bnf] {
        for flags in [[0, F, 0], [F, 0, F], [F, F, 0], [0, 0, F]] {
            let mut case = case(3, &[asm(kind, 0, 0, 0, 0x40)], &[0]);
            each(&mut case, place::SR, |core| SR | flags[core as usize]);
            let left = run(&case);
            let taken = (kind == Kind::Bf) == (flags[0] == F);
            let goal = if taken { 0x140 } else { 0x108 };
            assert_eq!(all(&left, places), [(0x104, true, goal); 3], "{kind:?} {flags:x?}");
            assert_eq!(all(&left, |core| core.sr), flags.map(|flag| SR | flag));
        }
    }
}

/// "register targets included (a linked core's own target is not tested)".
#[test]
fn register_targets_are_core_0s() {
    for kind in [Kind::Jr, Kind::Jalr] {
        for own in [0x200, 0x300, 0x201, 0x202, 0x203, 0xffff_ffff, 0] {
            let mut case = case(3, &[asm(kind, 0, 0, 4, 0)], &[0]);
            each(&mut case, 4, |core| if core == 0 { 0x200 } else { own });
            each(&mut case, 9, |core| 7 * core);
            let left = run(&case);
            assert_eq!(all(&left, places), [(0x104, true, 0x200); 3], "{kind:?} {own:x}");
            let links = if kind == Kind::Jr { [0, 7, 14] } else { [0x108; 3] };
            assert_eq!(all(&left, |core| core.regs[9]), links, "{kind:?} {own:x}");
            assert_eq!(counts(&left), (1, 0, 0));
        }
        // Core 0's is.
        let mut case = case(3, &[asm(kind, 0, 0, 4, 0)], &[0]);
        each(&mut case, 4, |core| 0x200 + u32::from(core == 0));
        let left = run(&case);
        assert_eq!((core_of(&left, 0).pc, core_of(&left, 0).eear), (0x600, 0x201));
        for core in 1..3 {
            assert_eq!(core_of(&left, core), was(&case, core));
        }
    }
}

/// "jal and jalr put core 0's link value in r9".
#[test]
fn link_values_are_core_0s() {
    for code in [asm(Kind::Jal, 0, 0, 0, 0x40), asm(Kind::Jalr, 0, 0, 4, 0)] {
        let mut case = case(4, &[code], &[0]);
        each(&mut case, 4, |_| 0x140);
        for core in 1..4 {
            word(&mut case, core, place::PC, 0x400 + 0x40 * core as u32);
        }
        let left = run(&case);
        assert_eq!(all(&left, |core| core.regs[9]), [0x108; 4]);
        assert_eq!(all(&left, places), [(0x104, true, 0x140); 4]);
    }
}

/// Accesses that raise on a linked core if r3 is one more than the others': they are
/// misaligned then, or outside memory.
const RAISING: [(Kind, u32); 14] = [
    (Kind::Lwz, 0),
    (Kind::Lws, 0),
    (Kind::Lhz, 0),
    (Kind::Lhs, 0),
    (Kind::Lwa, 0),
    (Kind::Sw, 0),
    (Kind::Sh, 0),
    (Kind::Swa, 0),
    (Kind::Lbz, 0xfff),
    (Kind::Lbs, 0xfff),
    (Kind::Sb, 0xfff),
    (Kind::Cinvalidate, 0xfff),
    (Kind::Cwriteback, 0xfff),
    (Kind::Cflush, 0xfff),
];

/// "A linked core that would raise goes to mode 0, uncounted in raised, and writes
/// nothing else that step"; the others go on.
#[test]
fn a_linked_core_that_would_raise() {
    for (kind, imm) in RAISING {
        for bad in 1..4 {
            let (d, b) = match kind {
                Kind::Sw | Kind::Sh | Kind::Sb | Kind::Swa => (0, 4),
                Kind::Cinvalidate | Kind::Cwriteback | Kind::Cflush => (0, 0),
                _ => (5, 0),
            };
            let mut case = case(4, &[asm(kind, d, 3, b, imm)], &[0]);
            for core in 1..4 {
                let sheet = &mut case.sheets[core * SHEET_WORDS..][..SHEET_WORDS];
                Core { mode: Mode::Linked, link_address: 0x80, ..full() }.to_sheet(sheet);
            }
            let (good, wrong) = if imm == 0 { (0x40, 0x41) } else { (0, 1) };
            each(&mut case, 3, |core| if core == bad { wrong } else { good });
            let left = run(&case);
            let halted = Core { mode: Mode::Halted, ..was(&case, bad as usize) };
            assert_eq!(core_of(&left, bad as usize), halted, "{kind:?} on {bad}");
            for core in (0..4).filter(|&core| core != bad as usize) {
                let found = core_of(&left, core);
                assert_eq!(places(&found), (0x104, false, 0), "{kind:?}: {core} beside {bad}");
                assert_eq!(found.mode, was(&case, core).mode);
            }
            assert_eq!(counts(&left), (1, 0, 0), "{kind:?} on {bad}");
        }
    }
}

/// "writes nothing else": at range neither rD nor flags, though 01 has them written.
#[test]
fn range_on_a_linked_core_writes_nothing() {
    let kinds = [Kind::Add, Kind::Addc, Kind::Sub, Kind::Mul, Kind::Div, Kind::Divu];
    let with_immediates = [(Kind::Addi, 1), (Kind::Addic, 1), (Kind::Muli, 2)];
    let words = kinds
        .iter()
        .map(|&kind| asm(kind, 5, 3, 4, 0))
        .chain(with_immediates.iter().map(|&(kind, imm)| asm(kind, 5, 3, 0, imm)));
    for word_of_kind in words {
        let kind = isa::decode_insn(word_of_kind).kind;
        let (x, y) = match kind {
            Kind::Sub => (0x8000_0000, 1),
            Kind::Mul => (0x4000_0000, 2),
            Kind::Muli => (0x4000_0000, 0),
            Kind::Div | Kind::Divu => (7, 0),
            _ => (0x7fff_ffff, 1),
        };
        for enabled in [false, true] {
            let mut case = case(3, &[word_of_kind], &[0]);
            each(&mut case, 4, |_| 1);
            (case.sheets[SHEET_WORDS + 3], case.sheets[SHEET_WORDS + 4]) = (x, y);
            case.sheets[SHEET_WORDS + 5] = 99;
            word(&mut case, 1, place::SR, SR | F | if enabled { OVE } else { 0 });
            // Core 0's OVE is not the linked core's.
            word(&mut case, 0, place::SR, SR | if enabled { 0 } else { OVE });
            let left = run(&case);
            let (found, then) = (core_of(&left, 1), was(&case, 1));
            if enabled {
                assert_eq!(found, Core { mode: Mode::Halted, ..then }, "{kind:?}");
            } else {
                let by_zero = matches!(kind, Kind::Div | Kind::Divu);
                assert_eq!((found.mode, found.pc), (Mode::Linked, 0x104), "{kind:?}");
                assert_eq!((found.has(OV), found.has(CY)), (!by_zero, by_zero), "{kind:?}");
            }
            assert_eq!((core_of(&left, 2).pc, core_of(&left, 2).mode), (0x104, Mode::Linked));
            assert_eq!(counts(&left), (1, 0, 0), "{kind:?}");
        }
    }
}

/// A core that dropped out executes no more, and several may drop out.
#[test]
fn those_that_dropped_out_stay_halted() {
    let code = [asm(Kind::Lwz, 5, 3, 0, 0), asm(Kind::Addi, 6, 6, 0, 1), NOP];
    let mut case = case(4, &code, &[0, 0, 1, 2, 0]);
    each(&mut case, 3, |core| 0x40 + core % 2);
    let left = run(&case);
    let (halted, linked) = (Mode::Halted, Mode::Linked);
    assert_eq!(all(&left, |core| core.mode), [Mode::Running, halted, linked, halted]);
    assert_eq!(all(&left, |core| core.pc), [0x10c, 0x100, 0x10c, 0x100]);
    assert_eq!(all(&left, |core| core.regs[6]), [1, 0, 1, 0]);
    assert_eq!(counts(&left), (3, 0, 0));
}

/// In a slot it keeps the slot's places, which it had taken at the jump.
#[test]
fn raising_in_a_slot() {
    let code = [asm(Kind::J, 0, 0, 0, 0x40), asm(Kind::Lwz, 5, 3, 0, 0)];
    let mut case = case(3, &code, &[0, 0]);
    word(&mut case, 1, 3, 2);
    let left = run(&case);
    let (slot, after) = ((0x104, true, 0x140), (0x140, false, 0));
    assert_eq!(all(&left, places), [after, slot, after]);
    assert_eq!(core_of(&left, 1).mode, Mode::Halted);
}

/// What others store in that step clears its link; its own raising does not.
#[test]
fn links_of_those_that_would_raise() {
    // Core 2 raises; cores store at 40, 44, 48 and 4c, where r3 is.
    for (link, kept) in [(0x40, false), (0x44, false), (0x48, true), (0x4c, false), (0x80, true)] {
        for kind in [Kind::Sw, Kind::Sh, Kind::Sb, Kind::Swa] {
            let mut case = case(4, &[asm(kind, 0, 3, 4, 0)], &[0]);
            each(&mut case, 3, |core| 0x40 + 4 * core);
            // Its own address is misaligned or, of a byte, outside.
            word(&mut case, 2, 3, if kind == Kind::Sb { 0x1000 } else { 0x49 });
            for core in 0..4 {
                word(&mut case, core, place::LINK, 1);
                word(&mut case, core, place::LINK_ADDRESS, 0x40 + 4 * core as u32);
            }
            word(&mut case, 2, place::LINK_ADDRESS, link);
            let left = run(&case);
            let mut expected = Core { mode: Mode::Halted, ..was(&case, 2) };
            if !kept {
                expected.clear_link();
            }
            assert_eq!(core_of(&left, 2), expected, "{kind:?} {link:x}");
            assert_eq!(left.case.word(0x12), NOP);
        }
    }
}

/// A linked store is held to the limit.
#[test]
fn linked_stores_below_the_limit() {
    for kind in [Kind::Sw, Kind::Sh, Kind::Sb, Kind::Swa] {
        let mut case = case(3, &[asm(kind, 0, 3, 4, 0)], &[0]);
        case.limit = 0x80;
        each(&mut case, 3, |core| 0x80 - 4 * (core % 2));
        each(&mut case, 4, |core| 0x0101_0101 * (core + 1));
        for core in 0..3 {
            word(&mut case, core, place::LINK, 1);
            word(&mut case, core, place::LINK_ADDRESS, 0x80 - 4 * (core as u32 % 2));
        }
        let left = run(&case);
        assert_eq!(core_of(&left, 1), Core { mode: Mode::Halted, ..was(&case, 1) }, "{kind:?}");
        assert_eq!(left.case.word(0x1f), NOP, "{kind:?}");
        // Of l.swa core 0's alone finds its link; else core 2's value is the last.
        let byte = if kind == Kind::Swa { 1 } else { 3 };
        assert_eq!(left.case.memory[0x80], byte, "{kind:?}");
        assert_eq!(counts(&left), (1, 0, 0));
    }
}

/// "l.nop 1 halts core 0 and all linked cores", which take its places; cores that are
/// running go on.
#[test]
fn halting() {
    for slot in [false, true] {
        let code = if slot { vec![asm(Kind::J, 0, 0, 0, 0x40), HALT] } else { vec![HALT] };
        let mut case = case(4, &code, &vec![0; code.len() + 2]);
        word(&mut case, 2, place::MODE, 3);
        word(&mut case, 2, place::PC, 0x300);
        word(&mut case, 1, place::LINK, 1);
        let left = run(&case);
        let (halted, pc) = (Mode::Halted, if slot { 0x140 } else { 0x104 });
        assert_eq!(all(&left, |core| core.mode), [halted, halted, Mode::Running, halted]);
        for core in [0, 1, 3] {
            assert_eq!(places(&core_of(&left, core)), (pc, false, 0));
        }
        assert!(core_of(&left, 1).link);
        assert_eq!(counts(&left), (code.len() as u32, 0, 0));
    }
    // That of another running core halts it alone.
    let mut case = case(3, &[NOP, NOP], &[2, 0, 2]);
    word(&mut case, 2, place::MODE, 3);
    word(&mut case, 2, place::PC, 0x300);
    put(&mut case, 0x300, &[HALT]);
    let left = run(&case);
    assert_eq!(all(&left, |core| core.mode), [Mode::Running, Mode::Linked, Mode::Halted]);
    assert_eq!(all(&left, |core| core.pc), [0x104, 0x104, 0x304]);
    assert_eq!(counts(&left), (2, 0, 0));
}

/// "At l.rfe linked cores take these three and nothing else."
#[test]
fn returning() {
    let mut case = case(3, &[RFE], &[0]);
    for core in 1..3 {
        let sheet = &mut case.sheets[core * SHEET_WORDS..][..SHEET_WORDS];
        let own = Core { mode: Mode::Linked, pc: 0x440, delay: true, target: 0x500, ..full() };
        own.to_sheet(sheet);
    }
    word(&mut case, 0, place::EPCR, 0x240);
    word(&mut case, 0, place::ESR, SR | F | IEE);
    let left = run(&case);
    assert_eq!(core_of(&left, 0).sr, SR | F | IEE);
    for core in 1..3 {
        let expected = Core { pc: 0x240, delay: false, target: 0, ..was(&case, core) };
        assert_eq!(core_of(&left, core), expected);
    }
    assert_eq!(counts(&left), (1, 0, 0));
}

/// "If core 0 raises, no linked core executes that fetch and no linked sheet changes",
/// by each cause. At the handler they follow again.
#[test]
fn exceptions_of_core_0() {
    let over = asm(Kind::Add, 5, 3, 3, 0);
    let rows = [
        (ILLEGAL, 0x700),
        (TRAP, 0xe00),
        (0x2000_0000, 0xc00),
        (asm(Kind::Lwz, 5, 3, 0, 1), 0x600),
        (asm(Kind::Sw, 0, 3, 4, 0), 0x200),
        (over, 0xb00),
        (asm(Kind::Jr, 0, 0, 6, 0), 0x600),
    ];
    for (code, vector) in rows {
        for slot in [false, true] {
            if slot && [0x2000_0000, asm(Kind::Jr, 0, 0, 6, 0)].contains(&code) {
                continue;
            }
            let mut case = case(3, &[code], &[0]);
            // Where core 0 raises, linked cores would not.
            each(&mut case, 3, |core| if core == 0 { 0x4000_0000 } else { 0x3f });
            each(&mut case, 6, |core| if core == 0 { 3 } else { 0x200 });
            word(&mut case, 0, place::SR, SR | OVE);
            for core in 0..3 {
                word(&mut case, core, place::DELAY, slot.into());
                word(&mut case, core, place::TARGET, 0x180 * u32::from(slot));
            }
            word(&mut case, 1, place::LINK, 1);
            word(&mut case, 1, place::LINK_ADDRESS, 0x40);
            let left = run(&case);
            assert_eq!(core_of(&left, 0).pc, vector, "{code:08x}");
            for core in 1..3 {
                assert_eq!(core_of(&left, core), was(&case, core), "{code:08x}");
            }
            assert_eq!(counts(&left), (1, 1, 0));
            put(&mut case, vector as usize, &[asm(Kind::Addi, 7, 7, 0, 1)]);
            (case.schedule, case.levels) = (vec![0, 0], vec![0, 0]);
            let left = run(&case);
            assert_eq!(all(&left, |core| core.regs[7]), [1; 3], "{code:08x}");
            assert_eq!(all(&left, places), [(vector + 4, false, 0); 3], "{code:08x}");
        }
    }
}

/// "Each completed fetch": one outside memory is none, and an interrupt is in place of
/// one.
#[test]
fn no_completed_fetch() {
    let mut outside = case(2, &[], &[0]);
    word(&mut outside, 0, place::PC, BYTES as u32);
    let mut interrupted = case(2, &[], &[0]);
    interrupted.levels = vec![1];
    each(&mut interrupted, place::SR, |_| SR | IEE);
    for (case, vector) in [(outside, 0x200), (interrupted, 0x800)] {
        let left = run(&case);
        assert_eq!((core_of(&left, 0).pc, core_of(&left, 1)), (vector, was(&case, 1)));
        assert_eq!(counts(&left), (1, 1, 0));
        assert_eq!(left.case.table, case.table);
    }
}

/// While core 0 is halted nothing moves linked cores.
#[test]
fn linked_cores_of_a_halted_one() {
    let mut case = case(3, &[], &[0, 1, 2, 0]);
    word(&mut case, 0, place::MODE, 0);
    let left = run(&case);
    assert_eq!((&left.case, left.answer), (&case, Answer::default()));
    // Nor does another core that runs.
    word(&mut case, 2, place::MODE, 3);
    let left = run(&case);
    assert_eq!(all(&left, |core| core.pc), [0x100, 0x100, 0x104]);
    assert_eq!(counts(&left), (1, 0, 0));
}

/// What other running cores fetch is theirs alone.
#[test]
fn other_running_cores() {
    let mut case = case(4, &[asm(Kind::Addi, 5, 5, 0, 1); 4], &[2, 0, 2, 2]);
    word(&mut case, 2, place::MODE, 3);
    let left = run(&case);
    assert_eq!(all(&left, |core| core.regs[5]), [1, 1, 3, 1]);
    assert_eq!(all(&left, |core| core.pc), [0x104, 0x104, 0x10c, 0x104]);
    // Core 0's first entry finds 100 filled by core 2, which then fetches alone.
    assert_eq!(counts(&left), (4, 0, 1));
}

/// "counts once in executed and, if its entry was filled, once in reused".
#[test]
fn shared_fetches_count_once() {
    for cores in 2..=4 {
        for filled in [false, true] {
            let mut case =
                case(cores, &[NOP, asm(Kind::J, 0, 0, 0, 0u32.wrapping_sub(4)), NOP], &[0; 6]);
            if filled {
                case.table[0x40] = isa::decode(NOP);
            }
            let left = run(&case);
            // 100, 104, 108, 100, 104, 108: three are there again.
            assert_eq!(counts(&left), (6, 0, 3 + u32::from(filled)), "{cores}");
            let plain = check::after_plain(engines()[0], &case).answer;
            assert_eq!((plain.executed, plain.raised, plain.reused), (6, 0, 0));
        }
    }
}

/// "linked stores empty table entries as any store does", each that of its word.
#[test]
fn linked_stores_empty_entries() {
    for kind in [Kind::Sw, Kind::Sh, Kind::Sb, Kind::Swa] {
        let mut case = case(4, &[asm(kind, 0, 3, 4, 0)], &[0]);
        each(&mut case, 3, |core| 0x40 + 4 * core);
        case.table.fill(isa::decode(NOP));
        case.table[0x40] = isa::decode(case.word(0x40));
        // Core 0 and core 2 have their links, core 1 none, and core 3 raises.
        word(&mut case, 3, 3, if kind == Kind::Sb { 0x1000 } else { 0x4d });
        for core in [0, 2] {
            word(&mut case, core, place::LINK, 1);
            word(&mut case, core, place::LINK_ADDRESS, 0x40 + 4 * core as u32);
        }
        let left = run(&case);
        let empty: Vec<usize> = (0..BYTES / 4).filter(|&at| left.case.table[at] == 0).collect();
        let expected = if kind == Kind::Swa { vec![0x10, 0x12] } else { vec![0x10, 0x11, 0x12] };
        assert_eq!(empty, expected, "{kind:?}");
        assert_eq!(counts(&left), (1, 0, 1));
    }
}

/// A store into the running word, of core 0 or of linked ones: all of them execute what
/// was fetched, and its entry is empty then.
#[test]
fn stores_into_the_running_word() {
    let store = asm(Kind::Sw, 0, 3, 4, 0);
    for filled in [false, true] {
        // Who stores there, and what stands there then.
        let rows =
            [([1, 1, 1], 12), ([1, 0, 0], 10), ([0, 1, 0], 11), ([0, 0, 1], 12), ([1, 1, 0], 11)];
        for (stores, value) in rows {
            let mut case = case(3, &[store], &[0]);
            each(&mut case, 3, |core| if stores[core as usize] == 1 { 0x100 } else { 0x40 });
            each(&mut case, 4, |core| 10 + core);
            if filled {
                case.table[0x40] = isa::decode(store);
            }
            let left = run(&case);
            assert_eq!((left.case.word(0x40), left.case.table[0x40]), (value, 0), "{stores:?}");
            assert_eq!(all(&left, |core| core.pc), [0x104; 3]);
            assert_eq!(counts(&left), (1, 0, u32::from(filled)));
        }
        // Had core 1 fetched what core 0 stored, it would have been halted.
        let mut case = case(2, &[store], &[0]);
        each(&mut case, 3, |_| 0x100);
        each(&mut case, 4, |core| if core == 0 { HALT } else { 77 });
        let left = run(&case);
        assert_eq!((left.case.word(0x40), core_of(&left, 1).mode), (77, Mode::Linked));
    }
}

/// 01: the step under the fast run "executes a filled entry as it stands and not its
/// word", on linked cores too.
#[test]
fn a_filled_entry_is_executed_as_it_stands() {
    let mut bench = Bench::new(3);
    bench.cores[1].mode = Mode::Linked;
    bench.cores[2].mode = Mode::Linked;
    bench.put(0x100, HALT);
    let mut table = vec![0; BYTES / 4];
    table[0x40] = isa::decode(asm(Kind::Addi, 5, 5, 0, 3));
    let (step, reused) = bench.fast_step(0, &mut table);
    assert_eq!((step.raised, step.written().count(), reused), (None, 0, true));
    for core in &bench.cores {
        assert_eq!((core.regs[5], core.pc), (3, 0x104));
    }
    assert_eq!(bench.cores[2].mode, Mode::Linked);
}

/// A linked core rewrites what core 0 is about to run, and all run it.
#[test]
fn linked_cores_patch_code() {
    for filled in [false, true] {
        let code = [asm(Kind::Sw, 0, 3, 4, 0), NOP];
        let mut case = case(3, &code, &[0, 0]);
        each(&mut case, 3, |core| if core == 1 { 0x104 } else { 0x40 });
        each(&mut case, 4, |_| asm(Kind::Addi, 5, 0, 0, 9));
        if filled {
            case.table[0x41] = isa::decode(NOP);
        }
        let left = run(&case);
        assert_eq!(all(&left, |core| core.regs[5]), [9; 3]);
        assert_eq!(left.case.table[0x41], isa::decode(asm(Kind::Addi, 5, 0, 0, 9)));
        assert_eq!(counts(&left), (2, 0, 0));
    }
}

/// l.lwa and l.swa: each by its own link, and in rising order.
#[test]
fn races_of_linked_cores() {
    let code = [asm(Kind::Lwa, 5, 3, 0, 0), asm(Kind::Swa, 0, 3, 4, 0)];
    // Where each core's word is, and whose l.swa stores.
    let rows = [
        ([0x40, 0x40, 0x40, 0x40], [true, false, false, false]),
        ([0x40, 0x44, 0x44, 0x40], [true, true, false, false]),
        ([0x40, 0x44, 0x48, 0x4c], [true; 4]),
        ([0x44, 0x40, 0x40, 0x44], [true, true, false, false]),
    ];
    for (at, stores) in rows {
        let mut case = case(4, &code, &[0, 0]);
        each(&mut case, 3, |core| at[core as usize]);
        each(&mut case, 4, |core| 10 + core);
        let left = run(&case);
        assert_eq!(all(&left, |core| core.has(F)), stores, "{at:x?}");
        assert_eq!(all(&left, |core| core.link), [false; 4]);
        for (core, &stored) in stores.iter().enumerate().filter(|(_, stored)| **stored) {
            assert_eq!(left.case.word(at[core] as usize / 4), 10 + core as u32, "{stored}");
        }
    }
    // Core 0's fails, the first linked one's does not.
    let mut case = case(3, &code[1..], &[0]);
    each(&mut case, 3, |_| 0x40);
    each(&mut case, 4, |core| 10 + core);
    for core in 1..3 {
        word(&mut case, core, place::LINK, 1);
        word(&mut case, core, place::LINK_ADDRESS, 0x40);
    }
    let left = run(&case);
    assert_eq!(all(&left, |core| core.has(F)), [false, true, false]);
    assert_eq!(left.case.word(0x10), 11);
}

/// Each l.lwa sets its own core's link, and l.swa clears that alone.
#[test]
fn links_are_their_own() {
    let code = [asm(Kind::Lwa, 5, 3, 0, 0), asm(Kind::Swa, 0, 0, 4, 0x80)];
    for (entries, links) in [(1, [0x40, 0x44, 0x48]), (2, [0; 3])] {
        let mut case = case(3, &code, &vec![0; entries]);
        each(&mut case, 3, |core| 0x40 + 4 * core);
        let left = run(&case);
        assert_eq!(all(&left, |core| core.link_address), links);
        assert_eq!(all(&left, |core| core.link), [entries == 1; 3]);
    }
}

/// "Any store clears every core's link": a linked core's store those of core 0, of
/// running, linked and halted cores, and a running core's store those of linked ones.
#[test]
fn stores_and_links() {
    let store = asm(Kind::Sb, 0, 3, 4, 0);
    for storing in [1, 3] {
        let mut case = case(4, &[store], &[if storing == 1 { 0 } else { 3 }]);
        // Core 0 stores elsewhere.
        each(&mut case, 3, |core| if core == storing { 0x43 } else { 0x80 });
        word(&mut case, 2, place::MODE, 0);
        word(&mut case, 3, place::MODE, 3);
        for core in 0..4 {
            word(&mut case, core, place::LINK, 1);
            word(&mut case, core, place::LINK_ADDRESS, 0x40);
        }
        let left = run(&case);
        assert_eq!(all(&left, |core| (core.link, core.link_address)), [(false, 0); 4]);
    }
}

/// 000's example, figure 2.3: four additions at a time, s[n + number] = a + b.
#[test]
fn adding_arrays() {
    let back = |words: u32| 0u32.wrapping_sub(4 * words);
    let code = [
        asm(Kind::Mfspr, 3, 0, 0, 128),
        asm(Kind::Slli, 3, 3, 0, 2),
        asm(Kind::Movhi, 4, 0, 0, 0),
        // The loop: r5 <- a, r6 <- b, s <- r5 + r6, at r3.
        asm(Kind::Lwz, 5, 3, 0, 0x400),
        asm(Kind::Lwz, 6, 3, 0, 0x600),
        asm(Kind::Add, 7, 5, 6, 0),
        asm(Kind::Sw, 0, 3, 7, 0x800),
        asm(Kind::Addi, 4, 4, 0, 4),
        asm(Kind::Sfltui, 0, 4, 0, 100),
        asm(Kind::Bf, 0, 0, 0, back(6)),
        asm(Kind::Addi, 3, 3, 0, 16),
        HALT,
    ];
    for cores in 1..=4 {
        let mut case = case(cores, &code, &vec![0; 3 + 8 * 25 + 1]);
        for n in 0..100 {
            case.set_word(0x400 / 4 + n, 3 * n as u32);
            case.set_word(0x600 / 4 + n, 1_000 + n as u32);
        }
        let left = run(&case);
        for n in 0..100 {
            let expected = if n % 4 < cores { 1_000 + 4 * n as u32 } else { NOP };
            assert_eq!(left.case.word(0x800 / 4 + n), expected, "{n} of {cores}");
        }
        assert_eq!(all(&left, |core| core.mode), vec![Mode::Halted; cores]);
        assert_eq!(all(&left, |core| core.pc), vec![0x130; cores]);
        assert_eq!(left.answer.executed, 204);
    }
}

/// Cards start in mode 3: none of their cores is linked.
#[test]
fn cards_have_no_linked_cores() {
    let words = [asm(Kind::Mfspr, 3, 0, 0, 128), asm(Kind::Addi, 4, 4, 0, 1)];
    let card = Card { cores: 2, steps: 2, words: words.to_vec(), ..Card::default() }.text();
    let expected = "executed=2\nraised=0\nreused=0\n\
        core=0 mode=3 pc=00000008 delay=0 sr=00008001\nr4=00000001\n\
        core=1 mode=3 pc=00000000 delay=0 sr=00008001\nend\n";
    assert_card(&File::Absent, &card, expected);
}
