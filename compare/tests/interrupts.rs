//! Single entries and short runs by note 4 of document 02, each sentence on
//! levels worked out by hand, asked of every engine.

mod common;

use common::short::{self, core_after, core_of, counts, full, put, run, NOP, RFE, SR};
use common::{asm, assert_card, engines, BYTES};
use compare::card::{self, File};
use compare::cards::Card;
use compare::cases::Case;
use compare::check;
use compare::isa::{self, Kind};
use compare::runs::Answer;
use compare::state::{place, Core, CY, DSX, F, IEE, OV, SHEET_WORDS, SM};

const PICMR: u32 = 0x4800;
const PICSR: u32 = 0x4802;

/// A short run's case, its core with IEE.
fn case(code: &[u32], levels: &[u32]) -> Case {
    let mut case = short::case(code, levels);
    case.sheets[place::SR] |= IEE;
    case
}

/// "takes vector 800 in place of a fetch, with EPCR = PC and EEAR kept"; ESR, SR,
/// delay, target and link as at any exception.
#[test]
fn an_interrupt_leaves() {
    for lines in [1, 0x80, 0xffff_ffff] {
        let mut case = case(&[asm(Kind::Addi, 3, 3, 0, 1)], &[lines]);
        let before = full();
        before.to_sheet(&mut case.sheets);
        let expected = Core {
            pc: 0x800,
            epcr: 0x100,
            esr: before.sr,
            sr: SR | F | CY | OV,
            link: false,
            link_address: 0,
            picsr: lines & 0xff,
            ..before
        };
        let left = run(&case);
        assert_eq!(core_of(&left, 0), expected, "{lines:x}");
        assert_eq!(counts(&left), (1, 1, 0));
        assert_eq!((&left.case.memory, &left.case.table), (&case.memory, &case.table));
    }
    assert_eq!(SM, 1);
}

/// "PICSR first gains the bits of lines and PICMR together": each line alone, let
/// through or not.
#[test]
fn lines_and_masks() {
    for line in 0..32 {
        for mask in [3, 0xffff_ffff, !(1 << line) | 3, 1 << line | 3] {
            let mut case = case(&[NOP], &[1 << line]);
            case.sheets[place::PICMR] = mask;
            let core = core_after(&case);
            let through = mask >> line & 1 == 1;
            let expected = if through { (0x800, 1 << line) } else { (0x104, 0) };
            assert_eq!((core.pc, core.picsr), expected, "line {line}, mask {mask:x}");
            assert_eq!(core.picmr, mask);
        }
    }
}

/// What is latched stays, and interrupts when it may, whatever the line and the
/// mask are then.
#[test]
fn latched_lines_stay() {
    let mut case = case(&[], &[0]);
    (case.sheets[place::PICSR], case.sheets[place::PICMR]) = (0x40, 3);
    let core = core_after(&case);
    assert_eq!((core.pc, core.picsr), (0x800, 0x40));
    // The interrupt adds to what there was.
    case.levels = vec![6];
    case.sheets[place::PICMR] = 7;
    assert_eq!(core_after(&case).picsr, 0x46);
}

/// "IEE is 1": else it is latched, and taken when l.mtspr or l.rfe makes it 1.
#[test]
fn interrupts_wait_for_their_enabling() {
    let code = [NOP, asm(Kind::Mtspr, 0, 0, 4, 17), NOP, NOP];
    for (levels, picsr) in [([1, 0, 0, 0], 1), ([0, 2, 0, 0], 2), ([1, 2, 2, 0], 3)] {
        let mut case = case(&code, &levels);
        (case.sheets[place::SR], case.sheets[4]) = (SR, SR | IEE);
        for (entries, pc) in [(1, 0x104), (2, 0x108), (3, 0x800), (4, 0x804)] {
            case.schedule = vec![0; entries];
            case.levels = levels[..entries].to_vec();
            let left = run(&case);
            assert_eq!(core_of(&left, 0).pc, pc, "{levels:?}, {entries}");
            assert_eq!(counts(&left).1, u32::from(entries > 2));
        }
        let core = core_after(&case);
        assert_eq!((core.picsr, core.epcr, core.esr), (picsr, 0x108, SR | IEE));
    }
    let mut case = case(&[RFE], &[1, 0]);
    case.sheets[place::SR] = SR;
    (case.sheets[place::ESR], case.sheets[place::EPCR]) = (SR | IEE | F, 0x240);
    let core = core_after(&case);
    assert_eq!((core.pc, core.epcr, core.esr, core.sr), (0x800, 0x240, SR | IEE | F, SR | F));
}

/// "no delay slot is pending": the jump may be interrupted, its slot not, what comes
/// after the slot may again.
#[test]
fn interrupts_wait_for_the_end_of_a_slot() {
    // A taken branch, an untaken one and a jump.
    let forms = [(Kind::Bnf, 0x140), (Kind::Bf, 0x108), (Kind::J, 0x140)];
    for (kind, goal) in forms {
        let code = [asm(kind, 0, 0, 0, 0x40), asm(Kind::Addi, 3, 3, 0, 1)];
        let at_jump = core_after(&case(&code, &[1]));
        assert_eq!((at_jump.pc, at_jump.epcr, at_jump.delay), (0x800, 0x100, false));
        let in_slot = core_after(&case(&code, &[0, 1]));
        assert_eq!((in_slot.pc, in_slot.regs[3], in_slot.picsr), (goal, 1, 1), "{kind:?}");
        assert_eq!((in_slot.delay, in_slot.target, in_slot.sr), (false, 0, SR | IEE));
        let after = core_after(&case(&code, &[0, 1, 0]));
        assert_eq!((after.pc, after.epcr, after.sr), (0x800, goal, SR), "{kind:?}");
    }
}

/// A slot that raises while a line is latched: EPCR is the jump, DSX 1, and PICSR
/// stays for later.
#[test]
fn an_exception_in_a_slot_keeps_what_is_latched() {
    let code = [asm(Kind::J, 0, 0, 0, 0x40), 0x2100_0000];
    let mut case = case(&code, &[0, 1]);
    let core = core_after(&case);
    assert_eq!((core.pc, core.epcr, core.sr, core.picsr), (0xe00, 0x100, SR | DSX, 1));
    assert_eq!(core.esr, SR | IEE);
    // Its handler returns at once, to the jump, and there is the interrupt.
    put(&mut case, 0xe00, &[RFE]);
    (case.schedule, case.levels) = (vec![0; 4], vec![0, 1, 0, 0]);
    let core = core_after(&case);
    assert_eq!((core.pc, core.epcr, core.sr, core.esr), (0x800, 0x100, SR, SR | IEE));
}

/// "On a running core's entry": a halted core's does nothing, and no line wakes it.
#[test]
fn halted_cores_take_no_levels() {
    let mut halted = case(&[], &[u32::MAX; 3]);
    halted.sheets[place::MODE] = 0;
    let left = run(&halted);
    assert_eq!((&left.case, left.answer), (&halted, Answer::default()));
    // An interrupt comes in place of the l.nop 1 that would halt.
    let halt = asm(Kind::Nop, 0, 0, 0, 1);
    let core = core_after(&case(&[halt], &[1]));
    assert_eq!((core.pc, core.epcr, core.is_running()), (0x800, 0x100, true));
    let left = run(&case(&[halt], &[0, 1]));
    let core = core_of(&left, 0);
    assert_eq!((core.pc, core.picsr, core.is_running()), (0x104, 0, false));
    assert_eq!(counts(&left), (1, 0, 0));
}

/// "in place of a fetch": PC outside memory is no bus error then, and comes to be one
/// after the return.
#[test]
fn interrupts_come_before_the_fetch() {
    for pc in [BYTES as u32, 0xffff_fffc] {
        let clear = asm(Kind::Mtspr, 0, 0, 0, PICSR);
        let mut case = case(&[], &[1]);
        case.sheets[place::PC] = pc;
        put(&mut case, 0x800, &[clear, RFE]);
        let core = core_after(&case);
        assert_eq!((core.pc, core.epcr, core.eear), (0x800, pc, 0));
        (case.schedule, case.levels) = (vec![0; 4], vec![1, 0, 0, 0]);
        let left = run(&case);
        let core = core_of(&left, 0);
        assert_eq!((core.pc, core.epcr, core.eear), (0x200, pc, pc));
        assert_eq!(counts(&left), (4, 2, 0));
    }
}

/// In place of instructions that would raise, store or jump.
#[test]
fn interrupts_come_before_any_instruction() {
    let store = asm(Kind::Sw, 0, 0, 4, 0x40);
    for word in [0xfc00_0000, 0x2000_0000, 0x2100_0000, RFE, store, 0x0400_0010, 0x8460_0001] {
        let case = case(&[word], &[1]);
        let left = run(&case);
        let core = core_of(&left, 0);
        assert_eq!((core.pc, core.epcr, core.eear), (0x800, 0x100, 0), "{word:08x}");
        assert_eq!((core.regs, left.case.memory), ([0; 32], case.memory), "{word:08x}");
    }
}

/// "it counts as executed and raised", and not as reused: nothing is fetched, so no
/// entry is filled or looked at.
#[test]
fn the_table_and_the_counts() {
    for filled in [false, true] {
        let mut case = case(&[NOP, NOP], &[0, 1, 0]);
        if filled {
            case.table.fill(isa::decode(NOP));
        }
        let left = run(&case);
        assert_eq!(counts(&left), (3, 1, if filled { 2 } else { 0 }));
        let plain = check::after_plain(engines()[0], &case).answer;
        assert_eq!((plain.executed, plain.raised, plain.reused), (3, 1, 0));
        if !filled {
            let held = |index: &usize| left.case.table[*index] != 0;
            assert_eq!((0..BYTES / 4).filter(held).collect::<Vec<_>>(), [0x40, 0x200]);
        }
    }
}

/// "PICMR is SPR 4800 hexadecimal, its bits 0 and 1 always 1".
#[test]
fn the_mask_register() {
    let code = [asm(Kind::Mtspr, 0, 0, 4, PICMR), asm(Kind::Mfspr, 5, 0, 0, PICMR)];
    for (value, mask) in [(0, 3), (1, 3), (2, 3), (4, 7), (0xffff_fffc, u32::MAX), (0x80, 0x83)] {
        let mut case = case(&code, &[0, 0]);
        (case.sheets[4], case.sheets[place::PICMR]) = (value, 0x333);
        let core = core_after(&case);
        assert_eq!((core.picmr, core.regs[5], core.picsr), (mask, mask, 0), "{value:x}");
    }
    // The new mask holds from the next entry on; what is latched stays latched.
    let mut case = case(&code, &[0x80, 0x80]);
    (case.sheets[4], case.sheets[place::SR], case.sheets[place::PICMR]) = (3, SR, 0x83);
    let core = core_after(&case);
    assert_eq!((core.picmr, core.picsr, core.regs[5]), (3, 0x80, 3));
    (case.sheets[4], case.sheets[place::PICMR]) = (0x80, 3);
    let core = core_after(&case);
    assert_eq!((core.picmr, core.picsr, core.regs[5]), (0x83, 0x80, 0x83));
}

/// "a write to it keeps the bits set in it and in the value", after the entry's own
/// lines are latched.
#[test]
fn the_status_register() {
    let code = [asm(Kind::Mtspr, 0, 0, 4, PICSR), asm(Kind::Mfspr, 5, 0, 0, PICSR)];
    let rows = [
        (0x3c, 0, 0),
        (0x3c, 0x0f, 0x0c),
        (0x3c, u32::MAX, 0x3c),
        (0x3c, 0xc3, 0),
        (0, u32::MAX, 0),
        (u32::MAX, 0x8000_0001, 0x8000_0001),
    ];
    for (before, value, after) in rows {
        for lines in [0, before] {
            let mut case = case(&code, &[lines, 0]);
            (case.sheets[4], case.sheets[place::SR]) = (value, SR);
            case.sheets[place::PICMR] = u32::MAX;
            case.sheets[place::PICSR] = if lines == 0 { before } else { 0 };
            let core = core_after(&case);
            assert_eq!((core.picsr, core.regs[5]), (after, after), "{before:x} {value:x}");
        }
    }
    // A read sees its own entry's lines.
    let mut case = case(&code[1..], &[2]);
    case.sheets[place::SR] = SR;
    assert_eq!(core_after(&case).regs[5], 2);
}

/// A line that is let through interrupts again and again until it is cleared, and
/// once it is, as long as it is high: 001, 13.1.
#[test]
fn handlers() {
    let clear = asm(Kind::Mtspr, 0, 0, 0, PICSR);
    let rows = [
        // A pulse, cleared: once.
        (vec![clear, RFE], vec![1, 0, 0, 0, 0, 0], (6, 1), 0x10c),
        // High until after the clearing: twice.
        (vec![clear, RFE], vec![1, 1, 1, 0, 0, 0, 0], (7, 2), 0x104),
        // High up to the clearing, which clears that entry's line too: once.
        (vec![clear, RFE], vec![1, 1, 0, 0, 0], (5, 1), 0x108),
        // Never cleared: at every return.
        (vec![RFE], vec![1, 0, 0, 0, 0, 0], (6, 3), 0x100),
    ];
    for (handler, levels, expected, pc) in rows {
        let mut case = case(&[], &levels);
        put(&mut case, 0x800, &handler);
        let left = run(&case);
        assert_eq!((left.answer.executed, left.answer.raised), expected, "{levels:?}");
        assert_eq!(core_of(&left, 0).pc, pc, "{levels:?}");
    }
}

/// An interrupt between l.lwa and l.swa: "Delay, target and link are cleared".
#[test]
fn interrupts_break_links() {
    let code = [asm(Kind::Lwa, 5, 0, 0, 0x40), asm(Kind::Swa, 0, 0, 4, 0x40)];
    let handler = [asm(Kind::Mtspr, 0, 0, 0, PICSR), RFE];
    for (levels, flag, value) in [(vec![0, 1, 0, 0, 0], 0, NOP), (vec![0, 0], F, 77)] {
        let mut case = case(&code, &levels);
        case.sheets[4] = 77;
        put(&mut case, 0x800, &handler);
        let left = run(&case);
        let core = core_of(&left, 0);
        assert_eq!((core.pc, core.sr & F, core.link), (0x108, flag, false));
        assert_eq!(left.case.word(0x40 / 4), value);
    }
    // A line that is only latched keeps the link.
    let mut case = case(&code, &[0, 1]);
    case.sheets[place::SR] = SR;
    assert!(core_after(&case).has(F));
}

/// Each core has its own registers, and an entry's levels are for its core alone.
#[test]
fn cores_have_their_own() {
    let mut case = case(&[], &[4, 8, 4, 8]);
    case.sheets = card::reset_sheets(3, 0x100);
    for (core, mask) in [(0, 7), (1, 7), (2, 0xb)] {
        case.sheets[core * SHEET_WORDS + place::PICMR] = mask;
        case.sheets[core * SHEET_WORDS + place::SR] |= IEE;
    }
    case.schedule = vec![0, 1, 1, 2];
    let left = run(&case);
    let found = [0, 1, 2].map(|core| (core_of(&left, core).pc, core_of(&left, core).picsr));
    assert_eq!(found, [(0x800, 4), (0x800, 4), (0x800, 8)]);
    assert_eq!(core_of(&left, 1).epcr, 0x104);
    assert_eq!(counts(&left), (4, 3, 0));
}

/// "Each sheet ends with PICMR then PICSR, 46 words in all, PICMR 3 at reset".
#[test]
fn places_on_a_sheet() {
    let sheets = card::reset_sheets(2, 0x100);
    assert_eq!((sheets.len(), &sheets[42..46]), (92, [0, 0, 3, 0].as_slice()));
    let mut case = case(&[], &[0x10, 0x30]);
    (case.sheets, case.schedule) = (sheets, vec![1, 1]);
    case.sheets[46 + 44] = 0x13;
    let left = run(&case);
    assert_eq!(left.case.sheets[44..46], [3, 0]);
    assert_eq!(left.case.sheets[90..92], [0x13, 0x10]);
}

/// "the card runner gives all lines low": IEE and an open mask change nothing.
#[test]
fn cards_have_all_lines_low() {
    let words = [
        asm(Kind::Mfspr, 3, 0, 0, PICMR),
        asm(Kind::Xori, 4, 0, 0, u32::MAX),
        asm(Kind::Mtspr, 0, 0, 4, PICMR),
        asm(Kind::Mtspr, 0, 0, 4, PICSR),
        asm(Kind::Ori, 5, 0, 0, SR | IEE),
        asm(Kind::Mtspr, 0, 0, 5, 17),
        asm(Kind::Mfspr, 6, 0, 0, PICMR),
        asm(Kind::Mfspr, 7, 0, 0, PICSR),
    ];
    let card = Card { steps: 8, words: words.to_vec(), ..Card::default() }.text();
    let expected = "executed=8\nraised=0\nreused=0\n\
        core=0 mode=3 pc=00000020 delay=0 sr=00008005\n\
        r3=00000003\nr4=ffffffff\nr5=00008005\nr6=ffffffff\nend\n";
    assert_card(&File::Absent, &card, expected);
}
