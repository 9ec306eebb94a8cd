//! Short runs worked out by hand, asked of every engine.

use super::{engines, BYTES};
use compare::card;
use compare::cases::Case;
use compare::check::{self, Left};
use compare::runs::Answer;
use compare::state::{Core, CY, DSX, F, IEE, OV, OVE, SHEET_WORDS, TEE};
use compare::vectors::OLD;

pub const SR: u32 = 0x8001;
pub const NOP: u32 = 0x1500_0000;
pub const RFE: u32 = 0x2400_0000;

/// l.nop everywhere but for code from 100 on; one core there, and an entry for each
/// word of levels.
pub fn case(code: &[u32], levels: &[u32]) -> Case {
    let mut case = Case {
        memory: NOP.to_be_bytes().repeat(BYTES / 4),
        sheets: card::reset_sheets(1, 0x100),
        schedule: vec![0; levels.len()],
        levels: levels.to_vec(),
        limit: 0,
        vectors: OLD.to_vec(),
        table: vec![0; BYTES / 4],
    };
    put(&mut case, 0x100, code);
    case
}

/// A core with something everywhere.
pub fn full() -> Core {
    let mut core = Core::reset(0x100);
    core.regs.iter_mut().zip(0..).for_each(|(register, number)| *register = 3 * number);
    core.sr = 0x8000 | TEE | IEE | F | CY | OV | OVE | DSX;
    (core.epcr, core.eear, core.esr) = (0x44, 0x35, SR);
    (core.link, core.link_address) = (true, 0x40);
    (core.machi, core.maclo, core.picmr) = (5, 6, 0xff);
    core
}

pub fn put(case: &mut Case, address: usize, words: &[u32]) {
    for (index, &word) in words.iter().enumerate() {
        case.set_word(address / 4 + index, word);
    }
}

/// What every engine's fast run leaves; the plain one agrees.
pub fn run(case: &Case) -> Left {
    let all = engines();
    let first = check::after_both(all[0], case);
    assert_eq!(first.fast.answer.refusal, 0);
    for engine in all {
        let left = check::after_both(engine, case);
        check::same_left(["first", engine.name()], case, &first, &left).unwrap();
        check::left_as_promised(engine.name(), case, &left).unwrap();
    }
    first.fast
}

pub fn core_of(left: &Left, number: usize) -> Core {
    Core::from_sheet(&left.case.sheets[number * SHEET_WORDS..][..SHEET_WORDS])
}

/// The core after a run of one.
pub fn core_after(case: &Case) -> Core {
    core_of(&run(case), 0)
}

pub fn counts(left: &Left) -> (u32, u32, u32) {
    let Answer { executed, raised, reused, .. } = left.answer;
    (executed, raised, reused)
}
