//! Engines that are wrong in one thing that note 4 of document 02 says: the
//! battery must stop each.

mod common;

use common::wrong_interrupt::{WrongInterrupt, RIGHT};
use common::wrong_refusal::{self, Turn, WrongRefusal};
use common::wrong_step::{assert_passed, assert_stopped, wrong, Taken, WrongStep};
use compare::battery::Pair;
use compare::check::{Codec, Engine, BY_CACHE, BY_HISTORY};
use compare::exec;
use compare::isa::Kind::{self, *};
use compare::runs::Lent;
use compare::state::{place, Core, DSX, IEE, OVE, SHEET_WORDS, SM, TEE, UNMASKABLE};

/// Whether these lines, if they are what is latched, interrupt a core.
fn due(core: &Core, picsr: u32) -> bool {
    picsr != 0 && core.has(IEE) && !core.delay
}

const WRONG_LATCHES: [WrongInterrupt; 10] = [
    WrongInterrupt {
        name: "latches after the step",
        latch: |_, _, _| {},
        after: exec::latch,
        ..RIGHT
    },
    WrongInterrupt {
        name: "latches on halted cores",
        latch: |cores, who, lines| exec::latch(&mut cores[who], lines),
        ..RIGHT
    },
    WrongInterrupt {
        name: "latches on all running cores",
        latch: |cores, _, lines| {
            let running = cores.iter_mut().filter(|core| core.is_running());
            running.for_each(|core| exec::latch(core, lines))
        },
        ..RIGHT
    },
    WrongInterrupt {
        name: "latches under IEE alone",
        latch: |cores, who, lines| {
            if cores[who].has(IEE) {
                (RIGHT.latch)(cores, who, lines)
            }
        },
        ..RIGHT
    },
    WrongInterrupt {
        name: "does not latch in a slot",
        latch: |cores, who, lines| {
            if !cores[who].delay {
                (RIGHT.latch)(cores, who, lines)
            }
        },
        ..RIGHT
    },
    WrongInterrupt {
        name: "does not apply the mask",
        latch: |cores, who, lines| {
            if cores[who].is_running() {
                cores[who].picsr |= lines
            }
        },
        ..RIGHT
    },
    WrongInterrupt {
        name: "forgets a line that falls",
        latch: |cores, who, lines| {
            if cores[who].is_running() {
                cores[who].picsr = lines & cores[who].picmr
            }
        },
        ..RIGHT
    },
    WrongInterrupt {
        name: "forgets a line that is masked",
        latch: |cores, who, lines| {
            if cores[who].is_running() {
                cores[who].picsr = (cores[who].picsr | lines) & cores[who].picmr
            }
        },
        ..RIGHT
    },
    WrongInterrupt { name: "has the levels of the next entry", place: |at, _| at + 1, ..RIGHT },
    WrongInterrupt {
        name: "halted cores use up no levels",
        place: |_, executed| executed,
        ..RIGHT
    },
];

const WRONG_CONDITIONS: [WrongInterrupt; 9] = [
    WrongInterrupt {
        name: "interrupts in a slot",
        due: |_, core| core.picsr != 0 && core.has(IEE),
        ..RIGHT
    },
    WrongInterrupt {
        name: "interrupts with IEE 0",
        due: |_, core| core.picsr != 0 && !core.delay,
        ..RIGHT
    },
    WrongInterrupt {
        name: "interrupts by TEE",
        due: |_, core| core.picsr != 0 && core.has(TEE) && !core.delay,
        ..RIGHT
    },
    WrongInterrupt {
        name: "interrupts for what the mask lets through now",
        due: |_, core| due(core, core.picsr & core.picmr),
        ..RIGHT
    },
    WrongInterrupt {
        name: "interrupts as a line rises alone",
        due: |before, core| due(core, core.picsr & !before.picsr),
        ..RIGHT
    },
    WrongInterrupt {
        name: "interrupts for what was latched before",
        due: |before, core| due(core, before.picsr),
        ..RIGHT
    },
    WrongInterrupt { name: "runs one instruction after l.rfe", shields: &[Rfe], ..RIGHT },
    WrongInterrupt { name: "runs one instruction after l.mtspr", shields: &[Mtspr], ..RIGHT },
    WrongInterrupt { name: "has the bus error first", fetches_first: true, ..RIGHT },
];

/// Enters as is due, then spoils the core, given what it was.
const fn entered(name: &'static str, spoil: fn(&mut Core, &Core)) -> WrongInterrupt {
    WrongInterrupt { name, spoil, ..RIGHT }
}

const WRONG_ENTRIES: [WrongInterrupt; 18] = [
    entered("EPCR is the next address", |core, before| core.epcr = before.pc.wrapping_add(4)),
    entered("EPCR is kept", |core, before| core.epcr = before.epcr),
    entered("EEAR is PC", |core, before| core.eear = before.pc),
    entered("EEAR is 0", |core, _| core.eear = 0),
    entered("PICSR is cleared", |core, _| core.picsr = 0),
    entered("PICSR loses its lowest line", |core, before| {
        core.picsr = before.picsr & before.picsr.wrapping_sub(1)
    }),
    entered("PICMR is as at reset", |core, _| core.picmr = UNMASKABLE),
    entered("IEE stays 1", |core, _| core.put(IEE, true)),
    entered("TEE is kept", |core, before| core.put(TEE, before.has(TEE))),
    entered("OVE is kept", |core, before| core.put(OVE, before.has(OVE))),
    entered("SM is kept", |core, before| core.put(SM, before.has(SM))),
    entered("DSX is kept", |core, before| core.put(DSX, before.has(DSX))),
    entered("ESR has IEE 0", |core, _| core.esr &= !IEE),
    entered("ESR is kept", |core, before| core.esr = before.esr),
    entered("the link is kept", |core, before| {
        (core.link, core.link_address) = (before.link, before.link_address);
    }),
    entered("the vector is 500", |core, _| core.pc = 0x500),
    entered("the handler's first instruction is skipped", |core, _| core.pc += 4),
    entered("MACHI and MACLO are cleared", |core, _| core.set_accumulator(0)),
];

const WRONG_COUNTS: [WrongInterrupt; 6] = [
    WrongInterrupt {
        name: "not counted as executed",
        count: |answer, _| answer.raised += 1,
        ..RIGHT
    },
    WrongInterrupt {
        name: "not counted as raised",
        count: |answer, _| answer.executed += 1,
        ..RIGHT
    },
    WrongInterrupt {
        name: "counted as reused where the entry is filled",
        count: |answer, entry| {
            (RIGHT.count)(answer, entry);
            answer.reused += u32::from(entry != 0);
        },
        ..RIGHT
    },
    WrongInterrupt { name: "fills the entry", table: |entry, form| *entry = form, ..RIGHT },
    WrongInterrupt { name: "empties the entry", table: |entry, _| *entry = 0, ..RIGHT },
    WrongInterrupt {
        name: "fetches as well, and counts it",
        count: |answer, entry| {
            (RIGHT.count)(answer, entry);
            answer.reused += u32::from(entry != 0);
        },
        table: |entry, form| *entry = form,
        ..RIGHT
    },
];

/// The special register that a step names, and the value it writes there.
fn written(taken: &Taken) -> (u32, u32) {
    let (core, insn) = (&taken.before, taken.insn);
    (core.get(insn.a) | insn.imm, core.get(insn.b))
}

/// Makes PICSR, where a step writes to it, something of what it was and the value.
fn write_status(taken: &mut Taken, of: fn(u32, u32) -> u32) {
    if let (0x4802, value) = written(taken) {
        taken.after.picsr = of(taken.before.picsr, value)
    }
}

/// The same of PICMR.
fn write_mask(taken: &mut Taken, of: fn(u32, u32) -> u32) {
    if let (0x4800, value) = written(taken) {
        taken.after.picmr = of(taken.before.picmr, value)
    }
}

/// What stands at another number than its own, read or written.
fn at(taken: &mut Taken, number: u32, read: fn(&Core) -> u32) {
    if written(taken).0 == number {
        taken.result(read(&taken.before))
    }
}

const WRONG_SPECIAL: [WrongStep; 17] = [
    wrong("a write to PICSR sets bits", &[Mtspr], |taken| {
        write_status(taken, |old, new| old | new)
    }),
    wrong("a write to PICSR replaces it", &[Mtspr], |taken| write_status(taken, |_, new| new)),
    wrong("a write to PICSR clears its ones", &[Mtspr], |taken| {
        write_status(taken, |old, new| old & !new)
    }),
    wrong("a write to PICSR clears it all", &[Mtspr], |taken| write_status(taken, |_, _| 0)),
    wrong("PICSR cannot be written", &[Mtspr], |taken| write_status(taken, |old, _| old)),
    wrong("PICMR may lose bits 0 and 1", &[Mtspr], |taken| write_mask(taken, |_, new| new)),
    wrong("PICMR may lose bit 0", &[Mtspr], |taken| write_mask(taken, |_, new| new | 2)),
    wrong("PICMR may lose bit 1", &[Mtspr], |taken| write_mask(taken, |_, new| new | 1)),
    wrong("PICMR cannot be written", &[Mtspr], |taken| write_mask(taken, |old, _| old)),
    wrong("PICMR gains bits alone", &[Mtspr], |taken| write_mask(taken, |old, new| old | new | 3)),
    wrong("a write to PICMR clears what it masks", &[Mtspr], |taken| {
        if written(taken).0 == 0x4800 {
            taken.after.picsr &= taken.after.picmr
        }
    }),
    wrong("PICMR reads 0", &[Mfspr], |taken| at(taken, 0x4800, |_| 0)),
    wrong("PICSR reads 0", &[Mfspr], |taken| at(taken, 0x4802, |_| 0)),
    wrong("PICSR reads what the mask lets through", &[Mfspr], |taken| {
        at(taken, 0x4802, |core| core.picsr & core.picmr)
    }),
    wrong("PICMR and PICSR exchanged", &[Mfspr], |taken| {
        at(taken, 0x4800, |core| core.picsr);
        at(taken, 0x4802, |core| core.picmr)
    }),
    wrong("PICSR is at 4801 too", &[Mfspr], |taken| at(taken, 0x4801, |core| core.picsr)),
    wrong("PICMR is at 4801 too", &[Mfspr], |taken| at(taken, 0x4801, |core| core.picmr)),
];

const OTHERS: &[Kind] = &[Illegal, Trap, Sys, Jr, Lwz, Sw];

const WRONG_OTHERS: [WrongStep; 4] = [
    wrong("another exception clears PICSR", OTHERS, |taken| {
        taken.if_raised(|after, _| after.picsr = 0)
    }),
    wrong("l.rfe clears PICSR", &[Rfe], |taken| {
        if !taken.raised {
            taken.after.picsr = 0
        }
    }),
    wrong("l.rfe keeps IEE 0", &[Rfe], |taken| {
        if !taken.raised {
            taken.after.put(IEE, taken.before.has(IEE))
        }
    }),
    wrong("a core that halts loses PICSR", &[Nop], |taken| {
        if !taken.after.is_running() {
            taken.after.picsr = 0
        }
    }),
];

#[test]
fn wrong_latches_are_stopped() {
    WRONG_LATCHES.iter().for_each(|engine| assert_stopped(engine));
}

#[test]
fn wrong_conditions_are_stopped() {
    WRONG_CONDITIONS.iter().for_each(|engine| assert_stopped(engine));
}

#[test]
fn wrong_entries_are_stopped() {
    WRONG_ENTRIES.iter().for_each(|engine| assert_stopped(engine));
}

#[test]
fn wrong_counts_are_stopped() {
    WRONG_COUNTS.iter().for_each(|engine| assert_stopped(engine));
}

#[test]
fn wrong_interrupt_registers_are_stopped() {
    WRONG_SPECIAL.iter().for_each(|engine| assert_stopped(engine));
    WRONG_OTHERS.iter().for_each(|engine| assert_stopped(engine));
}

/// What these engines do is right where they spoil nothing.
#[test]
fn a_right_engine_passes() {
    assert_passed(&RIGHT);
    assert_passed(&wrong("writes again", &[Mtspr], |taken| {
        write_status(taken, |old, new| old & new);
        write_mask(taken, |_, new| new | 3)
    }));
}

const WRONG_REFUSALS: [WrongRefusal; 9] = [
    WrongRefusal {
        name: "has 11 before 5",
        turn: |asked| match asked.due {
            5 if asked.levels.len() != asked.entries => Turn::Refuse(11),
            _ => Turn::Right,
        },
    },
    WrongRefusal {
        name: "has 11 before 4",
        turn: |asked| match asked.due {
            4 if asked.levels.len() != asked.entries => Turn::Refuse(11),
            _ => Turn::Right,
        },
    },
    WrongRefusal {
        name: "has 11 after 6",
        turn: |asked| match (asked.due, asked.with_levels) {
            (11, 6) => Turn::Refuse(6),
            _ => Turn::Right,
        },
    },
    WrongRefusal {
        name: "has 11 after 7",
        turn: |asked| match (asked.due, asked.with_levels) {
            (11, 7) => Turn::Refuse(7),
            _ => Turn::Right,
        },
    },
    WrongRefusal {
        name: "has 11 for too few alone",
        turn: |asked| match asked.due {
            11 if asked.levels.len() > asked.entries => {
                Turn::With(asked.levels[..asked.entries].to_vec())
            }
            _ => Turn::Right,
        },
    },
    WrongRefusal {
        name: "has 11 for too many alone",
        turn: |asked| match asked.due {
            11 if asked.levels.len() < asked.entries => {
                let mut levels = asked.levels.to_vec();
                levels.resize(asked.entries, 0);
                Turn::With(levels)
            }
            _ => Turn::Right,
        },
    },
    WrongRefusal {
        name: "takes no levels for all low",
        turn: |asked| match asked.due {
            11 if asked.levels.is_empty() => Turn::With(vec![0; asked.entries]),
            _ => Turn::Right,
        },
    },
    WrongRefusal {
        name: "says 4 for 11",
        turn: |asked| if asked.due == 11 { Turn::Refuse(4) } else { Turn::Right },
    },
    WrongRefusal {
        name: "has 11 for no levels",
        turn: |asked| if asked.levels.is_empty() { Turn::Refuse(11) } else { Turn::Right },
    },
];

#[test]
fn wrong_refusals_of_levels_are_stopped() {
    wrong_refusal::assert_stopped(&WRONG_REFUSALS);
}

/// Engines whose sheets are others than the note's.
struct WrongSheet {
    name: &'static str,
    /// The refusal instead of a run, or 0; it may change the sheet.
    before: fn(&mut [u32]) -> u8,
    after: fn(&mut [u32]),
}

impl WrongSheet {
    fn around(&self, lent: &mut Lent, run: impl FnOnce(&mut Lent) -> u64) -> u64 {
        for sheet in lent.sheets.chunks_exact_mut(SHEET_WORDS) {
            let refusal = (self.before)(sheet);
            if refusal != 0 {
                return u64::from(refusal) << 60;
            }
        }
        let answer = run(lent);
        lent.sheets.chunks_exact_mut(SHEET_WORDS).for_each(self.after);
        answer
    }
}

impl Codec for WrongSheet {
    fn name(&self) -> &str {
        self.name
    }
    fn decode(&self, word: u32) -> u64 {
        BY_CACHE.decode(word)
    }
    fn encode(&self, entry: u64) -> u64 {
        BY_CACHE.encode(entry)
    }
}

impl Engine for WrongSheet {
    fn plain_run(&self, lent: &mut Lent) -> u64 {
        self.around(lent, |lent| BY_CACHE.plain_run(lent))
    }
    fn fast_run(&self, lent: &mut Lent) -> u64 {
        self.around(lent, |lent| BY_CACHE.fast_run(lent))
    }
}

/// Makes one refusal of another rule for PICMR.
fn unless(broken: bool) -> u8 {
    if broken {
        3
    } else {
        0
    }
}

const WRONG_SHEETS: [WrongSheet; 6] = [
    WrongSheet {
        name: "has PICSR before PICMR",
        before: |sheet| {
            sheet.swap(place::PICMR, place::PICSR);
            0
        },
        after: |sheet| sheet.swap(place::PICMR, place::PICSR),
    },
    WrongSheet {
        name: "makes PICMR's low bits 1",
        before: |sheet| {
            sheet[place::PICMR] |= UNMASKABLE;
            0
        },
        after: |_| {},
    },
    WrongSheet {
        name: "asks for PICMR's bit 0 alone",
        before: |sheet| {
            sheet[place::PICMR] |= sheet[place::PICMR] << 1 & 2;
            0
        },
        after: |_| {},
    },
    WrongSheet {
        name: "asks for PICMR's bit 1 alone",
        before: |sheet| {
            sheet[place::PICMR] |= sheet[place::PICMR] >> 1 & 1;
            0
        },
        after: |_| {},
    },
    WrongSheet {
        name: "refuses a line latched and masked",
        before: |sheet| unless(sheet[place::PICSR] & !sheet[place::PICMR] != 0),
        after: |_| {},
    },
    WrongSheet {
        name: "asks nothing of a halted core",
        before: |sheet| {
            if sheet[place::MODE] == 0 {
                sheet[place::PICMR] |= UNMASKABLE;
            }
            0
        },
        after: |_| {},
    },
];

#[test]
fn wrong_sheets_are_stopped() {
    for engine in &WRONG_SHEETS {
        let pair = Pair { one: &BY_HISTORY, other: engine };
        let asked = pair.accepted_cases(0..300, 20).and_then(|()| pair.broken_cases(0..6_000));
        assert!(asked.is_err(), "{}", engine.name);
    }
}
