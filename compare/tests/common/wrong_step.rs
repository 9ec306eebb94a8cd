//! Engines that are wrong in single steps of some kinds.

use compare::battery::Pair;
use compare::check::{Codec, Engine, BY_CACHE, BY_HISTORY};
use compare::dump;
use compare::exec::{self, Board, Cause, Exception};
use compare::isa::{self, Insn, Kind};
use compare::runs::{self, Answer, Lent};
use compare::state::{Core, CY, OV, SHEET_WORDS};
use compare::vectors::Vectors;

/// A step that is about to be taken.
pub struct Attempt<'a> {
    pub insn: Insn,
    pub core: &'a Core,
    pub who: usize,
    /// The run's limit, and whether it is the fast one.
    pub limit: u32,
    pub fast: bool,
}

impl Attempt<'_> {
    /// The address of an access.
    pub fn address(&self) -> u32 {
        address(self.core, self.insn)
    }
}

fn address(core: &Core, insn: Insn) -> u32 {
    core.get(insn.a).wrapping_add(insn.imm)
}

/// One step as this engine takes it, for another to spoil. Before it, its entry's
/// lines are latched.
pub struct Taken<'a> {
    pub insn: Insn,
    pub before: Core,
    pub after: Core,
    pub raised: bool,
    /// What it left besides.
    pub memory: &'a mut [u8],
    pub cores: &'a mut [Core],
    pub table: Option<&'a mut [u64]>,
    /// The run's limit and vectors.
    pub limit: u32,
    pub vectors: Vectors,
}

impl Taken<'_> {
    /// The address of an access.
    pub fn address(&self) -> u32 {
        address(&self.before, self.insn)
    }

    /// Ends it in a bus error instead.
    pub fn fail(&mut self, failing: u32) {
        self.after = self.before;
        let exception = Exception { cause: Cause::Bus, failing: Some(failing) };
        exec::take(&mut self.after, &self.vectors, exception);
        self.raised = true;
    }

    /// Ends it another way, after rD and flags are written.
    pub fn end(&mut self, raised: bool) {
        let sr = if self.raised { self.after.esr } else { self.after.sr };
        let Core { regs, machi, maclo, .. } = self.after;
        let mut core = Core { regs, sr, machi, maclo, ..self.before };
        if raised {
            let exception = Exception { cause: Cause::Range, failing: None };
            exec::take(&mut core, &self.vectors, exception);
        } else {
            exec::advance(&mut core);
        }
        (self.after, self.raised) = (core, raised);
    }

    /// Spoils what it left, given what was there before, if it raised.
    pub fn if_raised(&mut self, spoil: fn(&mut Core, &Core)) {
        if self.raised {
            spoil(&mut self.after, &self.before);
        }
    }

    /// Another result in rD.
    pub fn result(&mut self, value: u32) {
        self.after.set(self.insn.d, value);
    }

    /// Another flag, also in ESR if it raised.
    pub fn flag(&mut self, bit: u32, on: bool) {
        self.after.put(bit, on);
        if self.raised {
            self.after.esr = self.after.esr & !bit | if on { bit } else { 0 };
        }
    }

    /// Another result and other flags; then it raises on OV or not.
    pub fn all(&mut self, value: u32, carry: bool, overflow: bool, raised: bool) {
        self.result(value);
        self.flag(CY, carry);
        self.flag(OV, overflow);
        self.end(raised);
    }

    /// The factors, or the dividend and the divisor.
    pub fn operands(&self) -> (u32, u32) {
        let (core, insn) = (&self.before, self.insn);
        let immediate = matches!(insn.kind, Kind::Muli | Kind::Maci);
        (core.get(insn.a), if immediate { insn.imm } else { core.get(insn.b) })
    }

    /// Whether it is a division by zero.
    pub fn by_zero(&self) -> bool {
        matches!(self.insn.kind, Kind::Div | Kind::Divu) && self.operands().1 == 0
    }
}

pub fn read_sheets(sheets: &[u32]) -> Vec<Core> {
    sheets.chunks(SHEET_WORDS).map(Core::from_sheet).collect()
}

pub fn write_sheets(cores: &[Core], sheets: &mut [u32]) {
    for (core, sheet) in cores.iter().zip(sheets.chunks_mut(SHEET_WORDS)) {
        core.to_sheet(sheet);
    }
}

/// An engine that is wrong in steps of some kinds alone; it is asked accepted
/// cases.
pub struct WrongStep {
    pub name: &'static str,
    pub of: &'static [Kind],
    /// The limit that a step is held to.
    pub limit: fn(&Attempt) -> u32,
    pub spoil: fn(&mut Taken),
}

/// As a constant, so that a list of them reads like a table.
pub const fn wrong(name: &'static str, of: &'static [Kind], spoil: fn(&mut Taken)) -> WrongStep {
    WrongStep { name, of, limit: |attempt| attempt.limit, spoil }
}

/// The same of one that holds steps to another limit.
pub const fn held_to(
    name: &'static str,
    of: &'static [Kind],
    limit: fn(&Attempt) -> u32,
) -> WrongStep {
    WrongStep { name, of, limit, spoil: |_| {} }
}

impl WrongStep {
    /// One entry: whether it raised and whether it counts as reused. Interrupts
    /// are right.
    fn step(
        &self,
        board: &mut Board,
        cores: &mut [Core],
        (who, lines): (usize, u32),
        mut table: Option<&mut [u64]>,
    ) -> (bool, bool) {
        if exec::interrupt(&mut cores[who], &board.vectors, lines).is_some() {
            return (true, false);
        }
        let (before, limit, fast) = (cores[who], board.limit, table.is_some());
        let insn = exec::fetch(board.memory, before.pc).map(isa::decode_insn);
        let insn = insn.filter(|insn| self.of.contains(&insn.kind));
        if let Some(insn) = insn {
            board.limit = (self.limit)(&Attempt { insn, core: &before, who, limit, fast });
        }
        let (step, reused) = match table.as_deref_mut() {
            None => (runs::plain_step(board, cores, who), false),
            Some(table) => runs::fast_step(board, cores, who, table),
        };
        board.limit = limit;
        let (after, raised) = (cores[who], step.raised.is_some());
        let Some(insn) = insn else {
            return (raised, reused);
        };
        let (memory, vectors) = (&mut *board.memory, board.vectors);
        let mut taken = Taken { insn, before, after, raised, memory, cores, table, limit, vectors };
        (self.spoil)(&mut taken);
        let Taken { after, raised, .. } = taken;
        cores[who] = after;
        (raised, reused)
    }

    /// The fast run, or without a table the plain one.
    fn run(&self, lent: &mut Lent, fast: bool) -> u64 {
        let Lent { memory, sheets, schedule, levels, limit, vectors, table } = lent.again();
        let vectors = Vectors::of_list(vectors).expect("a good list");
        let board = &mut Board { memory, limit, vectors };
        let mut table = fast.then_some(table);
        let mut answer = Answer::default();
        let mut cores = read_sheets(sheets);
        for (&entry, &lines) in schedule.iter().zip(levels) {
            let who = usize::from(entry);
            if cores[who].is_running() {
                let place = (who, lines);
                let (raised, reused) = self.step(board, &mut cores, place, table.as_deref_mut());
                answer.executed += 1;
                answer.raised += u32::from(raised);
                answer.reused += u32::from(reused);
            }
        }
        write_sheets(&cores, sheets);
        answer.pack()
    }
}

impl Codec for WrongStep {
    fn name(&self) -> &str {
        self.name
    }
    fn decode(&self, word: u32) -> u64 {
        BY_CACHE.decode(word)
    }
    fn encode(&self, entry: u64) -> u64 {
        BY_CACHE.encode(entry)
    }
}

impl Engine for WrongStep {
    fn plain_run(&self, lent: &mut Lent) -> u64 {
        self.run(lent, false)
    }
    fn fast_run(&self, lent: &mut Lent) -> u64 {
        self.run(lent, true)
    }
}

/// The battery stops the engine, and the dumped case does so again.
pub fn assert_stopped(engine: &dyn Engine) {
    let pair = Pair { one: &BY_HISTORY, other: engine };
    let text = pair.accepted_cases(0..300, 200).expect_err(engine.name());
    assert!(text.starts_with("seed "), "{text}");
    let case = dump::read_case(&text).expect("a case that can be run again");
    assert!(pair.case(&case, 0).is_err(), "{}: the case from its dump", engine.name());
}

/// The battery passes an engine that is right, also on cards.
pub fn assert_passed(engine: &dyn Engine) {
    let pair = Pair { one: &BY_HISTORY, other: engine };
    assert_eq!(pair.accepted_cases(0..300, 200), Ok(()), "{}", engine.name());
    assert_eq!(pair.good_cards(0..300), Ok(()), "{}", engine.name());
}
