//! Engines that are wrong in what note 4 of document 02 puts before a fetch.

use super::wrong_step::{read_sheets, write_sheets};
use compare::check::{Codec, Engine, BY_CACHE};
use compare::exec::{self, Board, Cause, Exception};
use compare::isa::{self, Kind};
use compare::runs::{self, Answer, Lent};
use compare::state::{Core, IEE};
use compare::vectors::Vectors;

/// The rules one by one; each is right unless it is put otherwise.
pub struct WrongInterrupt {
    pub name: &'static str,
    /// The place of an entry's levels, given the entry's and how many were executed.
    pub place: fn(usize, usize) -> usize,
    /// What the entry of a core does with the lines first, even if it is halted.
    pub latch: fn(&mut [Core], usize, u32),
    /// Whether a running core takes an interrupt, given it as it was and as it is
    /// now.
    pub due: fn(&Core, &Core) -> bool,
    /// What it is taken with, spoiled, given the core before.
    pub spoil: fn(&mut Core, &Core),
    /// What it counts as, given the table's entry at PC; 0 where there is none.
    pub count: fn(&mut Answer, u64),
    /// What it makes of that entry, given the form of the word there.
    pub table: fn(&mut u64, u64),
    /// What comes after the step, interrupt or not.
    pub after: fn(&mut Core, u32),
    /// Instructions after which one more is executed before an interrupt.
    pub shields: &'static [Kind],
    /// A fetch outside memory comes before an interrupt.
    pub fetches_first: bool,
}

pub const RIGHT: WrongInterrupt = WrongInterrupt {
    name: "right",
    place: |entry, _| entry,
    latch: |cores, who, lines| {
        if cores[who].is_running() {
            exec::latch(&mut cores[who], lines)
        }
    },
    due: |_, core| core.picsr != 0 && core.has(IEE) && !core.delay,
    spoil: |_, _| {},
    count: |answer, _| {
        answer.executed += 1;
        answer.raised += 1;
    },
    table: |_, _| {},
    after: |_, _| {},
    shields: &[],
    fetches_first: false,
};

/// What an engine runs on.
struct Running<'a> {
    board: Board<'a>,
    cores: Vec<Core>,
    table: Option<&'a mut [u64]>,
    /// The kind that each core executed last.
    last: [Option<Kind>; 4],
    answer: Answer,
}

impl Running<'_> {
    /// The step that is no interrupt.
    fn step(&mut self, who: usize) {
        let word = exec::fetch(self.board.memory, self.cores[who].pc);
        let (step, reused) = match self.table.as_deref_mut() {
            None => (runs::plain_step(&mut self.board, &mut self.cores, who), false),
            Some(table) => runs::fast_step(&mut self.board, &mut self.cores, who, table),
        };
        self.last[who] = word.map(|word| isa::decode_insn(word).kind);
        self.answer.executed += 1;
        self.answer.raised += u32::from(step.raised.is_some());
        self.answer.reused += u32::from(reused);
    }

    /// The interrupt.
    fn interrupt(&mut self, rules: &WrongInterrupt, who: usize) {
        let core = &mut self.cores[who];
        let before = *core;
        // "with EPCR = PC and EEAR kept"
        let exception = Exception { cause: Cause::Interrupt, failing: None };
        exec::take(core, &self.board.vectors, exception);
        (rules.spoil)(core, &before);
        self.last[who] = None;
        let pc = before.pc;
        let form = exec::fetch(self.board.memory, pc).map(isa::decode);
        match (self.table.as_deref_mut(), form) {
            (Some(table), Some(form)) => {
                let entry = &mut table[pc as usize / 4];
                (rules.count)(&mut self.answer, *entry);
                (rules.table)(entry, form);
            }
            _ => (rules.count)(&mut self.answer, 0),
        }
    }
}

impl WrongInterrupt {
    fn entry(&self, running: &mut Running, who: usize, lines: u32) {
        let before = running.cores[who];
        (self.latch)(&mut running.cores, who, lines);
        if !before.is_running() {
            return;
        }
        let core = running.cores[who];
        let outside = exec::fetch(running.board.memory, core.pc).is_none();
        let shielded = running.last[who].is_some_and(|kind| self.shields.contains(&kind));
        let kept_out = shielded || self.fetches_first && outside;
        if (self.due)(&before, &core) && !kept_out {
            running.interrupt(self, who);
        } else {
            running.step(who);
        }
        (self.after)(&mut running.cores[who], lines);
    }

    /// The fast run, or without a table the plain one.
    fn run(&self, lent: &mut Lent, fast: bool) -> u64 {
        let Lent { memory, sheets, schedule, levels, limit, vectors, table } = lent.again();
        let vectors = Vectors::of_list(vectors).expect("a good list");
        let mut running = Running {
            board: Board { memory, limit, vectors },
            cores: read_sheets(sheets),
            table: fast.then_some(table),
            last: [None; 4],
            answer: Answer::default(),
        };
        for (index, &entry) in schedule.iter().enumerate() {
            let place = (self.place)(index, running.answer.executed as usize);
            let lines = levels.get(place).copied().unwrap_or(0);
            self.entry(&mut running, usize::from(entry), lines);
        }
        write_sheets(&running.cores, sheets);
        running.answer.pack()
    }
}

impl Codec for WrongInterrupt {
    fn name(&self) -> &str {
        self.name
    }
    fn decode(&self, word: u32) -> u64 {
        BY_CACHE.decode(word)
    }
    fn encode(&self, entry: u64) -> u64 {
        BY_CACHE.encode(entry)
    }
}

impl Engine for WrongInterrupt {
    fn plain_run(&self, lent: &mut Lent) -> u64 {
        self.run(lent, false)
    }
    fn fast_run(&self, lent: &mut Lent) -> u64 {
        self.run(lent, true)
    }
}
