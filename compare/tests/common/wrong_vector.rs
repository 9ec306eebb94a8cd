//! Engines that take exceptions to wrong places.

use super::wrong_step::{read_sheets, write_sheets};
use compare::check::{Codec, Engine, BY_CACHE};
use compare::exec::{self, Board, Cause, Step};
use compare::isa::{self, Insn};
use compare::runs::{self, Answer, Lent};
use compare::state::Core;
use compare::vectors::{Vectors, OLD};

/// An exception as it is taken.
pub struct Raised<'a> {
    pub cause: Cause,
    pub list: &'a [u32],
    pub who: usize,
    pub before: &'a Core,
    pub after: &'a Core,
    /// What stands at PC; nothing outside memory.
    pub insn: Option<Insn>,
    pub memory: &'a [u8],
    pub limit: u32,
    /// It is the fast run.
    pub fast: bool,
    /// The entry's place in the schedule, and how many there are.
    pub entry: (usize, usize),
    /// Exceptions before it in the run.
    pub earlier: u32,
}

impl Raised<'_> {
    /// The place of its cause in the list.
    pub fn place(&self) -> usize {
        self.cause as usize
    }

    /// The vector that is due.
    pub fn due(&self) -> u32 {
        self.list[self.place()]
    }

    pub fn old(&self) -> u32 {
        OLD[self.place()]
    }

    /// The old vector where `held` holds, and else the one that is due.
    pub fn old_if(&self, held: bool) -> u32 {
        if held {
            self.old()
        } else {
            self.due()
        }
    }

    /// The vector of another place of the list.
    pub fn at(&self, place: usize) -> u32 {
        self.list[place % 7]
    }

    pub fn is_outside(&self) -> bool {
        self.due() as usize >= self.memory.len()
    }
}

/// An engine that is right but for where exceptions go; it is asked accepted cases.
pub struct WrongVector {
    pub name: &'static str,
    pub vector: fn(&Raised) -> u32,
}

/// As a constant, so that a list of them reads like a table.
pub const fn going(name: &'static str, vector: fn(&Raised) -> u32) -> WrongVector {
    WrongVector { name, vector }
}

/// What an engine runs on.
struct Running<'a> {
    board: Board<'a>,
    list: &'a [u32],
    cores: Vec<Core>,
    table: Option<&'a mut [u64]>,
    answer: Answer,
}

impl WrongVector {
    /// The fast run, or without a table the plain one.
    fn run(&self, lent: &mut Lent, fast: bool) -> u64 {
        let Lent { memory, sheets, schedule, levels, limit, vectors: list, table } = lent.again();
        let vectors = Vectors::of_list(list).expect("a good list");
        let mut running = Running {
            board: Board { memory, limit, vectors },
            list,
            cores: read_sheets(sheets),
            table: fast.then_some(table),
            answer: Answer::default(),
        };
        for (index, (&who, &lines)) in schedule.iter().zip(levels).enumerate() {
            if running.cores[usize::from(who)].is_running() {
                self.entry(&mut running, usize::from(who), lines, (index, schedule.len()));
            }
        }
        write_sheets(&running.cores, sheets);
        running.answer.pack()
    }

    /// One entry of a running core.
    fn entry(&self, running: &mut Running, who: usize, lines: u32, entry: (usize, usize)) {
        let Running { board, list, cores, table, answer } = running;
        let before = cores[who];
        let insn = exec::fetch(board.memory, before.pc).map(isa::decode_insn);
        let (step, reused) = step(board, cores, who, lines, table.as_deref_mut());
        answer.executed += 1;
        answer.reused += u32::from(reused);
        if let Some(cause) = step.raised {
            let after = cores[who];
            cores[who].pc = (self.vector)(&Raised {
                cause,
                list,
                who,
                before: &before,
                after: &after,
                insn,
                memory: board.memory,
                limit: board.limit,
                fast: table.is_some(),
                entry,
                earlier: answer.raised,
            });
            answer.raised += 1;
        }
    }
}

/// One entry of a running core, as it is due, and whether it counts as reused.
fn step(
    board: &mut Board,
    cores: &mut [Core],
    who: usize,
    lines: u32,
    table: Option<&mut [u64]>,
) -> (Step, bool) {
    if let Some(step) = exec::interrupt(&mut cores[who], &board.vectors, lines) {
        return (step, false);
    }
    match table {
        None => (runs::plain_step(board, cores, who), false),
        Some(table) => runs::fast_step(board, cores, who, table),
    }
}

impl Codec for WrongVector {
    fn name(&self) -> &str {
        self.name
    }
    fn decode(&self, word: u32) -> u64 {
        BY_CACHE.decode(word)
    }
    fn encode(&self, entry: u64) -> u64 {
        BY_CACHE.encode(entry)
    }
}

impl Engine for WrongVector {
    fn plain_run(&self, lent: &mut Lent) -> u64 {
        self.run(lent, false)
    }
    fn fast_run(&self, lent: &mut Lent) -> u64 {
        self.run(lent, true)
    }
}
