//! Engines that turn levels, limits or lists of vectors back wrongly.

use compare::battery::Pair;
use compare::check::{Codec, Engine, BY_CACHE, BY_HISTORY};
use compare::runs::{self, Answer, Lent};
use compare::vectors::OLD;

/// What an engine does with what it is lent.
pub enum Turn {
    Right,
    Refuse(u8),
    /// Runs with other levels.
    With(Vec<u32>),
    /// Runs with another limit.
    HeldTo(u32),
    /// Runs with another list of vectors.
    By(Vec<u32>),
    /// Runs without a limit and with the old vectors, and refuses then.
    RunAndRefuse(u8),
}

/// What is in question, and what is due.
pub struct Asked<'a> {
    /// Bytes of memory.
    pub bytes: usize,
    pub sheets: &'a [u32],
    pub entries: usize,
    pub levels: &'a [u32],
    pub limit: u32,
    pub vectors: &'a [u32],
    /// It is the fast run.
    pub fast: bool,
    /// The refusal due, or 0.
    pub due: u8,
    /// The refusal due if the levels were as many as the entries.
    pub with_levels: u8,
    /// The refusal due if the limit were 0.
    pub with_limit: u8,
    /// The refusal due if the vectors were the old ones.
    pub with_vectors: u8,
}

/// An engine that is wrong in which levels, limits and vectors it turns back.
pub struct WrongRefusal {
    pub name: &'static str,
    pub turn: fn(&Asked) -> Turn,
}

/// As a constant, so that a list of them reads like a table.
pub const fn turning(name: &'static str, turn: fn(&Asked) -> Turn) -> WrongRefusal {
    WrongRefusal { name, turn }
}

impl WrongRefusal {
    /// What the engine does with what a run is lent.
    fn turn(&self, lent: &mut Lent, fast: bool, refusal: fn(&Lent) -> u8) -> Turn {
        let low = vec![0; lent.schedule.len()];
        let asked = Asked {
            with_levels: refusal(&Lent { levels: &low, ..lent.again() }),
            with_limit: refusal(&Lent { limit: 0, ..lent.again() }),
            with_vectors: refusal(&Lent { vectors: &OLD, ..lent.again() }),
            due: refusal(lent),
            bytes: lent.memory.len(),
            sheets: lent.sheets,
            entries: lent.schedule.len(),
            levels: lent.levels,
            limit: lent.limit,
            vectors: lent.vectors,
            fast,
        };
        (self.turn)(&asked)
    }
}

/// Refuses, or runs with what is taken.
fn run_after(turn: Turn, lent: &mut Lent, run: fn(&mut Lent) -> u64) -> u64 {
    match turn {
        Turn::Right => run(lent),
        Turn::Refuse(refusal) => Answer::refused(refusal).pack(),
        Turn::With(levels) => run(&mut Lent { levels: &levels, ..lent.again() }),
        Turn::HeldTo(limit) => run(&mut Lent { limit, ..lent.again() }),
        Turn::By(vectors) => run(&mut Lent { vectors: &vectors, ..lent.again() }),
        Turn::RunAndRefuse(refusal) => {
            run(&mut Lent { limit: 0, vectors: &OLD, ..lent.again() });
            Answer::refused(refusal).pack()
        }
    }
}

impl Codec for WrongRefusal {
    fn name(&self) -> &str {
        self.name
    }
    fn decode(&self, word: u32) -> u64 {
        BY_CACHE.decode(word)
    }
    fn encode(&self, entry: u64) -> u64 {
        BY_CACHE.encode(entry)
    }
}

impl Engine for WrongRefusal {
    fn plain_run(&self, lent: &mut Lent) -> u64 {
        let turn = self.turn(lent, false, runs::plain_refusal);
        run_after(turn, lent, |lent| BY_CACHE.plain_run(lent))
    }
    fn fast_run(&self, lent: &mut Lent) -> u64 {
        let turn = self.turn(lent, true, runs::fast_refusal);
        run_after(turn, lent, |lent| BY_CACHE.fast_run(lent))
    }
}

/// The battery stops each of these engines, and passes one that is right.
pub fn assert_stopped(engines: &[WrongRefusal]) {
    for engine in engines {
        let pair = Pair { one: &BY_HISTORY, other: engine };
        let asked = pair.broken_cases(0..3_000).and_then(|()| pair.accepted_cases(0..300, 10));
        assert!(asked.is_err(), "{}", engine.name);
    }
    let right = WrongRefusal { name: "right", turn: |_| Turn::Right };
    let pair = Pair { one: &BY_HISTORY, other: &right };
    assert_eq!(pair.broken_cases(0..300), Ok(()));
}
