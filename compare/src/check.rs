//! Engines behind one face, and the questions asked of them.
//!
//! Another engine needs only a `Codec` of its own, and for runs an `Engine`,
//! to be held against this one on the same generators. `engine::Archive` is
//! the one under test.

use crate::card::{self, File};
use crate::cases::Case;
use crate::dump;
use crate::isa;
use crate::runs::{self, Answer, Lent};

/// The two calls on words and entries.
pub trait Codec {
    fn name(&self) -> &str;
    fn decode(&self, word: u32) -> u64;
    fn encode(&self, entry: u64) -> u64;
}

/// The two runs beside them, with answers packed as numbers.
pub trait Engine: Codec {
    fn plain_run(&self, lent: &mut Lent) -> u64;
    fn fast_run(&self, lent: &mut Lent) -> u64;
}

type FastRun = fn(&mut Lent) -> Answer;

/// This engine, with one of its two fast runs.
pub struct Paper {
    name: &'static str,
    fast_run: FastRun,
}

/// This engine, its fast run as "Fast run" words it.
pub const BY_CACHE: Paper = Paper { name: "by cache", fast_run: runs::fast_run };
/// This engine, its fast run as "History" words it.
pub const BY_HISTORY: Paper = Paper { name: "by history", fast_run: runs::fast_run_by_history };

impl Codec for Paper {
    fn name(&self) -> &str {
        self.name
    }
    fn decode(&self, word: u32) -> u64 {
        isa::decode(word)
    }
    fn encode(&self, entry: u64) -> u64 {
        isa::encode(entry)
    }
}

impl Engine for Paper {
    fn plain_run(&self, lent: &mut Lent) -> u64 {
        runs::plain_run(lent).pack()
    }
    fn fast_run(&self, lent: &mut Lent) -> u64 {
        (self.fast_run)(lent).pack()
    }
}

/// A case and the answer after a run of it.
#[derive(Clone, Debug, PartialEq, Eq)]
pub struct Left {
    pub answer: Answer,
    pub case: Case,
}

/// Runs a copy of a case by the plain run, which leaves the table aside.
pub fn after_plain(engine: &dyn Engine, case: &Case) -> Left {
    let mut case = case.clone();
    let packed = engine.plain_run(&mut case.lent());
    Left { answer: Answer::unpack(packed), case }
}

/// Runs a copy of a case by the fast run.
pub fn after_fast(engine: &dyn Engine, case: &Case) -> Left {
    let mut case = case.clone();
    let packed = engine.fast_run(&mut case.lent());
    Left { answer: Answer::unpack(packed), case }
}

/// Whether two engines decode a word alike.
pub fn same_word(one: &dyn Codec, other: &dyn Codec, word: u32) -> Result<(), String> {
    let (x, y) = (one.decode(word), other.decode(word));
    if x == y {
        return Ok(());
    }
    Err(format!("word {word:08x}: {} {x:016x}, {} {y:016x}", one.name(), other.name()))
}

/// Whether two engines encode an entry alike.
pub fn same_entry(one: &dyn Codec, other: &dyn Codec, entry: u64) -> Result<(), String> {
    let (x, y) = (one.encode(entry), other.encode(entry));
    if x == y {
        return Ok(());
    }
    Err(format!("entry {entry:016x}: {} {x:x}, {} {y:x}", one.name(), other.name()))
}

/// What an engine's two runs leave of a case.
pub struct Both {
    pub plain: Left,
    pub fast: Left,
}

pub fn after_both(engine: &dyn Engine, case: &Case) -> Both {
    Both { plain: after_plain(engine, case), fast: after_fast(engine, case) }
}

/// Whether two engines leave and answer the same by both runs.
pub fn same_case(one: &dyn Engine, other: &dyn Engine, case: &Case) -> Result<(), String> {
    same_left([one.name(), other.name()], case, &after_both(one, case), &after_both(other, case))
}

/// The same of what they left.
pub fn same_left(
    [one, other]: [&str; 2],
    case: &Case,
    by_one: &Both,
    by_other: &Both,
) -> Result<(), String> {
    let plain = first_difference(&by_one.plain, &by_other.plain);
    let fast = first_difference(&by_one.fast, &by_other.fast);
    for (run, difference) in [("plain", plain), ("fast", fast)] {
        if let Some(difference) = difference {
            let text = dump::write_case(case);
            return Err(format!("{run} run, {one} against {other}: {difference}\n{text}"));
        }
    }
    Ok(())
}

/// Whether an engine's fast run of a case does what its plain run does, is
/// accepted again if it was accepted, and writes nothing if it was refused.
pub fn keeps_promises(engine: &dyn Engine, case: &Case) -> Result<(), String> {
    left_as_promised(engine.name(), case, &after_both(engine, case))
}

/// The same of what it left.
pub fn left_as_promised(name: &str, case: &Case, left: &Both) -> Result<(), String> {
    let Both { plain, fast } = left;
    let complaint = if fast.answer.refusal != 0 {
        refused_complaint(case, plain, fast)
    } else {
        ran_complaint(plain, fast)
    };
    match complaint {
        None => Ok(()),
        Some(text) => Err(format!("{name}: {text}\n{}", dump::write_case(case))),
    }
}

fn refused_complaint(case: &Case, plain: &Left, fast: &Left) -> Option<String> {
    let refusal = fast.answer.refusal;
    if fast.answer != Answer::refused(refusal) {
        return Some(format!("counts beside a refusal: {:?}", fast.answer));
    }
    if fast.case != *case {
        return Some(format!("refused by {refusal}, yet something lent was written"));
    }
    let concerns_both = ![6, 7].contains(&refusal);
    if concerns_both && (plain.answer != fast.answer || plain.case != *case) {
        return Some(format!("plain run of a case refused by {refusal}: {:?}", plain.answer));
    }
    None
}

fn ran_complaint(plain: &Left, fast: &Left) -> Option<String> {
    let as_plain = Answer { reused: 0, ..fast.answer };
    let with_table = Case { table: plain.case.table.clone(), ..fast.case.clone() };
    let difference = first_difference(plain, &Left { answer: as_plain, case: with_table });
    if let Some(difference) = difference {
        return Some(format!("plain against fast: {difference}"));
    }
    match fast.case.refusal() {
        0 => None,
        refusal => Some(format!("not accepted again: {refusal}")),
    }
}

/// What two runs left first differs in, in words.
pub fn first_difference(x: &Left, y: &Left) -> Option<String> {
    if x.answer != y.answer {
        return Some(format!("answers {:?} and {:?}", x.answer, y.answer));
    }
    differing("memory byte", &x.case.memory, &y.case.memory)
        .or_else(|| differing("sheet word", &x.case.sheets, &y.case.sheets))
        .or_else(|| differing("schedule entry", &x.case.schedule, &y.case.schedule))
        .or_else(|| differing("levels of entry", &x.case.levels, &y.case.levels))
        .or_else(|| differing("vector", &x.case.vectors, &y.case.vectors))
        .or_else(|| differing("table entry", &x.case.table, &y.case.table))
}

fn differing<T: PartialEq + std::fmt::LowerHex>(what: &str, x: &[T], y: &[T]) -> Option<String> {
    let index = x.iter().zip(y).position(|(x, y)| x != y)?;
    Some(format!("{what} {index}: {:x} and {:x}", x[index], y[index]))
}

/// Whether two engines' fast runs print the same for a file and a card, read here.
pub fn same_card(
    one: &dyn Engine,
    other: &dyn Engine,
    file: &File,
    card: &[u8],
) -> Result<(), String> {
    let print =
        |engine: &dyn Engine| card::output_with(file, card, &mut |lent| engine.fast_run(lent));
    let (x, y) = (print(one), print(other));
    if x == y {
        return Ok(());
    }
    let (one, other, shown) = (one.name(), other.name(), shown(file));
    let text = String::from_utf8_lossy(card);
    Err(format!("{one} printed\n{x}{other} printed\n{y}for {shown}the card\n{text}"))
}

/// A file in words.
pub fn shown(file: &File) -> String {
    match file {
        File::Absent => String::new(),
        File::Unreadable => "an unreadable file and ".to_string(),
        File::Bytes(bytes) => {
            let start = String::from_utf8_lossy(&bytes[..bytes.len().min(400)]);
            format!("the file of {} bytes\n{start}\nand ", bytes.len())
        }
    }
}
