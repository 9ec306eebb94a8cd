//! How often exceptions meet what note 6 of document 02 tells apart.

use super::show;
use super::watch::Entry;
use compare::cases::Case;
use compare::exec::Cause::{self, *};
use compare::isa::Kind;
use compare::vectors::OLD;

/// The list's order.
const CAUSES: [Cause; 7] = [Bus, Alignment, Illegal, Range, Syscall, Trap, Interrupt];
/// The last address that a vector may have.
const LAST: u32 = 0xffffc;

/// What is counted of each cause, with the least numbers in 31,000 cases of up to 400
/// entries: about half of what the 20,000 without linked cores give.
const CLASSES: [(&str, [u32; 7]); 13] = [
    ("the old list's", [12_000, 2_700, 2_000, 1_800, 700, 900, 8_300]),
    ("to another vector than the old one", [120_000, 15_000, 14_000, 12_000, 3_300, 6_500, 54_000]),
    ("to what was another's vector", [10_000, 1_800, 1_800, 2_400, 300, 950, 9_300]),
    ("to another vector, in a slot", [5_500, 1_100, 11_000, 1_300, 0, 1_400, 0]),
    (
        "to another vector, not the first exception",
        [120_000, 15_000, 13_000, 11_000, 3_100, 5_900, 52_000],
    ),
    (
        "to another vector, on another core than 0",
        [61_000, 7_700, 7_600, 6_600, 1_800, 3_100, 27_000],
    ),
    ("to a vector right beside another", [15_000, 1_800, 1_500, 1_500, 200, 880, 4_000]),
    ("to the address it came from", [38_000, 3_100, 420, 2, 400, 210, 120]),
    ("to 0", [1_900, 300, 260, 180, 72, 130, 900]),
    ("to ffffc", [2_800, 110, 68, 49, 25, 31, 62]),
    ("to the word after memory", [1_400, 49, 64, 33, 7, 21, 43]),
    ("to a vector outside memory", [22_000, 850, 690, 290, 180, 380, 410]),
    ("to a vector outside memory, then a bus error there", [22_000, 840, 680, 290, 170, 380, 410]),
];

/// The ways to an exception, to another vector than the old one.
const WAYS: [(&str, u32); 11] = [
    ("bus error of a fetch", 69_000),
    ("bus error of a load or p.*", 11_000),
    ("bus error of a store", 12_000),
    ("bus error of a store below the limit", 31_000),
    ("alignment of a jump", 1_400),
    ("alignment of an access", 14_000),
    ("illegal word", 3_000),
    ("illegal for being in a slot", 11_000),
    ("range of a sum", 5_900),
    ("range of a product", 3_400),
    ("range of a division", 3_600),
];

#[derive(Default)]
pub struct Exceptions {
    met: [[u32; CLASSES.len()]; 7],
    ways: [u32; WAYS.len()],
    /// Of the case that is watched.
    list: Vec<u32>,
    limit: u32,
    bytes: u32,
    /// It has had an exception.
    raised: bool,
    /// The cause that took a core where it is, outside memory.
    outside: [Option<Cause>; 4],
    /// Exceptions that went elsewhere than the note says.
    otherwise: u32,
}

/// The place of a cause in the list.
fn place(cause: Cause) -> usize {
    CAUSES.iter().position(|&other| other == cause).expect("one of seven")
}

impl Exceptions {
    /// Another case begins.
    pub fn start(&mut self, case: &Case) {
        self.list.clone_from(&case.vectors);
        (self.limit, self.bytes) = (case.limit, case.memory.len() as u32);
        (self.raised, self.outside) = (false, [None; 4]);
    }

    pub fn note(&mut self, entry: &Entry) {
        if !entry.before.is_running() {
            return;
        }
        let before = self.outside[entry.who].take();
        if let Some(cause) = entry.raised {
            self.note_bus_error_after(before, entry);
            self.note_taken(cause, entry);
            self.note_way(cause, entry);
            self.raised = true;
        }
    }

    /// What follows an exception whose vector is outside memory.
    fn note_bus_error_after(&mut self, before: Option<Cause>, entry: &Entry) {
        let Some(cause) = before else {
            return;
        };
        let (vector, after) = (entry.before.pc, &entry.after);
        let noted = (after.pc, after.epcr, after.eear) == (self.list[0], vector, vector);
        self.otherwise += u32::from(entry.raised != Some(Bus) || !noted);
        self.met[place(cause)][CLASSES.len() - 1] += 1;
    }

    fn note_taken(&mut self, cause: Cause, entry: &Entry) {
        let own = place(cause);
        let (vector, old) = (self.list[own], OLD[own]);
        let kept_out = entry.before.delay && matches!(cause, Syscall | Interrupt);
        self.otherwise += u32::from(entry.after.pc != vector || kept_out);
        let moved = vector != old;
        let beside = |other: &u32| other.abs_diff(vector) == 4;
        let outside = vector >= self.bytes;
        let met = [
            self.list == OLD,
            moved,
            moved && OLD.contains(&vector),
            moved && entry.before.delay,
            moved && self.raised,
            moved && entry.who != 0,
            self.list.iter().any(beside),
            vector == entry.before.pc,
            vector == 0,
            vector == LAST,
            vector == self.bytes,
            outside,
            false,
        ];
        for (count, met) in self.met[own].iter_mut().zip(met) {
            *count += u32::from(met);
        }
        self.outside[entry.who] = outside.then_some(cause);
    }

    fn note_way(&mut self, cause: Cause, entry: &Entry) {
        if self.list[place(cause)] == OLD[place(cause)] {
            return;
        }
        let kind = entry.insn.map(|insn| insn.kind);
        let store = matches!(kind, Some(Kind::Swa | Kind::Sw | Kind::Sb | Kind::Sh));
        let below = entry.after.eear < self.limit;
        let way = match (cause, kind) {
            (Bus, None) => 0,
            (Bus, _) if store && below => 3,
            (Bus, _) if store => 2,
            (Bus, _) => 1,
            (Alignment, Some(Kind::Jr | Kind::Jalr)) => 4,
            (Alignment, _) => 5,
            (Illegal, Some(Kind::Illegal)) => 6,
            (Illegal, _) => 7,
            (Range, Some(Kind::Mul | Kind::Muli)) => 9,
            (Range, Some(Kind::Div | Kind::Divu)) => 10,
            (Range, _) => 8,
            _ => return,
        };
        self.ways[way] += 1;
    }

    /// Takes in what others counted.
    pub fn join(&mut self, other: Exceptions) {
        let counts = self.met.iter_mut().flatten().chain(&mut self.ways);
        let others = other.met.iter().flatten().chain(&other.ways);
        counts.zip(others).for_each(|(count, more)| *count += more);
        self.otherwise += other.otherwise;
    }

    /// Shows the counts. Stops if one is smaller than so many times its least
    /// number: then the cases would say too little about the note.
    pub fn expect(&self, what: &str, times: u32) {
        let mut short = vec![];
        let mut hold = |class: String, count: u32, least: u32| {
            show(&format!("{what}, vectors, {class}: {count}"));
            if count < times * least {
                short.push(format!("{class}: {count} of {}", times * least));
            }
        };
        for (class, (text, least)) in CLASSES.iter().enumerate() {
            for (own, cause) in CAUSES.iter().enumerate() {
                hold(format!("{cause:?} {text}"), self.met[own][class], least[own]);
            }
        }
        for ((text, least), &count) in WAYS.iter().zip(&self.ways) {
            hold(text.to_string(), count, *least);
        }
        assert!(short.is_empty(), "{what}, vectors: {short:#?}");
        assert_eq!(self.otherwise, 0, "{what}: exceptions otherwise than note 6 says");
    }
}
