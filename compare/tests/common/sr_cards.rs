//! Cards about the line sr (note 7 of document 02), each with what is due for it.

use super::asm;
use super::rows::{self, Row, Rows};
use compare::cards::{self, Card};
use compare::isa::Kind::*;

/// The numbers of the lines by the note.
const ENTRY: usize = 3;
const SR: usize = 4;

/// The bits that SR may have, by document 01, and their names.
pub const BITS: [(u32, &str); 8] =
    [(0, "SM"), (1, "TEE"), (2, "IEE"), (9, "F"), (10, "CY"), (11, "OV"), (12, "OVE"), (13, "DSX")];

/// The bits that are as they are: 15 is 1, the others 0.
pub fn fixed_bits() -> Vec<u32> {
    (0..32).filter(|bit| BITS.iter().all(|(other, _)| other != bit)).collect()
}

/// All 256 values that a sheet's SR may have.
pub fn lawful() -> Vec<u32> {
    let value = |number: u32| {
        let set = BITS.iter().enumerate().filter(|(place, _)| number >> place & 1 == 1);
        set.fold(1 << 15, |value, (_, (bit, _))| value | 1 << bit)
    };
    (0..256).map(value).collect()
}

/// The paper's example with the line.
pub fn example() -> Card {
    let words = vec![0x9c60_0005, 0xe084_1800, 0x03ff_ffff, 0x1500_0000];
    Card { steps: 6, words, ..Card::default() }
}

/// A card whose program shows SR and ESR, and what CY, F and OVE do, on each core.
fn telling(sr: u32, cores: usize) -> Card {
    let words = vec![
        asm(Mfspr, 3, 0, 0, 17),
        asm(Mfspr, 4, 0, 0, 64),
        asm(Addc, 5, 0, 0, 0),
        asm(Bf, 0, 0, 0, 12),
        asm(Nop, 0, 0, 0, 0),
        asm(Ori, 6, 0, 0, 1),
        asm(Movhi, 7, 0, 0, 0x7fff),
        asm(Add, 8, 7, 7, 0),
        asm(Nop, 0, 0, 0, 1),
    ];
    let schedule = "0123"[..cores].to_string();
    Card { cores, sr, steps: 9 * cores, schedule, words, ..Card::default() }
}

/// A card that begins with l.rfe, which takes ESR. Core 0 alone runs.
fn returning(sr: u32, cores: usize) -> Card {
    let words = vec![asm(Nop, 0, 0, 0, 0), asm(Rfe, 0, 0, 0, 0)];
    Card { cores, entry: 4, sr, steps: 1, words, ..Card::default() }
}

fn lines() -> Vec<String> {
    example().lines()
}

/// The example with one line, counted from 1, replaced.
fn with(line: usize, text: &str) -> Vec<String> {
    let mut lines = lines();
    lines[line - 1] = text.to_string();
    lines
}

/// The example with another line sr.
fn with_sr(text: &str) -> Vec<String> {
    with(SR, text)
}

/// The example as it was before the note.
fn old() -> Vec<String> {
    let mut lines = lines();
    lines.remove(SR - 1);
    lines
}

fn put_values(rows: &mut Rows) {
    for (sr, cores) in lawful().into_iter().zip((1..=4).cycle()) {
        rows.add("lawful value", telling(sr, cores).text(), 0, 0);
        rows.add("lawful value, l.rfe first", returning(sr, cores).text(), 0, 0);
    }
    for bit in fixed_bits() {
        for lawful in [0x8001, 0x8000, 0xbe07, 0x9a05] {
            let card = Card { sr: lawful ^ 1 << bit, ..example() };
            rows.add("one bit wrong", card.text(), 10, SR);
        }
    }
    let others = [
        0,
        1,
        0x3e07,
        0x7fff,
        0xffff,
        0x0001_8001,
        0x8000_0001,
        0x8001_0000,
        0x8001_8001,
        0x0000_c3ff,
        0xffff_8001,
        0xffff_ffff,
    ];
    for sr in others {
        rows.add("unlawful value", Card { sr, ..example() }.text(), 10, SR);
    }
}

fn put_form_faults(rows: &mut Rows) {
    for text in rows::ill_formed("sr", "steps", "00008001") {
        rows.lines("ill-formed line of reset's SR", &with_sr(&text), 9, SR);
    }
    // Of an unlawful value too: "9 before 10".
    for value in ["0000be07", "00000000", "ffffffff"] {
        for text in rows::ill_formed("sr", "steps", value) {
            rows.lines("ill-formed line", &with_sr(&text), 9, SR);
        }
    }
    for sr in lawful().into_iter().filter(|sr| sr & 7 == 1) {
        let upper = format!("sr={sr:08X}");
        if upper != format!("sr={sr:08x}") {
            rows.lines("upper-case digits", &with_sr(&upper), 9, SR);
        }
    }
    for text in ["sr=32769", "sr=0x8001", "sr=1", "SR=00008001", "Sr=00008001", "esr=00008001"] {
        rows.lines("another form or key", &with_sr(text), 9, SR);
    }
}

/// The line in every other place, twice, missing, and run together with another.
fn put_places(rows: &mut Rows) {
    let all = lines().len();
    for line in (1..=all).filter(|&line| line != SR) {
        let mut moved = lines();
        let sr = moved.remove(SR - 1);
        moved.insert(line - 1, sr);
        rows.lines("misplaced line", &moved, 9, line.min(SR));
        let mut exchanged = lines();
        exchanged.swap(line - 1, SR - 1);
        rows.lines("lines exchanged", &exchanged, 9, line.min(SR));
        rows.lines("for another line", &with(line, "sr=00008001"), 9, line);
    }
    for line in 1..=all + 1 {
        for text in ["sr=00008001", "sr=00009001", "sr=00000000"] {
            let mut twice = lines();
            twice.insert(line - 1, text.to_string());
            let due = match (line, text) {
                // In front of its own place it is the line that is due there.
                (SR, "sr=00000000") => (10, SR),
                (SR, _) => (9, SR + 1),
                _ => (9, line),
            };
            rows.lines("line twice", &twice, due.0, due.1);
        }
    }
    let mut blank = lines();
    blank.insert(SR - 1, String::new());
    rows.lines("blank line", &blank, 9, SR);
    for line in [ENTRY, SR] {
        let mut together = lines();
        let next = together.remove(line);
        together[line - 1].push_str(&next);
        rows.lines("a line feed missing", &together, 9, line);
    }
}

/// One line for all cores.
fn put_cores(rows: &mut Rows) {
    for cores in 2..=4 {
        let card = Card { cores, sr: 0x9a05, ..example() };
        rows.add("several cores", card.text(), 0, 0);
        let mut lines = card.lines();
        for _ in 1..cores {
            lines.insert(SR, lines[SR - 1].clone());
        }
        rows.lines("a line for each core", &lines, 9, SR + 1);
    }
}

/// "Cards taken until now lack the line and so meet 9 at line 4", whatever comes after.
fn put_old(rows: &mut Rows) {
    rows.lines("old card", &old(), 9, SR);
    for end in ENTRY..old().len() {
        rows.lines("old card, cut after a line", &old()[..end], 9, SR);
        let mut unended = cards::join(&old()[..=end]);
        unended.pop();
        rows.add("old card, unended", unended, 9, SR);
    }
    for (line, text) in [(4, "steps=06"), (4, "steps=16385"), (5, "schedule=1"), (6, "words=5")] {
        let mut lines = old();
        lines[line - 1] = text.to_string();
        rows.lines("old card with a fault", &lines, 9, SR);
    }
}

/// "first bad line": faults of other lines, each with one of form and one of value,
/// beside a good line sr, a bad one and none.
fn put_orders(rows: &mut Rows) {
    let before = [
        (1, "cores=x", "cores=5"),
        (2, "memory=", "memory=4098"),
        (3, "entry=0", "entry=00000002"),
    ];
    let after = [
        (5, "steps=06", "steps=16385"),
        (6, "schedule=", "schedule=1"),
        (7, "words=x", "words=1025"),
    ];
    let bad = [("sr=00000000", 10), ("sr=8001", 9), ("", 9), ("steps=6", 9)];
    for (line, form, value) in before.into_iter().chain(after) {
        for (text, refusal) in [(form, 9), (value, 10)] {
            rows.lines("another line", &with(line, text), refusal, line);
            for (sr, of_sr) in bad {
                let mut lines = with(line, text);
                lines[SR - 1] = sr.to_string();
                let due = if line < SR { (refusal, line) } else { (of_sr, SR) };
                rows.lines("two lines", &lines, due.0, due.1);
            }
        }
    }
    for (line, text) in [(8, "w=9C600005"), (9, "w="), (11, "W=15000000"), (10, "")] {
        rows.lines("another line", &with(line, text), 9, line);
        for (sr, of_sr) in bad {
            let mut lines = with(line, text);
            lines[SR - 1] = sr.to_string();
            rows.lines("two lines", &lines, of_sr, SR);
        }
    }
}

/// Cut after each byte, with a lawful value and with one that is not: "9 before 10".
fn put_ends(rows: &mut Rows) {
    for sr in [0x8001, 0] {
        let card = Card { sr, ..example() }.text();
        for end in 0..card.len() {
            let feeds = card[..end].iter().filter(|&&byte| byte == b'\n').count();
            let due = if sr == 0 && feeds >= SR { (10, SR) } else { (9, feeds + 1) };
            rows.add("cut", card[..end].to_vec(), due.0, due.1);
        }
    }
    for rest in ["\n", " ", "sr=00008001\n", "sr=00008001", "w=00000000\n"] {
        let card = [example().text(), rest.into()].concat();
        rows.add("left over", card, 9, lines().len() + 1);
    }
}

/// "over 65,536 bytes (line 0)", the line's own 12 bytes counted as any others.
fn put_lengths(rows: &mut Rows) {
    let starts = [
        (lines(), 9, lines().len() + 1),
        (with_sr("sr=00000000"), 10, SR),
        (with_sr("sr=8001"), 9, SR),
        (old(), 9, SR),
    ];
    for (start, refusal, line) in starts {
        for filling in *b"\n0" {
            for length in [65_524, 65_525, 65_535, 65_536, 65_537, 65_548, 65_549] {
                let mut card = cards::join(&start);
                card.resize(length, filling);
                let due = if length > 65_536 { (9, 0) } else { (refusal, line) };
                rows.add("long", card, due.0, due.1);
            }
        }
    }
}

/// All of them.
pub fn rows() -> Vec<Row> {
    let mut rows = Rows::default();
    put_values(&mut rows);
    put_form_faults(&mut rows);
    put_places(&mut rows);
    put_cores(&mut rows);
    put_old(&mut rows);
    put_orders(&mut rows);
    put_ends(&mut rows);
    put_lengths(&mut rows);
    rows.0
}
