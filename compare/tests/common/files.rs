//! Files of vectors (note 6 of document 02), each with what is due for it.

use super::rows::{self, Row, Rows};
use super::{asm, two_places};
use compare::cards::{self, Card};
use compare::isa::Kind;
use compare::lists;
use compare::vectors::KEYS;

/// No address is the old list's, and there are eight words from one to the next.
pub const LIST: [u32; 7] = [0x120, 0x1a0, 0x140, 0x100, 0x1c0, 0x160, 0x180];

impl Rows {
    fn list(&mut self, what: &str, list: &[u32], refusal: u8, line: usize) {
        self.lines(what, &lists::lines(list), refusal, line);
    }
}

fn lines() -> Vec<String> {
    lists::lines(&LIST)
}

pub fn good() -> Vec<u8> {
    cards::join(&lines())
}

/// The list with some addresses changed.
fn with(changes: &[(usize, u32)]) -> [u32; 7] {
    let mut list = LIST;
    for &(place, address) in changes {
        list[place] = address;
    }
    list
}

/// One line with its value put otherwise.
fn line(place: usize, value: &str) -> String {
    format!("{}={value}", KEYS[place])
}

fn put_form_faults(rows: &mut Rows) {
    for place in 0..7 {
        let (key, next) = (KEYS[place], KEYS[(place + 1) % 7]);
        for text in rows::ill_formed(key, next, &format!("{:08x}", LIST[place])) {
            let mut lines = lines();
            lines[place] = text;
            rows.lines("ill-formed line", &lines, 9, place + 1);
        }
        let mut lines = lines();
        lines.remove(place);
        rows.lines("missing line", &lines, 9, place + 1);
        let mut lines = self::lines();
        lines.insert(place, String::new());
        rows.lines("blank line", &lines, 9, place + 1);
        let mut lines = self::lines();
        lines.insert(place, lines[place].clone());
        rows.lines("doubled line", &lines, 9, place + 2);
        for other in 0..place {
            let mut lines = self::lines();
            lines.swap(place, other);
            rows.lines("misplaced lines", &lines, 9, other + 1);
        }
        if place < 6 {
            let mut lines = self::lines();
            let next = lines.remove(place + 1);
            lines[place].push_str(&next);
            rows.lines("a line feed missing", &lines, 9, place + 1);
        }
    }
    let (text, carriage) = (String::from_utf8(good()).expect("text"), "\r\n");
    rows.add("carriage returns", text.replace('\n', carriage).into(), 9, 1);
    rows.add("carriage returns alone", text.replace('\n', "\r").into(), 9, 1);
    rows.add("byte order mark", format!("\u{feff}{text}").into(), 9, 1);
    rows.add("no text", vec![0xff; 110], 9, 1);
}

/// Cut after each byte, and with bytes after the last line.
fn put_ends(rows: &mut Rows) {
    let whole = good();
    for end in 0..whole.len() {
        let feeds = whole[..end].iter().filter(|&&byte| byte == b'\n').count();
        rows.add("cut", whole[..end].to_vec(), 9, feeds + 1);
    }
    rows.add("whole", whole.clone(), 0, 0);
    let rest: [&[u8]; 9] =
        [b"\n", b"\n\n", b" ", b"\r", b"\0", b"x", b"\x1a", b"interrupt=00000800\n", &whole];
    for bytes in rest {
        rows.add("left over", [&whole, bytes].concat(), 9, 8);
    }
    rows.add("a line feed alone", b"\n".to_vec(), 9, 1);
    rows.add("a card", b"cores=1\nmemory=4096\n".to_vec(), 9, 1);
}

const ODD: [u32; 6] = [1, 2, 3, 0x201, 0x702, 0xffffd];
const FAR: [u32; 7] =
    [0x10_0000, 0x10_0004, 0x10_0001, 0x20_0000, 0x8000_0000, 0xffff_fffc, 0xffff_ffff];

fn put_value_faults(rows: &mut Rows) {
    for place in 0..7 {
        for address in [0, 4, 0x8, 0x200, 0xffc, 0x1000, 0x4000, 0xf_fff8, 0xf_fffc] {
            rows.list("good address", &with(&[(place, address)]), 0, 0);
        }
        for address in [ODD.as_slice(), &FAR].concat() {
            rows.list("address outside its limits", &with(&[(place, address)]), 10, place + 1);
        }
        // "first bad line": whatever comes after it, of form or of value.
        for later in place + 1..7 {
            let mut lines = lists::lines(&with(&[(place, 2)]));
            lines[later] = line(later, "xyz");
            rows.lines("value, then form", &lines, 10, place + 1);
            let mut lines = lists::lines(&with(&[(later, 2)]));
            lines[place] = line(place, "0000020A");
            rows.lines("form, then value", &lines, 9, place + 1);
            rows.list("two values", &with(&[(place, 0x10_0000), (later, 2)]), 10, place + 1);
        }
    }
    // "9 before 10" on one line.
    let mut unended = cards::join(&lists::lines(&with(&[(6, 2)])));
    unended.pop();
    rows.add("value without its line feed", unended, 9, 7);
}

/// "two equal addresses, at the first line that repeats one".
fn put_repeats(rows: &mut Rows) {
    for (first, later) in two_places() {
        for address in [LIST[first], LIST[later], 0, 0xf_fffc] {
            let list = with(&[(first, address), (later, address)]);
            rows.list("two equal addresses", &list, 13, later + 1);
        }
    }
    let [a, b, c, d, e, f, g] = LIST;
    let lists = [
        ([a; 7], 2),
        ([a, b, b, a, c, d, e], 3),
        ([a, b, a, b, c, d, e], 3),
        ([a, b, c, c, b, a, d], 4),
        ([a, b, c, d, d, d, d], 5),
        ([a, b, c, d, e, f, f], 7),
        ([a, b, c, d, e, f, a], 7),
        ([a, b, c, d, e, b, b], 6),
        ([g, f, g, d, d, b, a], 3),
    ];
    for (list, line) in lists {
        rows.list("several equal addresses", &list, 13, line);
    }
}

/// "Once the whole file passes these": no 13 where there is another fault, before, on or
/// after the line that repeats.
fn put_repeats_beside_faults(rows: &mut Rows) {
    for place in 0..7 {
        let repeat = |later: usize| with(&[(later, LIST[0])]);
        for later in 1..7 {
            if later != place {
                let mut lines = lists::lines(&repeat(later));
                lines[place] = line(place, "200");
                rows.lines("equal, and form", &lines, 9, place + 1);
                let mut list = repeat(later);
                list[place] = if place == 0 { 2 } else { 0x10_0000 };
                rows.list("equal, and value", &list, 10, place + 1);
            }
        }
        // Two equal addresses that are both outside their limits.
        if place > 0 {
            let list = with(&[(0, 0x202), (place, 0x202)]);
            rows.list("equal and outside their limits", &list, 10, 1);
            let mut lines = lists::lines(&repeat(place));
            lines.push(String::new());
            rows.lines("equal, and left over", &lines, 9, 8);
            let mut file = cards::join(&lists::lines(&repeat(place)));
            file.pop();
            rows.add("equal, and unended", file, 9, 7);
            let mut file = cards::join(&lists::lines(&repeat(place)));
            file.resize(65_537, b'\n');
            rows.add("equal, and too long", file, 9, 0);
        }
    }
}

/// "over 65,536 bytes (line 0)".
fn put_lengths(rows: &mut Rows) {
    let value_fault = cards::join(&lists::lines(&with(&[(0, 2)])));
    let form_fault = [b"x".as_slice(), &good()].concat();
    for filling in *b"\n0\0" {
        for (start, refusal, line) in
            [(good(), 9, 8), (value_fault.clone(), 10, 1), (form_fault.clone(), 9, 1)]
        {
            for length in [65_535, 65_536, 65_537, 70_000] {
                let mut file = start.clone();
                file.resize(length, filling);
                let (refusal, line) = if length > 65_536 { (9, 0) } else { (refusal, line) };
                rows.add("long", file, refusal, line);
            }
        }
    }
    rows.add("one line of 65,536 bytes", vec![b'b'; 65_536], 9, 1);
    rows.add("one line of 65,537 bytes", vec![b'b'; 65_537], 9, 0);
    rows.add("a million bytes", vec![b'\n'; 1_000_000], 9, 0);
}

/// All of them.
pub fn rows() -> Vec<Row> {
    let mut rows = Rows::default();
    put_form_faults(&mut rows);
    put_ends(&mut rows);
    put_value_faults(&mut rows);
    put_repeats(&mut rows);
    put_repeats_beside_faults(&mut rows);
    put_lengths(&mut rows);
    rows.0
}

/// What a handler does: it adds its number, as a hexadecimal digit, to r3 and goes on
/// so many bytes after EPCR.
fn handler(number: u32, skip: u32) -> [u32; 6] {
    [
        asm(Kind::Slli, 3, 3, 0, 4),
        asm(Kind::Ori, 3, 3, 0, number),
        asm(Kind::Mfspr, 31, 0, 0, 32),
        asm(Kind::Addi, 31, 31, 0, skip),
        asm(Kind::Mtspr, 0, 0, 31, 32),
        asm(Kind::Rfe, 0, 0, 0, 0),
    ]
}

/// A card that raises range, syscall, trap, illegal, alignment and bus in turn, with
/// handlers where `LIST` has them: r3 then tells which were run.
pub fn card() -> Vec<u8> {
    let mut words = vec![0; 128];
    let program = [
        asm(Kind::Ori, 10, 0, 0, 0x9001),
        asm(Kind::Mtspr, 0, 0, 10, 17),
        asm(Kind::Movhi, 4, 0, 0, 0x7fff),
        asm(Kind::Add, 5, 4, 4, 0),
        0x2000_0000,
        0x2100_0000,
        0xfc00_0000,
        asm(Kind::Lwz, 5, 0, 0, 1),
        asm(Kind::Lwz, 5, 4, 0, 0),
        asm(Kind::Nop, 0, 0, 0, 1),
    ];
    words[..program.len()].copy_from_slice(&program);
    for (place, &vector) in LIST.iter().enumerate() {
        // A system call returns to what follows it by itself.
        let handler = handler(place as u32 + 1, if place == 4 { 0 } else { 4 });
        words[vector as usize / 4..][..handler.len()].copy_from_slice(&handler);
    }
    Card { steps: 60, words, ..Card::default() }.text()
}

/// Its whole output with `good()`: 10 instructions and 6 handlers of 6.
pub const CARD_OUTPUT: &str = "executed=46\nraised=6\nreused=0\n\
    core=0 mode=0 pc=00000028 delay=0 sr=00009801\n\
    r3=00456321\nr4=7fff0000\nr5=fffe0000\nr10=00009001\nr31=00000024\nend\n";
