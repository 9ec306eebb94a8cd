//! Random lists of vectors (02, note 6), handlers where they point to, and files of
//! them.

use crate::card::{Fault, File};
use crate::cards;
use crate::cases::Case;
use crate::programs;
use crate::rng::Rng;
use crate::state::{place, SHEET_WORDS};
use crate::vectors::{BOUND, KEYS, OLD};

type List = [u32; 7];

/// The places of syscalls and of interrupts in a list.
const SYSCALL: usize = 4;
const INTERRUPT: usize = 6;

/// Gives most cases a list of their own, and as a rule handlers there.
pub fn throw(rng: &mut Rng, case: &mut Case) {
    if rng.one_in(8) {
        return;
    }
    case.vectors = good(rng, case);
    let (handled, served) = (!rng.one_in(4), !rng.one_in(8));
    // Of handlers that overlap, the one at the higher address stays whole.
    let mut places: Vec<usize> = (0..7).collect();
    places.retain(|&place| if place == INTERRUPT { served } else { handled });
    places.sort_by_key(|&place| case.vectors[place]);
    for place in places {
        let handler = handler(rng, place);
        let first = case.vectors[place] as usize / 4;
        for (offset, word) in handler.into_iter().enumerate() {
            case.overwrite(first + offset, word);
        }
    }
}

/// A handler for the cause at a place of the list.
fn handler(rng: &mut Rng, place: usize) -> Vec<u32> {
    let skip = rng.pick(&[4, 4, 8, 12]);
    match place {
        INTERRUPT => programs::interrupt_handler(rng),
        SYSCALL => programs::skipping_handler(0).to_vec(),
        _ => programs::skipping_handler(skip).to_vec(),
    }
}

/// A list that is accepted, as a rule with some of it at an edge or where cores are.
/// Bus errors seldom go outside memory, where they would be all that comes.
pub fn good(rng: &mut Rng, case: &Case) -> Vec<u32> {
    let bytes = case.memory.len() as u32;
    let mut list = spread(rng, bytes);
    for _ in 0..rng.pick(&[0, 0, 0, 1, 1, 2]) {
        list[rng.below(7)] = met(rng, case);
    }
    if list[0] >= bytes && !rng.one_in(4) {
        list[0] = inside(rng, bytes);
    }
    parted(list).to_vec()
}

/// Makes equal addresses differ.
fn parted(mut list: List) -> List {
    for place in 1..7 {
        while list[..place].contains(&list[place]) {
            list[place] = (list[place] + 4) % BOUND;
        }
    }
    list
}

fn inside(rng: &mut Rng, bytes: u32) -> u32 {
    4 * rng.below(bytes as usize / 4) as u32
}

/// Seven addresses: anywhere in so many bytes, near each other, the old ones in
/// another order or moved, at the bound, or anywhere below it.
fn spread(rng: &mut Rng, bytes: u32) -> List {
    let start = 4 * rng.below(bytes as usize / 4 - 28) as u32;
    let away = 4 * rng.between(1, 64) as u32;
    match rng.below(32) {
        0..=12 => OLD.map(|_| inside(rng, bytes)),
        13..=17 => shuffled(rng, steps(start, 16)),
        18..=20 => steps(start, 16),
        21 | 22 => shuffled(rng, steps(start, 4)),
        23..=27 => shuffled(rng, OLD),
        28 | 29 => OLD.map(|address| address + away),
        30 => shuffled(rng, steps(BOUND - 28, 4)),
        _ => OLD.map(|_| inside(rng, BOUND)),
    }
}

fn steps(start: u32, step: u32) -> List {
    [0, 1, 2, 3, 4, 5, 6].map(|number| start + step * number)
}

fn shuffled(rng: &mut Rng, mut list: List) -> List {
    for place in 1..7 {
        list.swap(place, rng.below(place + 1));
    }
    list
}

/// An address at an edge, or near what a core runs, returns to, points to or may not
/// write.
fn met(rng: &mut Rng, case: &Case) -> u32 {
    let bytes = case.memory.len() as u32;
    let sheet = &case.sheets[rng.below(case.cores()) * SHEET_WORDS..];
    let number = rng.pick(&[place::PC, place::PC, place::TARGET, place::EPCR, 1, 2]);
    let near = sheet[number].wrapping_add(4 * rng.below(6) as u32);
    let address = match rng.below(16) {
        0 | 1 => 0,
        2 => rng.pick(&[4, bytes - 4, bytes - 8]),
        3 => bytes,
        4 => rng.pick(&[BOUND - 4, BOUND - 4, BOUND - 8]),
        5 => rng.pick(&OLD),
        6 | 7 => case.limit.wrapping_sub(rng.pick(&[0, 4])),
        8 => inside(rng, BOUND),
        _ => near,
    };
    address & (BOUND - 4)
}

/// A list that is turned back by 13, made of a good one.
pub fn wrong(rng: &mut Rng, good: &[u32]) -> Vec<u32> {
    let mut list = good.to_vec();
    let (some, odd) = (rng.below(7), rng.between(1, 3) as u32);
    match rng.below(8) {
        0 | 1 => put_length(rng, &mut list),
        2 | 3 => list[some] += odd,
        4 => list[some] = too_far(rng, list[some]),
        5 | 6 => {
            for _ in 0..rng.pick(&[1, 1, 1, 1, 2, 12]) {
                put_equal(rng, &mut list);
            }
        }
        _ => {
            list[some] = too_far(rng, list[some]) + odd;
            put_equal(rng, &mut list);
        }
    }
    list
}

/// Another length than seven, as a rule one off; no two addresses are equal.
fn put_length(rng: &mut Rng, list: &mut Vec<u32>) {
    let length = rng.pick(&[6, 6, 6, 8, 8, 8, 0, 1, 5, 9, 14, 46]);
    while list.len() < length {
        let address = inside(rng, BOUND);
        if !list.contains(&address) {
            list.push(address);
        }
    }
    list.truncate(length);
}

/// An address at or past the bound, perhaps with the good one's low bits.
fn too_far(rng: &mut Rng, good: u32) -> u32 {
    let low = [BOUND, BOUND, BOUND + 4, 2 * BOUND, 0x8000_0000, 0xffff_fffc];
    if rng.one_in(2) {
        rng.pick(&low)
    } else {
        good + rng.pick(&[1, 1, 2, 16, 2_048]) * BOUND
    }
}

/// Makes two addresses equal; the later one's place.
fn put_equal(rng: &mut Rng, list: &mut [u32]) -> usize {
    let later = rng.between(1, 6);
    list[later] = list[rng.below(later)];
    later
}

/// A list for cards, whose programs are mostly at the start of memory.
fn for_card(rng: &mut Rng) -> List {
    let bytes = rng.pick(&[400, 400, 4_096, 16_384]);
    let list = spread(rng, bytes);
    parted(list)
}

/// The lines of a file, without their line feeds.
pub fn lines(list: &[u32]) -> Vec<String> {
    KEYS.iter().zip(list).map(|(key, address)| format!("{key}={address:08x}")).collect()
}

/// A good file.
pub fn good_file(rng: &mut Rng) -> Vec<u8> {
    cards::join(&lines(&for_card(rng)))
}

/// A good file, or none.
pub fn good_or_absent(rng: &mut Rng) -> File {
    if rng.one_in(2) {
        File::Bytes(good_file(rng))
    } else {
        File::Absent
    }
}

/// A file, good, faulty, damaged or unreadable, or none.
pub fn any_file(rng: &mut Rng) -> File {
    match rng.below(20) {
        0..=5 => File::Absent,
        6 => File::Unreadable,
        7..=12 => File::Bytes(good_file(rng)),
        13..=17 => File::Bytes(faulty_file(rng).0),
        _ => File::Bytes(damaged_file(rng)),
    }
}

/// A file with a fault put in on purpose, perhaps others beside it, and what the
/// reader must say of it.
pub fn faulty_file(rng: &mut Rng) -> (Vec<u8>, Fault) {
    let mut list = for_card(rng);
    let later = put_equal(rng, &mut list);
    if rng.one_in(5) {
        return (cards::join(&lines(&list)), Fault { refusal: 13, line: later + 1 });
    }
    // Two equal addresses are no fault of a file that has another.
    if rng.one_in(2) {
        list = for_card(rng);
    }
    let mut lines = lines(&list);
    match rng.below(12) {
        0 => return unended(&lines),
        1 => return too_long(rng, &lines),
        _ => {}
    }
    let fault = put_fault(rng, &mut lines);
    if fault.line < lines.len() && rng.one_in(2) {
        let later = rng.between(fault.line, lines.len() - 1);
        put_form_fault(rng, &mut lines, later);
    }
    (cards::join(&lines), fault)
}

/// The last line without its line feed.
fn unended(lines: &[String]) -> (Vec<u8>, Fault) {
    let mut file = cards::join(lines);
    file.pop();
    (file, Fault { refusal: 9, line: lines.len() })
}

/// A file of more than 65,536 bytes, whatever its lines say.
fn too_long(rng: &mut Rng, lines: &[String]) -> (Vec<u8>, Fault) {
    let mut file = cards::join(lines);
    file.resize(rng.pick(&[65_537, 65_600, 70_000]), rng.pick(b"\n0"));
    (file, Fault { refusal: 9, line: 0 })
}

/// Puts a fault of form or value into lines.
fn put_fault(rng: &mut Rng, lines: &mut Vec<String>) -> Fault {
    let place = rng.below(7);
    match rng.below(10) {
        0 => lines.truncate(place),
        1 => {
            lines.push(rng.pick(&["", "interrupt=00000800", "end", " "]).to_string());
            return Fault { refusal: 9, line: 8 };
        }
        2 => lines.insert(place, String::new()),
        3 => {
            let other = if place == 6 { 5 } else { 6 };
            lines.swap(place, other);
            return Fault { refusal: 9, line: place.min(other) + 1 };
        }
        4..=6 => {
            lines[place] = format!("{}={:08x}", KEYS[place], value_fault(rng));
            return Fault { refusal: 10, line: place + 1 };
        }
        _ => put_form_fault(rng, lines, place),
    }
    Fault { refusal: 9, line: place + 1 }
}

/// A well-formed address that is no multiple of 4 or not below the bound.
fn value_fault(rng: &mut Rng) -> u32 {
    let (odd, low) = (rng.between(1, 3) as u32, inside(rng, BOUND));
    match rng.below(4) {
        0 => low + odd,
        1 => rng.pick(&[1, 2, 3, 0x202, 0xffffd, BOUND - 1]),
        2 => too_far(rng, low),
        _ => too_far(rng, low) + odd,
    }
}

/// Makes one line ill-formed.
fn put_form_fault(rng: &mut Rng, lines: &mut [String], line: usize) {
    let key = KEYS.get(line).copied().unwrap_or("end");
    let value = lines[line].split_once('=').map_or("", |(_, value)| value).to_string();
    let values =
        ["200", "0000200", "000000200", "0000020A", "000FFFFC", "0x000200", "0000020g", "-0000200"];
    let choice = rng.below(12);
    lines[line] = cards::spoiled(choice, key, &value).unwrap_or_else(|| match choice {
        9 => value,
        _ => format!("{key}={}", rng.pick(&values)),
    });
}

/// A good file with a few bytes changed, dropped or added; it may be good.
pub fn damaged_file(rng: &mut Rng) -> Vec<u8> {
    const BYTES: &[u8] = b"0123456789abcdefA=\n\r bgt\0\xff";
    let mut file = good_file(rng);
    for _ in 0..rng.between(1, 2) {
        let place = rng.below(file.len() - 2);
        match rng.below(4) {
            0 => file[place] = rng.pick(BYTES),
            // Another digit, so that it is often good.
            1 if file[place].is_ascii_digit() => file[place] = rng.pick(b"048c"),
            2 => file.insert(place, rng.pick(BYTES)),
            _ => {
                file.remove(place);
            }
        }
    }
    file
}
