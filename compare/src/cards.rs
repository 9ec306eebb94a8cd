//! Random run cards: good ones, ones with a known fault, and damaged ones.

use crate::card::Fault;
use crate::programs;
use crate::rng::Rng;
use crate::state::{allowed_sr, FIXED_ONE, SR_BITS, SR_RESET};

/// The keys of the lines before the w lines, in their order.
pub const KEYS: [&str; 7] = ["cores", "memory", "entry", "sr", "steps", "schedule", "words"];

/// The place of the line sr (02, note 7), counted from 0.
const SR: usize = 3;

/// The number of the line that has a key.
pub fn line_of(key: &str) -> usize {
    1 + KEYS.iter().position(|other| *other == key).expect("a key of a card")
}

/// A card to be written; by itself one core, the least memory, SR as at reset and no
/// step.
#[derive(Clone, Debug)]
pub struct Card {
    pub cores: usize,
    pub memory: usize,
    pub entry: u32,
    pub sr: u32,
    pub steps: usize,
    pub schedule: String,
    pub words: Vec<u32>,
}

impl Default for Card {
    fn default() -> Card {
        Card {
            cores: 1,
            memory: 4_096,
            entry: 0,
            sr: SR_RESET,
            steps: 0,
            schedule: "0".to_string(),
            words: vec![],
        }
    }
}

impl Card {
    /// Its lines, without their line feeds.
    pub fn lines(&self) -> Vec<String> {
        let values = [
            self.cores.to_string(),
            self.memory.to_string(),
            format!("{:08x}", self.entry),
            format!("{:08x}", self.sr),
            self.steps.to_string(),
            self.schedule.clone(),
            self.words.len().to_string(),
        ];
        let header = KEYS.iter().zip(values).map(|(key, value)| format!("{key}={value}"));
        header.chain(self.words.iter().map(|word| format!("w={word:08x}"))).collect()
    }

    pub fn text(&self) -> Vec<u8> {
        join(&self.lines())
    }
}

/// A card of these lines, each ended by one line feed.
pub fn join(lines: &[String]) -> Vec<u8> {
    lines.iter().flat_map(|line| line.bytes().chain([b'\n'])).collect()
}

/// A good card, not yet written.
pub fn good(rng: &mut Rng) -> Card {
    let sr = lawful_sr(&mut rng.aside());
    let cores = rng.between(1, 4);
    let memory = match rng.below(4) {
        0 => 4_096,
        1 => 16_384,
        _ => 4 * rng.between(1_024, 4_096),
    };
    let count = match rng.below(16) {
        0 => memory / 4,
        1 => 0,
        _ => rng.between(1, 120),
    };
    let entry = if rng.one_in(12) { rng.next_u32() & !3 } else { 4 * rng.below(24) as u32 };
    let some = rng.below(500);
    let steps = rng.pick(&[0, 1, 16_384, 300, some, some]);
    let schedule = digits(rng, cores);
    let words = words(rng, count, entry);
    Card { cores, memory, entry, sr, steps, schedule, words }
}

/// A good card.
pub fn good_card(rng: &mut Rng) -> Vec<u8> {
    good(rng).text()
}

/// A value that a sheet's SR may have: once in four times reset's, else any of the 256.
pub fn lawful_sr(rng: &mut Rng) -> u32 {
    if rng.one_in(4) {
        SR_RESET
    } else {
        allowed_sr(rng.next_u32())
    }
}

/// A value that no sheet's SR may have: as a rule one bit alone is wrong, often bit 15.
pub fn unlawful_sr(rng: &mut Rng) -> u32 {
    let fixed: Vec<u32> = (0..32).map(|bit| 1 << bit).filter(|bit| bit & SR_BITS == 0).collect();
    let (one, others) = (rng.pick(&fixed), rng.next_u32() & !SR_BITS);
    lawful_sr(rng)
        ^ match rng.below(8) {
            0 => FIXED_ONE,
            1 => one | others,
            _ => one,
        }
}

/// A program; every second one turns overflow traps on where it is entered, and half of
/// the others look at SR and ESR there.
fn words(rng: &mut Rng, count: usize, entry: u32) -> Vec<u32> {
    let mut words: Vec<u32> = (0..count).map(|_| programs::program_word(rng)).collect();
    let (trapping, traps) = (programs::trapping_start(rng), rng.one_in(2));
    let start = match traps {
        true => trapping.to_vec(),
        false if rng.aside().one_in(2) => programs::looking_start(),
        false => vec![],
    };
    let first = entry as usize / 4;
    if first + start.len() <= count {
        words[first..first + start.len()].copy_from_slice(&start);
    }
    words
}

/// One to sixteen digits that name cores.
fn digits(rng: &mut Rng, cores: usize) -> String {
    let some = rng.between(1, 16);
    let count = rng.pick(&[1, 16, some]);
    (0..count).map(|_| char::from(b'0' + rng.below(cores) as u8)).collect()
}

/// A card with a fault put in on purpose, perhaps another after it, and what
/// the reader must say of it.
pub fn faulty_card(rng: &mut Rng) -> (Vec<u8>, Fault) {
    let mut lines = good(rng).lines();
    let (all, some) = (lines.len(), rng.below(KEYS.len()));
    let fault = match rng.below(12) {
        0 => {
            lines.truncate(rng.below(all));
            Fault { refusal: 9, line: lines.len() + 1 }
        }
        1 => {
            lines.push(rng.pick(&["", "w=00000000", "end", " "]).to_string());
            Fault { refusal: 9, line: all + 1 }
        }
        2 => {
            let last = rng.pick(&[SR, some, all - 1]);
            return unended(rng, lines, last);
        }
        3 => return too_long(rng, lines),
        4 => {
            let line = rng.below(all);
            put_form_fault(rng, &mut lines, line);
            Fault { refusal: 9, line: line + 1 }
        }
        5..=7 => put_fault(rng, &mut lines, SR),
        _ => put_fault(rng, &mut lines, some),
    };
    put_later_fault(rng, &mut lines, fault);
    (join(&lines), fault)
}

/// A card with a fault of its line sr, perhaps with one before it, which is then told,
/// or after it.
pub fn faulty_sr(rng: &mut Rng) -> (Vec<u8>, Fault) {
    let mut lines = good(rng).lines();
    if rng.one_in(16) {
        return unended(rng, lines, SR);
    }
    let mut fault = put_fault(rng, &mut lines, SR);
    if rng.one_in(3) {
        let (line, refusal) = (rng.below(SR), rng.pick(&[9, 10]));
        match refusal {
            9 => put_form_fault(rng, &mut lines, line),
            _ => put_value_fault(rng, &mut lines, line),
        }
        if line < fault.line {
            fault = Fault { refusal, line: line + 1 };
        }
    }
    put_later_fault(rng, &mut lines, fault);
    (join(&lines), fault)
}

/// Makes half of the cards ill-formed after their fault too.
fn put_later_fault(rng: &mut Rng, lines: &mut [String], fault: Fault) {
    if fault.line < lines.len() && rng.one_in(2) {
        let later = rng.between(fault.line, lines.len() - 1);
        put_form_fault(rng, lines, later);
    }
}

/// Puts a fault of one line before the w lines, its place counted from 0.
fn put_fault(rng: &mut Rng, lines: &mut Vec<String>, line: usize) -> Fault {
    match rng.below(12) {
        0 => drop(lines.remove(line)),
        1 => lines.truncate(line),
        2 => lines.insert(line, String::new()),
        3 => {
            lines.insert(line, lines[line].clone());
            return Fault { refusal: 9, line: line + 2 };
        }
        4 => {
            let other = (line + rng.between(1, KEYS.len() - 1)) % KEYS.len();
            let moved = lines.remove(line);
            lines.insert(other, moved);
            return Fault { refusal: 9, line: line.min(other) + 1 };
        }
        5..=7 => {
            put_value_fault(rng, lines, line);
            return Fault { refusal: 10, line: line + 1 };
        }
        _ => put_form_fault(rng, lines, line),
    }
    Fault { refusal: 9, line: line + 1 }
}

/// A card that ends in a line, its place counted from 0, without the line feed, perhaps
/// with a value fault as well.
fn unended(rng: &mut Rng, mut lines: Vec<String>, last: usize) -> (Vec<u8>, Fault) {
    lines.truncate(last + 1);
    if last < KEYS.len() && rng.one_in(2) {
        put_value_fault(rng, &mut lines, last);
    }
    let mut card = join(&lines);
    card.pop();
    (card, Fault { refusal: 9, line: last + 1 })
}

/// A card of more than 65,536 bytes, whatever its lines say.
fn too_long(rng: &mut Rng, mut lines: Vec<String>) -> (Vec<u8>, Fault) {
    if rng.one_in(2) {
        let line = rng.below(KEYS.len());
        put_value_fault(rng, &mut lines, line);
    }
    let mut card = join(&lines);
    card.resize(rng.pick(&[65_537, 65_548, 70_000]), b'\n');
    (card, Fault { refusal: 9, line: 0 })
}

/// Puts a well-formed value outside its limits on a line before the w lines.
fn put_value_fault(rng: &mut Rng, lines: &mut [String], line: usize) {
    let number = |key: &str, line: &str| line.strip_prefix(key).and_then(|it| it.parse().ok());
    let memory: usize = lines.get(1).and_then(|line| number("memory=", line)).unwrap_or(4_096);
    let cores: usize = number("cores=", &lines[0]).unwrap_or(1);
    let key = key_of(line);
    let value = match key {
        "cores" => rng.pick(&["0", "5", "10", "9999999"]).to_string(),
        "memory" => {
            rng.pick(&["0", "4092", "4095", "4098", "16388", "16383", "9999999"]).to_string()
        }
        "entry" => format!("{:08x}", rng.next_u32() & !3 | rng.between(1, 3) as u32),
        "sr" => format!("{:08x}", unlawful_sr(rng)),
        "steps" => rng.pick(&["16385", "9999999"]).to_string(),
        "schedule" => {
            let wrong = char::from(b'0' + rng.between(cores, 9) as u8);
            let mut text = digits(rng, cores);
            let place = rng.below(text.len());
            text.replace_range(place..place + 1, &wrong.to_string());
            text
        }
        _ => rng.pick(&[memory / 4 + 1, 9_999_999, memory]).to_string(),
    };
    lines[line] = format!("{key}={value}");
}

fn key_of(line: usize) -> &'static str {
    KEYS.get(line).copied().unwrap_or("w")
}

/// One of nine ways to spoil a line whatever its value is; no other choice is one.
pub fn spoiled(choice: usize, key: &str, value: &str) -> Option<String> {
    Some(match choice {
        0 => String::new(),
        1 => format!("{key}s={value}"),
        2 => format!(" {key}={value}"),
        3 => format!("{key}={value} "),
        4 => format!("{key}={value}\r"),
        5 => format!("{key}{value}"),
        6 => format!("{key}="),
        7 => format!("{}={value}", key.to_uppercase()),
        8 => format!("{key}=={value}"),
        _ => return None,
    })
}

/// Makes one line ill-formed.
fn put_form_fault(rng: &mut Rng, lines: &mut [String], line: usize) {
    let key = key_of(line);
    let value = lines[line].split_once('=').map_or("", |(_, value)| value).to_string();
    lines[line] = spoiled(rng.below(14), key, &value)
        .unwrap_or_else(|| format!("{key}={}", ill_formed_value(rng, key)));
}

fn ill_formed_value(rng: &mut Rng, key: &str) -> String {
    let decimal = ["00", "01", "10000000", "00000001", "+1", "-1", "1a", "0x1", "1,024", "\u{661}"];
    let schedule = ["00000000000000000", "0 ", "0a", "0,1", "99999999999999999", "9x", "-0"];
    match key {
        "entry" | "w" => {
            let value = rng.next_u32();
            ill_formed_hexadecimal(rng, value)
        }
        "sr" => {
            let (lawful, unlawful) = (lawful_sr(rng), unlawful_sr(rng));
            let value = rng.pick(&[lawful, unlawful]);
            ill_formed_hexadecimal(rng, value)
        }
        "schedule" => rng.pick(&schedule).to_string(),
        _ => rng.pick(&decimal).to_string(),
    }
}

/// A value written otherwise than by eight lower-case hexadecimal digits.
fn ill_formed_hexadecimal(rng: &mut Rng, value: u32) -> String {
    let digits = format!("{value:08x}");
    let place = rng.below(8);
    let with = |text: &str| format!("{}{text}{}", &digits[..place], &digits[place + 1..]);
    match rng.below(12) {
        0 => digits[1..].to_string(),
        1 => digits[4..].to_string(),
        2 => format!("0{digits}"),
        3 => digits[..rng.below(8)].to_string(),
        4 => format!("0x{}", &digits[2..]),
        5 => format!("0x{digits}"),
        6 => format!("{}{}", rng.pick(&["+", "-", " "]), &digits[1..]),
        // Bits 15 and 13 are set, so that there is a letter.
        7 => format!("{:08X}", value | 0xa000),
        8 => with(rng.pick(&["A", "F"])),
        9 => with(rng.pick(&["g", " ", "_", ".", "\0"])),
        10 => with(""),
        _ => format!("{digits}{digits}"),
    }
}

/// A good card with a few bytes changed, dropped or added; it may be good.
pub fn damaged_card(rng: &mut Rng) -> Vec<u8> {
    const BYTES: &[u8] = b"0123456789abcdef=\n\r wAcsr\0\xff";
    let mut card = good_card(rng);
    let reach = rng.pick(&[96, card.len()]).min(card.len());
    for _ in 0..rng.between(1, 3) {
        let place = rng.below(reach - 4);
        match rng.below(3) {
            0 => card[place] = rng.pick(BYTES),
            1 => card.insert(place, rng.pick(BYTES)),
            _ => {
                card.remove(place);
            }
        }
    }
    card
}
