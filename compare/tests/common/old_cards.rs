//! The reader of cards as it was before note 7 of document 02, and what the note says of
//! the cards that it read.

use super::expect_counts;
use compare::card::{self, Fault, File, CARD_MOST, IMAGE_BYTES};
use compare::cards;
use compare::rng::Rng;
use compare::runs::{self, Lent};
use compare::vectors::Vectors;
use std::collections::BTreeMap;

/// What the note has put in, as line 4.
pub const PUT_IN: &[u8] = b"sr=00008001\n";

const ILL_FORMED: u8 = 9;
const OUTSIDE: u8 = 10;

struct OldJob {
    cores: usize,
    memory: usize,
    entry: u32,
    schedule: Vec<u8>,
}

struct Lines<'a> {
    rest: &'a [u8],
    line: usize,
}

impl<'a> Lines<'a> {
    fn of(bytes: &'a [u8]) -> Result<Lines<'a>, Fault> {
        let lines = Lines { rest: bytes, line: 0 };
        if bytes.len() > CARD_MOST {
            return Err(lines.fault(ILL_FORMED));
        }
        Ok(lines)
    }

    fn fault(&self, refusal: u8) -> Fault {
        Fault { refusal, line: self.line }
    }

    fn value(&mut self, key: &str) -> Result<&'a [u8], Fault> {
        self.line += 1;
        let end = self.rest.iter().position(|&byte| byte == b'\n');
        let end = end.ok_or(self.fault(ILL_FORMED))?;
        let (line, rest) = self.rest.split_at(end);
        self.rest = &rest[1..];
        let value = line.strip_prefix(key.as_bytes());
        let value = value.and_then(|value| value.strip_prefix(b"="));
        value.ok_or(self.fault(ILL_FORMED))
    }

    fn decimal(&mut self, key: &str, limits: impl Fn(usize) -> bool) -> Result<usize, Fault> {
        let value = read_decimal(self.value(key)?).ok_or(self.fault(ILL_FORMED))?;
        if limits(value) {
            Ok(value)
        } else {
            Err(self.fault(OUTSIDE))
        }
    }

    fn hexadecimal(&mut self, key: &str, limits: impl Fn(u32) -> bool) -> Result<u32, Fault> {
        let value = read_hexadecimal(self.value(key)?).ok_or(self.fault(ILL_FORMED))?;
        if limits(value) {
            Ok(value)
        } else {
            Err(self.fault(OUTSIDE))
        }
    }

    fn schedule(&mut self, cores: usize) -> Result<Vec<u8>, Fault> {
        let digits = self.value("schedule")?;
        let formed = (1..=16).contains(&digits.len()) && digits.iter().all(u8::is_ascii_digit);
        if !formed {
            return Err(self.fault(ILL_FORMED));
        }
        let numbers: Vec<u8> = digits.iter().map(|digit| digit - b'0').collect();
        if numbers.iter().any(|&number| usize::from(number) >= cores) {
            return Err(self.fault(OUTSIDE));
        }
        Ok(numbers)
    }

    fn finish(&mut self) -> Result<(), Fault> {
        self.line += 1;
        if self.rest.is_empty() {
            Ok(())
        } else {
            Err(self.fault(ILL_FORMED))
        }
    }
}

fn read_decimal(digits: &[u8]) -> Option<usize> {
    let formed = (1..=7).contains(&digits.len()) && digits.iter().all(u8::is_ascii_digit);
    let needless_zero = digits.len() > 1 && digits.starts_with(b"0");
    let append = |number: usize, digit: &u8| number * 10 + usize::from(digit - b'0');
    (formed && !needless_zero).then(|| digits.iter().fold(0, append))
}

fn read_hexadecimal(digits: &[u8]) -> Option<u32> {
    if digits.len() != 8 {
        return None;
    }
    let mut number = 0;
    for &digit in digits {
        let value = match digit {
            b'0'..=b'9' => digit - b'0',
            b'a'..=b'f' => digit - b'a' + 10,
            _ => return None,
        };
        number = number << 4 | u32::from(value);
    }
    Some(number)
}

fn parse(card: &[u8], image: &mut [u8]) -> Result<OldJob, Fault> {
    let mut lines = Lines::of(card)?;
    let cores = lines.decimal("cores", |cores| (1..=4).contains(&cores))?;
    let in_memory = |bytes: usize| (4_096..=16_384).contains(&bytes) && bytes.is_multiple_of(4);
    let memory = lines.decimal("memory", in_memory)?;
    let entry = lines.hexadecimal("entry", |entry| entry.is_multiple_of(4))?;
    let steps = lines.decimal("steps", |steps| steps <= 16_384)?;
    let digits = lines.schedule(cores)?;
    let count = lines.decimal("words", |words| words <= memory / 4)?;
    let mut words = Vec::with_capacity(count);
    for _ in 0..count {
        words.push(lines.hexadecimal("w", |_| true)?);
    }
    lines.finish()?;
    for (place, word) in image.chunks_exact_mut(4).zip(&words) {
        place.copy_from_slice(&word.to_be_bytes());
    }
    let schedule = digits.into_iter().cycle().take(steps).collect();
    Ok(OldJob { cores, memory, entry, schedule })
}

fn run(vectors: &Vectors, card: &[u8]) -> Result<String, Fault> {
    let mut image = vec![0; IMAGE_BYTES];
    let job = parse(card, &mut image)?;
    let mut sheets = card::reset_sheets(job.cores, job.entry);
    let answer = runs::fast_run(&mut Lent {
        memory: &mut image[..job.memory],
        sheets: &mut sheets,
        schedule: &job.schedule,
        levels: &vec![0; job.schedule.len()],
        limit: 0,
        vectors: vectors.list(),
        table: &mut vec![0; job.memory / 4],
    });
    Ok(card::listing(answer, &sheets))
}

/// The old card's fault, if it has one.
pub fn fault(card: &[u8]) -> Option<Fault> {
    parse(card, &mut [0; IMAGE_BYTES]).err()
}

/// The whole output of the old runner for a file of vectors and a card.
pub fn output(file: &File, card: &[u8]) -> String {
    let printed = file.vectors().and_then(|vectors| run(&vectors, card));
    printed.unwrap_or_else(|fault| fault.to_string())
}

/// A card without any line sr.
pub fn without_sr(card: &[u8]) -> Vec<u8> {
    let lines = card.split_inclusive(|&byte| byte == b'\n');
    lines.filter(|line| !line.starts_with(b"sr=")).collect::<Vec<_>>().concat()
}

/// An old card with the line put in after its third one. If there is none, its fault is
/// before that, and it stays as it is.
pub fn with_sr(card: &[u8]) -> Vec<u8> {
    let feeds = card.iter().enumerate().filter(|(_, &byte)| byte == b'\n');
    match feeds.map(|(place, _)| place + 1).nth(2) {
        Some(end) => [&card[..end], PUT_IN, &card[end..]].concat(),
        None => card.to_vec(),
    }
}

/// What is due for an old card as it is: "Cards taken until now lack the line and so meet
/// 9 at line 4". A fault of the first three lines, or of the whole, is told as before.
pub fn due_without(file: &File, card: &[u8]) -> String {
    match fault(card) {
        Some(fault) if file.vectors().is_ok() && fault.line < 4 => fault.to_string(),
        _ if file.vectors().is_ok() => "refused=9 line=4\n".to_string(),
        _ => output(file, card),
    }
}

/// What is due for an old card with the line put in: "the printed run equals the earlier
/// one". Of a card that was not taken, lines from the fourth on are one further down, and
/// the whole is 12 bytes longer.
pub fn due_with(file: &File, card: &[u8]) -> String {
    match fault(card) {
        Some(_) if file.vectors().is_err() => output(file, card),
        Some(_) if with_sr(card).len() > CARD_MOST => "refused=9 line=0\n".to_string(),
        Some(Fault { refusal, line }) if line >= 4 => Fault { refusal, line: line + 1 }.to_string(),
        _ => output(file, card),
    }
}

/// A random old card, good, faulty or damaged, now and then of a length at which the line
/// takes it over the limit or not.
pub fn any_card(rng: &mut Rng) -> Vec<u8> {
    let card = match rng.below(4) {
        0 => cards::good_card(rng),
        1 => cards::damaged_card(rng),
        _ => cards::faulty_card(rng).0,
    };
    let mut card = without_sr(&card);
    if rng.one_in(16) {
        card.resize(rng.pick(&[65_524, 65_525, 65_530, 65_536, 65_537]), rng.pick(b"\n0"));
    }
    card
}

/// What is counted of old cards, with the least numbers in 9,000: about half of what they
/// give.
const CLASSES: [(&str, u32); 15] = [
    ("taken", 1_400),
    ("9 at line 1", 200),
    ("9 at line 2", 200),
    ("9 at line 3", 230),
    ("10 at line 1", 40),
    ("10 at line 2", 60),
    ("10 at line 3", 35),
    ("9 at line 4", 460),
    ("10 at line 4", 30),
    ("9 at line 5", 180),
    ("10 at line 5", 35),
    ("9 further down", 1_400),
    ("10 further down", 35),
    ("too long", 110),
    (TOO_LONG_WITH_IT, 280),
];
const TOO_LONG_WITH_IT: &str = "too long with the line alone";

/// How often old cards were of each kind.
#[derive(Default)]
pub struct OldCards(BTreeMap<String, u32>);

impl OldCards {
    pub fn note(&mut self, card: &[u8]) {
        let class = match fault(card) {
            None => "taken".to_string(),
            Some(Fault { line: 0, .. }) => "too long".to_string(),
            Some(Fault { refusal, line: line @ ..6 }) => format!("{refusal} at line {line}"),
            Some(Fault { refusal, .. }) => format!("{refusal} further down"),
        };
        *self.0.entry(class).or_default() += 1;
        if card.len() <= CARD_MOST && with_sr(card).len() > CARD_MOST {
            *self.0.entry(TOO_LONG_WITH_IT.to_string()).or_default() += 1;
        }
    }

    /// Shows the counts. Stops if one is smaller than this part of its least number.
    pub fn expect(&self, what: &str, part: u32) {
        let count = |class: &str| self.0.get(class).copied().unwrap_or(0);
        let all = CLASSES.map(|(class, least)| (class.to_string(), count(class), least / part));
        expect_counts(what, all);
    }
}
