//! How often cards meet what note 7 of document 02 tells apart.

use super::sr_cards::{fixed_bits, BITS};
use super::{by_lines, expect_counts};
use std::collections::BTreeMap;

/// The line's number.
const SR: usize = 4;

const UNENDED: &str = "9, without its line feed";
const UNLAWFUL_AND_UNENDED: &str = "9, without its line feed, of a value that 10 is due for";

/// What is counted, with the least numbers in 12,000 cards whose line sr is faulty: about
/// half of what they give.
const FAULTS: [(&str, u32); 25] = [
    ("10, several bits wrong", 120),
    ("10, a later fault too", 470),
    ("9, no line after the third", 300),
    (UNENDED, 350),
    (UNLAWFUL_AND_UNENDED, 160),
    ("9, another key's line", 330),
    ("9, a blank line", 390),
    ("9, another key", 180),
    ("9, no = after the key", 80),
    ("9, no digit", 85),
    ("9, fewer digits", 130),
    ("9, more digits", 80),
    ("9, upper-case digits", 65),
    ("9, a sign", 20),
    ("9, 0x", 95),
    ("9, a blank", 200),
    ("9, a carriage return", 90),
    ("9, no digit of any case", 120),
    ("9, of a value that 10 is due for", 150),
    ("9, a later fault too", 400),
    ("9 at a line before it, the line being there", 180),
    ("9 at the line, which is further down", 140),
    ("9 at the line after it, the line being twice", 310),
    ("9 at a line before it, both being faulty", 820),
    ("10 at a line before it, both being faulty", 870),
];

/// Least number of each bit that is wrong alone, and of bit 15.
const ONE_BIT: u32 = 20;

/// One line of a card, whether it is ended, or none.
fn line(card: &[u8], number: usize) -> Option<(&[u8], bool)> {
    let line = card.split_inclusive(|&byte| byte == b'\n').nth(number - 1)?;
    Some(line.strip_suffix(b"\n").map_or((line, false), |line| (line, true)))
}

fn is_sr(card: &[u8], number: usize) -> bool {
    line(card, number).is_some_and(|(line, _)| line.starts_with(b"sr="))
}

/// What is wrong with the form of the line.
fn form(card: &[u8]) -> &'static str {
    let Some((line, ended)) = line(card, SR) else {
        return "9, no line after the third";
    };
    let text = String::from_utf8_lossy(line);
    let key = text.split('=').next().unwrap_or("");
    match text.strip_prefix("sr=") {
        _ if !ended => UNENDED,
        _ if text.is_empty() => "9, a blank line",
        Some(digits) => form_of_digits(digits),
        None if (5..12).any(|number| is_sr(card, number)) => "9 at the line, which is further down",
        None if ["cores", "memory", "entry", "steps", "schedule", "words", "w"].contains(&key) => {
            "9, another key's line"
        }
        None if !text.contains('=') => "9, no = after the key",
        None if text.contains(' ') => "9, a blank",
        None => "9, another key",
    }
}

fn form_of_digits(digits: &str) -> &'static str {
    let lower = digits.to_lowercase();
    match digits.len() {
        0 => "9, no digit",
        _ if digits.starts_with("0x") => "9, 0x",
        _ if digits.starts_with(['+', '-']) => "9, a sign",
        _ if digits.contains(' ') => "9, a blank",
        _ if digits.contains('\r') => "9, a carriage return",
        _ if !digits.chars().all(|digit| digit.is_ascii_hexdigit()) => "9, no digit of any case",
        0..8 => "9, fewer digits",
        8 if lower != digits => "9, upper-case digits",
        _ => "9, more digits",
    }
}

/// What is wrong with a value.
fn bits(value: u32) -> String {
    let wrong: Vec<u32> =
        fixed_bits().into_iter().filter(|&bit| value >> bit & 1 != u32::from(bit == 15)).collect();
    match wrong[..] {
        [bit] => format!("10, bit {bit} alone"),
        _ => "10, several bits wrong".to_string(),
    }
}

/// The value of digits of any form and case.
fn value(card: &[u8]) -> Option<u32> {
    let (line, _) = line(card, SR)?;
    let text = String::from_utf8_lossy(line).to_lowercase();
    u32::from_str_radix(text.trim().strip_prefix("sr=")?, 16).ok()
}

/// Whether the line is there, ended, well-formed and lawful.
fn is_good(card: &[u8]) -> bool {
    let formed = |value: u32| line(card, SR) == Some((format!("sr={value:08x}").as_bytes(), true));
    value(card).is_some_and(|value| formed(value) && by_lines::sr_may_be(value.into()))
}

/// Whether a card is bad with a good line sr in place of its own too.
fn has_later_fault(card: &[u8]) -> bool {
    let mut lines: Vec<&[u8]> = card.split_inclusive(|&byte| byte == b'\n').collect();
    match lines.get_mut(SR - 1) {
        Some(line) => *line = b"sr=00008001\n",
        None => return false,
    }
    by_lines::read(&lines.concat()).is_err()
}

#[derive(Default)]
pub struct SrLines(BTreeMap<String, u32>);

impl SrLines {
    fn count(&mut self, class: impl Into<String>) {
        *self.0.entry(class.into()).or_default() += 1;
    }

    /// Counts a card whose refusal and line are known.
    pub fn note(&mut self, card: &[u8], (refusal, at): (u8, usize)) {
        match (refusal, at) {
            (10, SR) => {
                self.count(bits(value(card).unwrap_or(0)));
                if has_later_fault(card) {
                    self.count("10, a later fault too");
                }
            }
            (9, SR) => self.note_form(card),
            (9, 5) if is_sr(card, SR) && is_sr(card, 5) => {
                self.count("9 at the line after it, the line being twice");
            }
            (9, 1..SR) if is_sr(card, at) => {
                self.count("9 at a line before it, the line being there");
            }
            (_, 1..SR) if !is_good(card) => {
                self.count(format!("{refusal} at a line before it, both being faulty"));
            }
            _ => {}
        }
    }

    fn note_form(&mut self, card: &[u8]) {
        let form = form(card);
        self.count(form);
        let unlawful = value(card).is_some_and(|value| !by_lines::sr_may_be(value.into()));
        match form {
            UNENDED if unlawful => self.count(UNLAWFUL_AND_UNENDED),
            _ if unlawful => self.count("9, of a value that 10 is due for"),
            _ => {}
        }
        // Where the line is in its place, so that those after it are too.
        if is_sr(card, SR) && form != UNENDED && has_later_fault(card) {
            self.count("9, a later fault too");
        }
    }

    /// Counts the bits of a good card's SR, set or not, and its cores.
    pub fn note_good(&mut self, sr: u32, cores: usize) {
        for (bit, name) in BITS {
            self.count(format!("good, {name} {}", sr >> bit & 1));
        }
        let start = if sr == 0x8001 { "as at reset" } else { "otherwise" };
        self.count(format!("good, {cores} cores, SR {start}"));
        self.count(format!("value {sr:08x}"));
    }

    /// Shows the counts of faults. Stops if one is smaller than this part of its least
    /// number.
    pub fn expect_faults(&self, what: &str, part: u32) {
        let bits = fixed_bits().into_iter().map(|bit| (format!("10, bit {bit} alone"), ONE_BIT));
        let all = FAULTS.iter().map(|(class, least)| (class.to_string(), *least)).chain(bits);
        self.expect(what, all.map(|(class, least)| (class, least / part)));
    }

    /// The same of good cards, all 256 values being among them.
    pub fn expect_good(&self, what: &str, least: u32) {
        let bits = BITS.iter().flat_map(|(_, name)| [0, 1].map(|on| format!("good, {name} {on}")));
        let cores = (1..=4).flat_map(|cores| {
            ["as at reset", "otherwise"].map(|sr| format!("good, {cores} cores, SR {sr}"))
        });
        self.expect(what, bits.chain(cores).map(|class| (class, least)));
        let values = self.0.keys().filter(|class| class.starts_with("value ")).count();
        assert_eq!(values, 256, "{what}: not every value");
    }

    fn expect(&self, what: &str, all: impl Iterator<Item = (String, u32)>) {
        let count = |class: &String| self.0.get(class).copied().unwrap_or(0);
        expect_counts(what, all.map(|(class, least)| (class.clone(), count(&class), least)));
    }
}
