//! Runners that read a file of vectors or a card wrongly.

use super::rows::Row;
use compare::battery::{self, Runner};
use compare::card::File;

pub struct WrongReader {
    pub name: &'static str,
    pub output: fn(&File, &[u8]) -> String,
}

/// As a constant, so that a list of them reads like a table.
pub const fn reading(name: &'static str, output: fn(&File, &[u8]) -> String) -> WrongReader {
    WrongReader { name, output }
}

/// A file and a card.
pub type Question = (File, Vec<u8>);

/// Rows of files, all with one card.
pub fn of_files(rows: Vec<Row>, card: &[u8]) -> Vec<Question> {
    rows.into_iter().map(|row| (File::Bytes(row.text), card.to_vec())).collect()
}

/// Rows of cards, without a file.
pub fn of_cards(rows: Vec<Row>) -> Vec<Question> {
    rows.into_iter().map(|row| (File::Absent, row.text)).collect()
}

/// These, which are short, and then the battery's random files and cards.
pub fn ask(runner: Runner, questions: &[Question]) -> Result<(), String> {
    questions.iter().try_for_each(|(file, card)| battery::same_print(runner, file, card))?;
    battery::printed_cards(0..600, runner)
}

/// A text with its lines changed, each given with its place.
pub fn relined(text: &[u8], change: impl Fn(usize, &str) -> String) -> Vec<u8> {
    let Ok(text) = std::str::from_utf8(text) else {
        return text.to_vec();
    };
    let lines = text.split('\n').enumerate().map(|(place, line)| change(place, line));
    lines.collect::<Vec<String>>().join("\n").into_bytes()
}

/// The number that eight lower-case digits are.
pub fn hexadecimal(digits: &str) -> Option<u32> {
    let number = u32::from_str_radix(digits, 16).ok()?;
    (format!("{number:08x}") == digits).then_some(number)
}

/// The same digits of another number.
pub fn by_number(digits: &str, change: impl Fn(u32) -> u32) -> String {
    hexadecimal(digits).map_or(digits.to_string(), |number| format!("{:08x}", change(number)))
}
