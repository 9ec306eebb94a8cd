//! Cases as text that can be read back and run again (`replay`).

use crate::cases::Case;
use crate::vectors::OLD;
use std::fmt::{Display, Write};

/// Bytes written on one line.
const CHUNK: usize = 32;
/// What a number of items and lines of them follow.
const SECTIONS: [&str; 6] = ["memory", "sheets", "schedule", "levels", "vectors", "table"];

/// A case as text; what is 0 is left out.
pub fn write_case(case: &Case) -> String {
    let mut text = String::new();
    write_bytes(&mut text, "memory", &case.memory);
    write_items(&mut text, "sheets", &case.sheets);
    write_bytes(&mut text, "schedule", &case.schedule);
    write_items(&mut text, "levels", &case.levels);
    text.push_str(&format!("limit {}\n", case.limit));
    write_items(&mut text, "vectors", &case.vectors);
    write_items(&mut text, "table", &case.table);
    text.push_str("case-end\n");
    text
}

// Writing to a string cannot fail, so the results below are dropped.

fn write_bytes(text: &mut String, name: &str, bytes: &[u8]) {
    let _ = writeln!(text, "{name} {}", bytes.len());
    for (index, chunk) in bytes.chunks(CHUNK).enumerate() {
        if chunk.iter().any(|&byte| byte != 0) {
            let _ = write!(text, "{:x} ", index * CHUNK);
            for byte in chunk {
                let _ = write!(text, "{byte:02x}");
            }
            text.push('\n');
        }
    }
}

fn write_items<T: Display + Into<u64> + Copy>(text: &mut String, name: &str, items: &[T]) {
    let _ = writeln!(text, "{name} {}", items.len());
    for (index, &item) in items.iter().enumerate() {
        let value: u64 = item.into();
        if value != 0 {
            let _ = writeln!(text, "{index:x} {value:x}");
        }
    }
}

/// The case in a text; lines before its first are skipped, so that a test's
/// whole message can be read. A case without vectors has the old list. Nothing, if
/// there is none or it is damaged.
pub fn read_case(text: &str) -> Option<Case> {
    let mut lines = text.lines().map(str::trim).skip_while(|line| !line.starts_with("memory "));
    let mut case = Case { vectors: OLD.to_vec(), ..Case::default() };
    let mut section = String::new();
    loop {
        let line = lines.next()?;
        if line == "case-end" {
            return Some(case);
        }
        let (first, second) = line.split_once(' ')?;
        if first == "limit" {
            case.limit = second.parse().ok()?;
        } else if SECTIONS.contains(&first) {
            section = first.to_string();
            resize(&mut case, first, second.parse().ok()?);
        } else {
            let index = usize::from_str_radix(first, 16).ok()?;
            put(&mut case, &section, index, second)?;
        }
    }
}

fn resize(case: &mut Case, section: &str, length: usize) {
    match section {
        "memory" => case.memory.resize(length, 0),
        "sheets" => case.sheets.resize(length, 0),
        "schedule" => case.schedule.resize(length, 0),
        "levels" => case.levels.resize(length, 0),
        "vectors" => case.vectors = vec![0; length],
        _ => case.table.resize(length, 0),
    }
}

fn put(case: &mut Case, section: &str, index: usize, text: &str) -> Option<()> {
    match section {
        "memory" => put_bytes(&mut case.memory, index, text),
        "schedule" => put_bytes(&mut case.schedule, index, text),
        "sheets" => put_word(&mut case.sheets, index, text),
        "levels" => put_word(&mut case.levels, index, text),
        "vectors" => put_word(&mut case.vectors, index, text),
        _ => {
            *case.table.get_mut(index)? = u64::from_str_radix(text, 16).ok()?;
            Some(())
        }
    }
}

fn put_word(words: &mut [u32], index: usize, text: &str) -> Option<()> {
    *words.get_mut(index)? = u32::from_str_radix(text, 16).ok()?;
    Some(())
}

fn put_bytes(bytes: &mut [u8], index: usize, text: &str) -> Option<()> {
    for place in 0..text.len() / 2 {
        let digits = text.get(2 * place..2 * place + 2)?;
        *bytes.get_mut(index + place)? = u8::from_str_radix(digits, 16).ok()?;
    }
    Some(())
}
