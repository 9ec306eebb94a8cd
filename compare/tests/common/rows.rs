//! Texts, each with what is due for it by the paper and not by a reader.

use compare::card::Fault;
use compare::cards;

/// A card or a file and its fault, or none if it is good.
pub struct Row {
    pub what: String,
    pub text: Vec<u8>,
    pub due: Option<Fault>,
}

impl Row {
    /// Its refusal and line, or twice 0.
    pub fn numbers(&self) -> (u8, usize) {
        self.due.map_or((0, 0), |fault| (fault.refusal, fault.line))
    }
}

/// The rows as they are made.
#[derive(Default)]
pub struct Rows(pub Vec<Row>);

impl Rows {
    pub fn add(&mut self, what: &str, text: Vec<u8>, refusal: u8, line: usize) {
        let due = (refusal != 0).then_some(Fault { refusal, line });
        self.0.push(Row { what: what.to_string(), text, due });
    }

    pub fn lines(&mut self, what: &str, lines: &[String], refusal: u8, line: usize) {
        self.add(what, cards::join(lines), refusal, line);
    }
}

/// Of all rows what is asked of a program, which takes longer: a third of the ill-formed
/// lines and half of the cuts.
pub fn for_a_program(mut rows: Vec<Row>) -> Vec<Row> {
    let mut number = 0;
    rows.retain(|row| match row.what.as_str() {
        // Other ones on each line, so that there are all of them.
        "ill-formed line" => {
            number += 1;
            (number + row.numbers().1) % 3 == 0
        }
        "cut" => row.text.len() % 2 == 0,
        _ => true,
    });
    rows
}

/// Ill-formed lines in place of one with a key and eight digits; `next` is the key after
/// it.
pub fn ill_formed(key: &str, next: &str, value: &str) -> Vec<String> {
    let mut lines = vec![
        String::new(),
        format!("{}={value}", key.to_uppercase()),
        format!("{key}s={value}"),
        format!("{}={value}", &key[1..]),
        format!("{}={value}", &key[..key.len() - 1]),
        format!("{next}={value}"),
        format!("={value}"),
        value.to_string(),
        key.to_string(),
        format!("{key}="),
        format!("{key}{value}"),
        format!("{key}:{value}"),
        format!("{key}=={value}"),
        format!(" {key}={value}"),
        format!("{key} ={value}"),
        format!("{key}= {value}"),
        format!("{key}={value} "),
        format!("\t{key}={value}"),
        format!("{key}={value}\r"),
        format!("\r{key}={value}"),
        format!("{key}={value}\0"),
        format!("{key}={value};"),
        format!("{key}={value}={value}"),
        format!("{key}={value}{next}={value}"),
    ];
    lines.extend(ill_formed_digits(value).iter().map(|digits| format!("{key}={digits}")));
    lines
}

/// Eight digits written otherwise.
fn ill_formed_digits(value: &str) -> Vec<String> {
    let mut all = vec![
        "0".to_string(),
        value[5..].to_string(),
        value[4..].to_string(),
        value[1..].to_string(),
        value[..7].to_string(),
        format!("0{value}"),
        format!("{value}0"),
        format!("0x{}", &value[2..]),
        format!("0X{}", &value[2..]),
        format!("0x{value}"),
        format!("{value}h"),
        format!("+{}", &value[1..]),
        format!("-{}", &value[1..]),
        format!("+{value}"),
        format!("{} {}", &value[..4], &value[5..]),
        format!("{}g", &value[..7]),
        format!("{}_{}", &value[..4], &value[5..]),
        format!("{}.0", &value[..6]),
        format!("{value}."),
        format!("{value}{value}"),
        "٠٠٠٠".to_string(),
        "zzzzzzzz".to_string(),
    ];
    // Each digit alone in upper case.
    for digit in 0..8 {
        all.push(format!("{}C{}", &value[..digit], &value[digit + 1..]));
    }
    all
}
