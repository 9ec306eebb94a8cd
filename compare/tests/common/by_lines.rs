//! A second reader of cards, by lines of text.

/// The keys in the paper's order; note 7 of document 02 puts sr after entry.
const KEYS: [&str; 7] = ["cores", "memory", "entry", "sr", "steps", "schedule", "words"];

/// The lines' values, a schedule's being 0, or the refusal and line.
pub fn read(card: &[u8]) -> Result<Vec<u64>, (u8, usize)> {
    if card.len() > 65_536 {
        return Err((9, 0));
    }
    let mut pieces: Vec<&[u8]> = card.split(|&byte| byte == b'\n').collect();
    let unended = pieces.pop().unwrap_or(b"");
    let mut values: Vec<u64> = Vec::new();
    for number in 1.. {
        let words = values.get(KEYS.len() - 1).copied().unwrap_or(1) as usize;
        let last = KEYS.len() + words;
        if number > last {
            let over = pieces.len() > last || !unended.is_empty();
            return if over { Err((9, number)) } else { Ok(values) };
        }
        let key = KEYS.get(number - 1).copied().unwrap_or("w");
        let piece = pieces.get(number - 1).ok_or((9, number))?;
        let text = digits(key, piece).ok_or((9, number))?;
        let value = value(key, text).ok_or((9, number))?;
        if !in_limits(key, value, text, &values) {
            return Err((10, number));
        }
        values.push(value);
    }
    unreachable!()
}

/// What stands after the key and its sign.
fn digits<'a>(key: &str, line: &'a [u8]) -> Option<&'a str> {
    std::str::from_utf8(line).ok()?.strip_prefix(key)?.strip_prefix('=')
}

/// The value of well-formed digits.
fn value(key: &str, text: &str) -> Option<u64> {
    match key {
        "entry" | "sr" | "w" => {
            let value = u64::from_str_radix(text, 16).ok()?;
            (format!("{value:08x}") == text && text.len() == 8).then_some(value)
        }
        "schedule" => {
            let digits = text.chars().all(|digit| digit.is_ascii_digit());
            (digits && !text.is_empty() && text.len() <= 16).then_some(0)
        }
        _ => {
            let value: u64 = text.parse().ok()?;
            (value.to_string() == text && text.len() <= 7).then_some(value)
        }
    }
}

fn in_limits(key: &str, value: u64, text: &str, values: &[u64]) -> bool {
    match key {
        "cores" => (1..=4).contains(&value),
        "memory" => (4_096..=16_384).contains(&value) && value.is_multiple_of(4),
        "entry" => value.is_multiple_of(4),
        "sr" => sr_may_be(value),
        "steps" => value <= 16_384,
        "schedule" => text.bytes().all(|digit| u64::from(digit - b'0') < values[0]),
        "words" => value <= values[1] / 4,
        _ => true,
    }
}

/// "bits SM 0, TEE 1, IEE 2, F 9, CY 10, OV 11, OVE 12, DSX 13; bit 15 is 1, all others
/// 0": the others are 3 to 8, 14 and 16 to 31.
pub fn sr_may_be(value: u64) -> bool {
    value >> 14 == 2 && value >> 3 & 0x3f == 0
}
