//! The run card: reading one, and the whole output of running it.

use crate::runs::{self, Answer, Lent};
use crate::state::{place, sr_is_good, Core, SHEET_WORDS};
use crate::vectors::Vectors;
use std::fmt::Write;

/// Bytes of the lent image.
pub const IMAGE_BYTES: usize = 16_384;
/// Most bytes of a card.
pub const CARD_MOST: usize = 65_536;

/// A good card, read; its words are in the image.
#[derive(Clone, Debug, PartialEq, Eq)]
pub struct Job {
    pub cores: usize,
    pub memory: usize,
    pub entry: u32,
    pub sr: u32,
    /// The card's digits repeated up to its steps.
    pub schedule: Vec<u8>,
}

impl Job {
    /// The sheets that its run begins with. 02, note 7: the line sr "sets SR of every
    /// core"; the rest, ESR too, is as at reset.
    pub fn sheets(&self) -> Vec<u32> {
        let mut sheets = reset_sheets(self.cores, self.entry);
        for sheet in sheets.chunks_mut(SHEET_WORDS) {
            sheet[place::SR] = self.sr;
        }
        sheets
    }
}

/// The refusal's number and the line it names.
#[derive(Clone, Copy, Debug, PartialEq, Eq)]
pub struct Fault {
    pub refusal: u8,
    pub line: usize,
}

/// Refusals of one line, before its number is known.
const ILL_FORMED: u8 = 9;
const OUTSIDE: u8 = 10;

/// The lines of a card, or of another file under its rules, in turn, counted from 1.
pub(crate) struct Lines<'a> {
    rest: &'a [u8],
    line: usize,
}

impl<'a> Lines<'a> {
    /// "over 65,536 bytes (line 0)"
    pub(crate) fn of(bytes: &'a [u8]) -> Result<Lines<'a>, Fault> {
        let lines = Lines { rest: bytes, line: 0 };
        if bytes.len() > CARD_MOST {
            return Err(lines.fault(ILL_FORMED));
        }
        Ok(lines)
    }

    fn fault(&self, refusal: u8) -> Fault {
        Fault { refusal, line: self.line }
    }

    /// The value of the next line, which must have this key. A line that is
    /// missing, has another key or no line feed is ill-formed.
    fn value(&mut self, key: &str) -> Result<&'a [u8], Fault> {
        self.line += 1;
        let end = self.rest.iter().position(|&byte| byte == b'\n');
        let end = end.ok_or(self.fault(ILL_FORMED))?;
        let (line, rest) = self.rest.split_at(end);
        self.rest = &rest[1..];
        let value = line.strip_prefix(key.as_bytes());
        let value = value.and_then(|value| value.strip_prefix(b"="));
        value.ok_or(self.fault(ILL_FORMED))
    }

    /// A decimal number that `limits` holds of.
    fn decimal(&mut self, key: &str, limits: impl Fn(usize) -> bool) -> Result<usize, Fault> {
        let value = read_decimal(self.value(key)?).ok_or(self.fault(ILL_FORMED))?;
        if limits(value) {
            Ok(value)
        } else {
            Err(self.fault(OUTSIDE))
        }
    }

    /// A hexadecimal number that `limits` holds of.
    pub(crate) fn hexadecimal(
        &mut self,
        key: &str,
        limits: impl Fn(u32) -> bool,
    ) -> Result<u32, Fault> {
        let value = read_hexadecimal(self.value(key)?).ok_or(self.fault(ILL_FORMED))?;
        if limits(value) {
            Ok(value)
        } else {
            Err(self.fault(OUTSIDE))
        }
    }

    /// "A schedule digit that names no core is a value fault; no digit, more
    /// than 16 or any other character is a form fault."
    fn schedule(&mut self, cores: usize) -> Result<Vec<u8>, Fault> {
        let digits = self.value("schedule")?;
        let formed = (1..=16).contains(&digits.len()) && digits.iter().all(u8::is_ascii_digit);
        if !formed {
            return Err(self.fault(ILL_FORMED));
        }
        let numbers: Vec<u8> = digits.iter().map(|digit| digit - b'0').collect();
        if numbers.iter().any(|&number| usize::from(number) >= cores) {
            return Err(self.fault(OUTSIDE));
        }
        Ok(numbers)
    }

    /// A line left over is a form fault at the number after the last.
    pub(crate) fn finish(&mut self) -> Result<(), Fault> {
        self.line += 1;
        if self.rest.is_empty() {
            Ok(())
        } else {
            Err(self.fault(ILL_FORMED))
        }
    }
}

/// "at most seven decimal digits and no needless zero"
fn read_decimal(digits: &[u8]) -> Option<usize> {
    let formed = (1..=7).contains(&digits.len()) && digits.iter().all(u8::is_ascii_digit);
    let needless_zero = digits.len() > 1 && digits.starts_with(b"0");
    let append = |number: usize, digit: &u8| number * 10 + usize::from(digit - b'0');
    (formed && !needless_zero).then(|| digits.iter().fold(0, append))
}

/// "eight lower-case hexadecimal digits"
fn read_hexadecimal(digits: &[u8]) -> Option<u32> {
    if digits.len() != 8 {
        return None;
    }
    let mut number = 0;
    for &digit in digits {
        let value = match digit {
            b'0'..=b'9' => digit - b'0',
            b'a'..=b'f' => digit - b'a' + 10,
            _ => return None,
        };
        number = number << 4 | u32::from(value);
    }
    Some(number)
}

/// What the lines before the w lines say.
struct Header {
    cores: usize,
    memory: usize,
    entry: u32,
    sr: u32,
    steps: usize,
    digits: Vec<u8>,
    words: usize,
}

impl Header {
    /// One row for each line, in their order; sr is 02's, by note 7.
    fn read(lines: &mut Lines) -> Result<Header, Fault> {
        let in_memory = |bytes: usize| (4_096..=16_384).contains(&bytes) && bytes.is_multiple_of(4);
        let cores = lines.decimal("cores", |cores| (1..=4).contains(&cores))?;
        let memory = lines.decimal("memory", in_memory)?;
        let entry = lines.hexadecimal("entry", |entry| entry.is_multiple_of(4))?;
        let sr = lines.hexadecimal("sr", sr_is_good)?;
        let steps = lines.decimal("steps", |steps| steps <= 16_384)?;
        let digits = lines.schedule(cores)?;
        let words = lines.decimal("words", |words| words <= memory / 4)?;
        Ok(Header { cores, memory, entry, sr, steps, digits, words })
    }
}

/// Reads a card. Only a good card zeroes the first memory bytes of the image
/// and fills them with its words.
pub fn parse(card: &[u8], image: &mut [u8]) -> Result<Job, Fault> {
    if image.len() != IMAGE_BYTES {
        return Err(Fault { refusal: 1, line: 0 });
    }
    let mut lines = Lines::of(card)?;
    let Header { cores, memory, entry, sr, steps, digits, words } = Header::read(&mut lines)?;
    let words = (0..words).map(|_| lines.hexadecimal("w", |_| true));
    let words = words.collect::<Result<Vec<u32>, Fault>>()?;
    lines.finish()?;
    fill(&mut image[..memory], &words);
    let schedule = digits.into_iter().cycle().take(steps).collect();
    Ok(Job { cores, memory, entry, sr, schedule })
}

fn fill(memory: &mut [u8], words: &[u32]) {
    memory.fill(0);
    for (place, word) in memory.chunks_exact_mut(4).zip(words) {
        place.copy_from_slice(&word.to_be_bytes());
    }
}

/// The sheets of cores just reset, all at one entry.
pub fn reset_sheets(cores: usize, entry: u32) -> Vec<u32> {
    let mut sheets = vec![0; cores * SHEET_WORDS];
    for sheet in sheets.chunks_mut(SHEET_WORDS) {
        Core::reset(entry).to_sheet(sheet);
    }
    sheets
}

/// A fast run, of this engine or another: the packed answer comes out.
pub type FastRun<'a> = &'a mut dyn FnMut(&mut Lent) -> u64;

/// What is found under the name of the file of vectors.
#[derive(Clone, Debug, PartialEq, Eq)]
pub enum File {
    Absent,
    /// It is there but cannot be read.
    Unreadable,
    Bytes(Vec<u8>),
}

impl File {
    /// The list that a run is made with.
    pub fn vectors(&self) -> Result<Vectors, Fault> {
        match self {
            File::Absent => Ok(Vectors::OLD),
            File::Unreadable => Err(Fault { refusal: ILL_FORMED, line: 0 }),
            File::Bytes(file) => Vectors::of_file(file),
        }
    }
}

/// The whole output of the runner for a file of vectors and a card, by this engine's
/// fast run.
pub fn output(file: &File, card: &[u8]) -> String {
    output_with(file, card, &mut |lent| runs::fast_run(lent).pack())
}

/// The same by a given fast run.
pub fn output_with(file: &File, card: &[u8], fast_run: FastRun) -> String {
    let printed = file.vectors().and_then(|vectors| run(&vectors, card, fast_run));
    printed.unwrap_or_else(|fault| fault.to_string())
}

/// "faults are 9 and 10 and print alike", the file's and the card's.
impl std::fmt::Display for Fault {
    fn fmt(&self, text: &mut std::fmt::Formatter) -> std::fmt::Result {
        writeln!(text, "refused={} line={}", self.refusal, self.line)
    }
}

/// The output for a card under a list of vectors. 02, notes 4 and 5: "the card runner
/// gives all lines low" and "uses 0" as its limit.
fn run(vectors: &Vectors, card: &[u8], fast_run: FastRun) -> Result<String, Fault> {
    let mut image = vec![0; IMAGE_BYTES];
    let job = parse(card, &mut image)?;
    let mut sheets = job.sheets();
    let packed = fast_run(&mut Lent {
        memory: &mut image[..job.memory],
        sheets: &mut sheets,
        schedule: &job.schedule,
        levels: &vec![0; job.schedule.len()],
        limit: 0,
        vectors: vectors.list(),
        table: &mut vec![0; job.memory / 4],
    });
    Ok(listing(Answer::unpack(packed), &sheets))
}

/// Counts, then each core's line and its registers, then `end`.
pub fn listing(answer: Answer, sheets: &[u32]) -> String {
    let mut text = format!(
        "executed={}\nraised={}\nreused={}\n",
        answer.executed, answer.raised, answer.reused
    );
    for (number, sheet) in sheets.chunks(SHEET_WORDS).enumerate() {
        // Writing to a string cannot fail.
        let _ = writeln!(
            text,
            "core={number} mode={} pc={:08x} delay={} sr={:08x}",
            sheet[place::MODE],
            sheet[place::PC],
            sheet[place::DELAY],
            sheet[place::SR]
        );
        for (register, &value) in sheet[..32].iter().enumerate() {
            if value != 0 {
                let _ = writeln!(text, "r{register}={value:08x}");
            }
        }
    }
    text.push_str("end\n");
    text
}
