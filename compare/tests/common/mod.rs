//! What tests share: the engines, a small bench for single steps, and what to
//! do with lines to show and with disagreements.
#![allow(dead_code)]

pub mod by_lines;
pub mod fields;
pub mod files;
pub mod interrupts;
pub mod limits;
pub mod linked;
pub mod list;
pub mod old_cards;
pub mod products;
pub mod registration;
pub mod rows;
pub mod short;
pub mod sr_cards;
pub mod sr_lines;
pub mod sums;
pub mod vectors;
pub mod watch;
pub mod wrong_interrupt;
pub mod wrong_linked;
pub mod wrong_lists;
pub mod wrong_reader;
pub mod wrong_refusal;
pub mod wrong_step;
pub mod wrong_vector;

use compare::card::{self, File};
use compare::check::{self, Engine, BY_CACHE, BY_HISTORY};
use compare::exec::{Board, Step};
use compare::isa::{self, Insn, Kind};
use compare::runs;
use compare::state::Core;
use compare::vectors::Vectors;
use std::collections::BTreeMap;
use std::io::Write;
use std::path::{Path, PathBuf};

pub const BYTES: usize = 4_096;

/// The engines that are to agree; with the feature `engine`, the archive too.
pub fn engines() -> Vec<&'static dyn Engine> {
    vec![
        &BY_HISTORY,
        &BY_CACHE,
        #[cfg(feature = "engine")]
        &compare::guard::Guarded(&compare::engine::Archive),
    ]
}

/// A file of vectors and a card print this, by every engine.
pub fn assert_card(file: &File, card: &[u8], expected: &str) {
    assert_eq!(card::output(file, card), expected, "{file:?}, {}", String::from_utf8_lossy(card));
    for engine in engines() {
        check::same_card(&BY_HISTORY, engine, file, card).unwrap();
    }
}

/// One to four cores and 4,096 bytes.
#[derive(Clone, PartialEq, Debug)]
pub struct Bench {
    pub memory: Vec<u8>,
    pub cores: Vec<Core>,
    pub limit: u32,
    pub vectors: Vectors,
}

impl Bench {
    /// Cores just reset at address 100 (hexadecimal).
    pub fn new(cores: usize) -> Bench {
        Bench {
            memory: vec![0; BYTES],
            cores: vec![Core::reset(0x100); cores],
            limit: 0,
            vectors: Vectors::OLD,
        }
    }

    pub fn word(&self, address: usize) -> u32 {
        let bytes = &self.memory[address..address + 4];
        u32::from_be_bytes([bytes[0], bytes[1], bytes[2], bytes[3]])
    }

    pub fn put(&mut self, address: usize, word: u32) {
        self.memory[address..address + 4].copy_from_slice(&word.to_be_bytes());
    }

    /// Puts a word at the core's PC and runs it there.
    pub fn run(&mut self, who: usize, word: u32) -> Step {
        let pc = self.cores[who].pc as usize;
        self.put(pc, word);
        self.step(who)
    }

    pub fn step(&mut self, who: usize) -> Step {
        let (limit, vectors) = (self.limit, self.vectors);
        let board = &mut Board { memory: &mut self.memory, limit, vectors };
        runs::plain_step(board, &mut self.cores, who)
    }

    /// The step under the fast run, and whether it counts as reused.
    pub fn fast_step(&mut self, who: usize, table: &mut [u64]) -> (Step, bool) {
        let (limit, vectors) = (self.limit, self.vectors);
        let board = &mut Board { memory: &mut self.memory, limit, vectors };
        runs::fast_step(board, &mut self.cores, who, table)
    }
}

/// A word from its fields; the test fails if there is none.
pub fn asm(kind: Kind, d: u8, a: u8, b: u8, imm: u32) -> u32 {
    let word = isa::encode(Insn::new(kind, d, a, b, imm).entry());
    assert_ne!(word, isa::NO_WORD, "no word for {kind:?} {d} {a} {b} {imm:x}");
    word as u32
}

/// Runs one instruction of core 0 with r3 = x and r4 = y.
pub fn on_two(word: u32, sr: u32, x: u32, y: u32) -> (Bench, Step) {
    let mut bench = Bench::new(1);
    bench.cores[0].regs[3] = x;
    bench.cores[0].regs[4] = y;
    bench.cores[0].sr = sr;
    let step = bench.run(0, word);
    (bench, step)
}

/// Each two of a list's seven places, the earlier one first.
pub fn two_places() -> impl Iterator<Item = (usize, usize)> {
    (1..7).flat_map(|later| (0..later).map(move |first| (first, later)))
}

/// The compiled programs' generator: Marsaglia's xorshift32.
pub struct Xorshift(pub u32);

impl Xorshift {
    pub fn next(&mut self) -> u32 {
        self.0 ^= self.0 << 13;
        self.0 ^= self.0 >> 17;
        self.0 ^= self.0 << 5;
        self.0
    }
}

/// The files of a folder that have an extension.
pub fn stored(folder: &str, extension: &str) -> Vec<PathBuf> {
    let files = std::fs::read_dir(folder).expect("the folder");
    let paths = files.map(|entry| entry.expect("a file").path());
    paths.filter(|path| path.extension().is_some_and(|found| found == extension)).collect()
}

/// Not by `eprintln`, which a test that passes does not show.
pub fn show(text: &str) {
    let _ = writeln!(std::io::stderr(), "{text}");
}

/// Adds counts to others.
pub fn join<Class: Ord>(counts: &mut BTreeMap<Class, u32>, others: BTreeMap<Class, u32>) {
    for (class, more) in others {
        *counts.entry(class).or_default() += more;
    }
}

/// Shows counts, each as its class, the number and its least number. Stops if one is
/// smaller than that.
pub fn expect_counts(what: &str, all: impl IntoIterator<Item = (String, u32, u32)>) {
    let mut short = vec![];
    for (class, count, least) in all {
        show(&format!("{what}, {class}: {count}"));
        if count < least {
            short.push(format!("{class}: {count} of {least}"));
        }
    }
    assert!(short.is_empty(), "{what}: {short:#?}");
}

/// Where the case of a disagreement is kept.
pub fn file_of(what: &str) -> PathBuf {
    Path::new(env!("CARGO_TARGET_TMPDIR")).join(format!("{}.case", what.replace(' ', "-")))
}

const AGAIN: &str = "run again: cargo run --release --offline --features engine --bin replay";

/// Stops the test; a message with a case is kept whole in a file.
pub fn stop(what: &str, text: &str) -> ! {
    let file = file_of(what);
    let first = text.lines().next().unwrap_or("");
    match std::fs::write(&file, text) {
        Ok(()) => panic!("{what}: {first}\n{AGAIN} < {}", file.display()),
        Err(_) => panic!("{what}: {text}"),
    }
}
