//! Speed of the archive's two runs and of this engine's, on the same programs
//! and schedules.
//!
//! The engines take turns, so that other work on the machine hits all alike,
//! and the best time of each is given. What counts are the ratios of one line.
//! Prints one Markdown table for docs/PERFORMANCE.md; progress goes to standard
//! error.

use compare::card::reset_sheets;
use compare::cases::Case;
use compare::check::{self, Engine, BY_CACHE};
use compare::engine::Archive;
use compare::image::{self, Image};
use compare::isa::{self, Insn, Kind};
use compare::runs::{Lent, SCHEDULE_MOST};
use compare::state::{place, SHEET_WORDS};
use compare::vectors::OLD;
use std::hint::black_box;
use std::time::{Duration, Instant};

const COMMAND: &str = "cargo run --release --offline --features engine --bin bench";
/// In each turn every engine runs every program once.
const TURNS: usize = 40;
const SIZES: [usize; 3] = [16, 64, 1_024];
const CORES: [usize; 2] = [1, 4];
/// Entries from one interrupt to the next, in the line that has any.
const INTERRUPT_ONCE_IN: usize = 100;

/// What one line times: calls that start on a case and go on with what the last
/// left, with the cache empty at first or as full as it can be.
struct Work {
    name: String,
    cores: usize,
    empty: Case,
    full_cache: Vec<u64>,
    calls: Vec<Call>,
    unit: Unit,
}

/// A schedule and the levels beside it.
struct Call {
    schedule: Vec<u8>,
    levels: Vec<u32>,
}

/// What the times are divided by.
enum Unit {
    /// Instructions, or entries of halted cores.
    Entries(usize),
    MemoryWords(usize),
}

fn word(kind: Kind, d: u8, a: u8, b: u8, imm: i32) -> u32 {
    let word = isa::encode(Insn::new(kind, d, a, b, imm as u32).entry());
    assert_ne!(word, isa::NO_WORD, "{kind:?}");
    word as u32
}

/// Adds 1 to each word between r1 and r2 and sums them up: two adds, a load, a
/// store, a compare, a branch and its slot. r3 is where r1 starts.
fn small_loop() -> Vec<u32> {
    vec![
        word(Kind::Lwz, 5, 1, 0, 0),
        word(Kind::Add, 6, 6, 5, 0),
        word(Kind::Addi, 5, 5, 0, 1),
        word(Kind::Sw, 0, 1, 5, 0),
        word(Kind::Addi, 1, 1, 0, 4),
        word(Kind::Sfltu, 0, 1, 2, 0),
        word(Kind::Bf, 0, 0, 0, -24),
        word(Kind::Xor, 7, 6, 5, 0),
        word(Kind::Or, 1, 3, 0, 0),
        word(Kind::J, 0, 0, 0, -36),
        word(Kind::Nop, 0, 0, 0, 0),
    ]
}

/// The same work without its branch, over and over up to half of memory, and
/// a jump back: as many words as there can be in the cache.
fn long_loop(bytes: usize) -> Vec<u32> {
    let mut words = Vec::new();
    while words.len() + 16 < bytes / 8 {
        words.extend_from_slice(&small_loop()[..4]);
        words.push(word(Kind::Sfltu, 0, 1, 2, 0));
        // An untaken or taken branch to what follows.
        words.push(word(Kind::Bf, 0, 0, 0, 8));
        words.push(word(Kind::Xor, 7, 6, 5, 0));
    }
    jump_back(&mut words, word(Kind::Nop, 0, 0, 0, 0));
    words
}

/// A jump to the first word, and its slot.
fn jump_back(words: &mut Vec<u32>, slot: u32) {
    // l.j keeps 26 bits: far enough for every memory.
    let back = -4 * words.len() as i32;
    words.push(word(Kind::J, 0, 0, 0, back));
    words.push(slot);
}

/// Cores on one program, each with its own part of memory's upper half.
fn case(words: &[u32], bytes: usize, cores: usize) -> Case {
    let mut case = Case {
        memory: vec![0; bytes],
        sheets: reset_sheets(cores, 0),
        schedule: vec![],
        levels: vec![],
        limit: 0,
        vectors: OLD.to_vec(),
        table: vec![0; bytes / 4],
    };
    for (index, &word) in words.iter().enumerate() {
        case.set_word(index, word);
    }
    let part = bytes / 8 / cores * 4;
    for (core, sheet) in case.sheets.chunks_mut(SHEET_WORDS).enumerate() {
        let first = (bytes / 2 + core * part) as u32;
        (sheet[1], sheet[2], sheet[3]) = (first, first + part as u32, first);
    }
    case
}

/// So many entries, the cores in turn, with line 0 high once in `rare` entries or,
/// with 0, all lines low.
fn turns(cores: usize, entries: usize, rare: usize) -> Call {
    let high = |entry: usize| rare != 0 && entry % rare == rare - 1;
    Call {
        schedule: (0..entries).map(|entry| (entry % cores) as u8).collect(),
        levels: (0..entries).map(|entry| u32::from(high(entry))).collect(),
    }
}

/// One call by this engine and by the archive, which must agree; the count of
/// instructions and what is left.
fn agreed(case: &Case, call: &Call) -> (usize, Case) {
    let (schedule, levels) = (call.schedule.clone(), call.levels.clone());
    let case = Case { schedule, levels, ..case.clone() };
    let left = check::after_fast(&BY_CACHE, &case);
    assert_eq!(check::after_fast(&Archive, &case), left);
    assert_eq!(check::after_plain(&Archive, &case), check::after_plain(&BY_CACHE, &case));
    (left.answer.executed as usize, left.case)
}

/// One call of the greatest length on a program that never halts. Stores do not
/// touch code, so that the cache it leaves fits the memory before it too.
fn endless(name: &str, words: &[u32], kib: usize, cores: usize) -> Work {
    let empty = case(words, kib * 1_024, cores);
    let call = turns(cores, SCHEDULE_MOST, 0);
    let (executed, left) = agreed(&empty, &call);
    assert_eq!(executed, SCHEDULE_MOST, "{name}");
    Work {
        name: name.to_string(),
        cores,
        empty,
        full_cache: left.table,
        calls: vec![call],
        unit: Unit::Entries(executed),
    }
}

/// The small loop by core 0 and by cores linked to it, each in its own part of
/// memory; an entry is one fetch, which all of them execute.
fn linked(followers: usize) -> Work {
    let cores = followers + 1;
    let mut empty = case(&small_loop(), 16_384, cores);
    for sheet in empty.sheets.chunks_mut(SHEET_WORDS).skip(1) {
        sheet[place::MODE] = 1;
    }
    let call = turns(1, SCHEDULE_MOST, 0);
    let (executed, left) = agreed(&empty, &call);
    assert_eq!(executed, SCHEDULE_MOST);
    Work {
        name: format!("small loop, {followers} linked"),
        cores,
        empty,
        full_cache: left.table,
        calls: vec![call],
        unit: Unit::Entries(executed),
    }
}

fn is_running(case: &Case) -> bool {
    case.sheets.chunks(SHEET_WORDS).any(|sheet| sheet[place::MODE] != 0)
}

/// The shortest call in turns after which every core has halted, which the
/// longest one does.
fn up_to_the_end(case: &Case, rare: usize) -> Call {
    let (mut low, mut high) = (0, SCHEDULE_MOST);
    while low < high {
        let middle = (low + high) / 2;
        if is_running(&agreed(case, &turns(case.cores(), middle, rare)).1) {
            low = middle + 1;
        } else {
            high = middle;
        }
    }
    turns(case.cores(), high, rare)
}

/// A compiled program from its start to its end, by as many calls as it takes.
fn compiled(name: &str, cores: usize) -> Work {
    let empty = Image::load(&image::folder(), name).case(image::BYTES, cores);
    to_the_end(format!("{name}.c"), empty, 0)
}

/// The same with an interrupt once in `rare` entries, which a handler of two
/// instructions serves.
fn interrupted(name: &str, rare: usize) -> Work {
    let image = Image::load(&image::folder(), name).with_handler(OLD[6]);
    to_the_end(format!("{name}.c, interrupted"), image.interruptible(image::BYTES, 1), rare)
}

fn to_the_end(name: String, empty: Case, rare: usize) -> Work {
    let cores = empty.cores();
    let (mut now, mut calls, mut instructions) = (empty.clone(), vec![], 0);
    while is_running(&now) {
        let mut call = turns(cores, SCHEDULE_MOST, rare);
        if !is_running(&agreed(&now, &call).1) {
            call = up_to_the_end(&now, rare);
        }
        let (executed, left) = agreed(&now, &call);
        (now, instructions) = (left, instructions + executed);
        calls.push(call);
    }
    Work { name, cores, empty, full_cache: now.table, calls, unit: Unit::Entries(instructions) }
}

/// One instruction over and over in 16 KiB, one core, with a jump at the end.
fn single(name: &str, word_of_kind: u32) -> Work {
    let mut words = vec![word_of_kind; 2_000];
    jump_back(&mut words, word_of_kind);
    endless(name, &words, 16, 1)
}

/// The entries of a core that does not run.
fn halted() -> Work {
    let mut empty = case(&small_loop(), 16_384, 1);
    empty.sheets[place::MODE] = 0;
    Work {
        name: "halted core".to_string(),
        cores: 1,
        full_cache: all_decoded(&empty),
        empty,
        calls: vec![turns(1, SCHEDULE_MOST, 0)],
        unit: Unit::Entries(SCHEDULE_MOST),
    }
}

fn all_decoded(case: &Case) -> Vec<u64> {
    (0..case.table.len()).map(|index| isa::decode(case.word(index))).collect()
}

/// What a call does before its first instruction: an empty schedule.
fn checks(kib: usize, cores: usize) -> Work {
    let empty = case(&long_loop(kib * 1_024), kib * 1_024, cores);
    Work {
        name: "checks alone".to_string(),
        cores,
        full_cache: all_decoded(&empty),
        unit: Unit::MemoryWords(empty.table.len()),
        empty,
        calls: vec![turns(cores, 0, 0)],
    }
}

fn all_work() -> Vec<Work> {
    let mut work = Vec::new();
    for kib in SIZES {
        for cores in CORES {
            work.push(endless("small loop", &small_loop(), kib, cores));
            work.push(endless("long loop", &long_loop(kib * 1_024), kib, cores));
        }
    }
    work.extend(["sieve", "crc32", "sort"].map(|name| compiled(name, 1)));
    work.extend(CORES.map(|cores| compiled("cores", cores)));
    work.push(interrupted("sieve", INTERRUPT_ONCE_IN));
    work.extend((1..4).map(linked));
    work.extend([
        single("l.nop only", word(Kind::Nop, 0, 0, 0, 0)),
        single("l.addi only", word(Kind::Addi, 5, 5, 0, 1)),
        single("l.add only", word(Kind::Add, 6, 6, 5, 0)),
        single("l.sfltui only", word(Kind::Sfltui, 0, 6, 0, 9)),
        single("l.sfltu only", word(Kind::Sfltu, 0, 6, 5, 0)),
        single("l.lwz only", word(Kind::Lwz, 5, 1, 0, 0)),
        single("l.sw only", word(Kind::Sw, 0, 1, 5, 0)),
        single("p.cflush only", word(Kind::Cflush, 0, 1, 0, 0)),
        single("l.mul only", word(Kind::Mul, 5, 1, 2, 0)),
        single("l.div only", word(Kind::Div, 5, 2, 1, 0)),
        single("l.mac only", word(Kind::Mac, 0, 1, 2, 0)),
        halted(),
    ]);
    for kib in SIZES {
        work.extend(CORES.map(|cores| checks(kib, cores)));
    }
    work
}

/// One run of an engine, the fast one with its cache empty or full.
#[derive(Clone, Copy)]
enum Run {
    Plain,
    Fast { full: bool },
}

/// The columns that are timed. This engine is the same design in Rust: an
/// interpreter on structs, its fast run with the same decode cache.
const RUNS: [(&dyn Engine, Run); 6] = [
    (&Archive, Run::Plain),
    (&Archive, Run::Fast { full: false }),
    (&Archive, Run::Fast { full: true }),
    (&BY_CACHE, Run::Plain),
    (&BY_CACHE, Run::Fast { full: false }),
    (&BY_CACHE, Run::Fast { full: true }),
];

/// The time of all calls on a copy of the case; making the copy is not in it.
fn time(work: &Work, engine: &dyn Engine, run: Run) -> Duration {
    let mut case = work.empty.clone();
    if let Run::Fast { full: true } = run {
        case.table.copy_from_slice(&work.full_cache);
    }
    let start = Instant::now();
    for Call { schedule, levels } in &work.calls {
        let lent = &mut Lent { schedule, levels, ..case.lent() };
        let answer = match run {
            Run::Plain => engine.plain_run(lent),
            Run::Fast { .. } => engine.fast_run(lent),
        };
        assert_eq!(answer >> 60, 0, "refused");
    }
    let time = start.elapsed();
    black_box(&case);
    time
}

/// One turn: every column of a line once, each best time kept.
fn turn(work: &Work, best: &mut [Duration; 6]) {
    for (best, (engine, run)) in best.iter_mut().zip(RUNS) {
        *best = (*best).min(time(work, engine, run));
    }
}

/// The best times of every line. A turn goes through all lines, so that those
/// of one line are spread over the whole time.
fn best_times(all: &[Work]) -> Vec<[Duration; 6]> {
    let mut best = vec![[Duration::MAX; 6]; all.len()];
    for number in 1..=TURNS {
        eprintln!("bench: turn {number} of {TURNS}");
        for (work, best) in all.iter().zip(&mut best) {
            turn(work, best);
        }
    }
    best
}

/// The line's ratios: more than 1 is in favour of the first.
fn ratios(times: &[f64; 6]) -> [f64; 4] {
    let [plain, empty, full, rust_plain, rust_empty, rust_full] = *times;
    [plain / full, rust_plain / plain, rust_empty / empty, rust_full / full]
}

const HEADING: &str = "\
| program | memory | cores | unit | plain | fast, empty cache | fast, full cache \
| Rust plain | Rust fast, empty | Rust fast, full \
| fast / plain | plain / Rust | fast / Rust, empty | fast / Rust, full |
|---|---|---|---|---|---|---|---|---|---|---|---|---|---|";

fn print_line(work: &Work, times: &[f64; 6]) {
    let (unit, numbers) = match work.unit {
        Unit::Entries(count) => {
            ("M/s", times.map(|time| format!("{:.0}", count as f64 * 1e3 / time)))
        }
        Unit::MemoryWords(count) => {
            ("ns/word", times.map(|time| format!("{:.3}", time / count as f64)))
        }
    };
    let mut ratios = ratios(times).map(|ratio| format!("{ratio:.2}"));
    if let Unit::MemoryWords(_) = work.unit {
        // The plain run has no cache to check.
        ratios[0] = "–".to_string();
    }
    let kib = work.empty.memory.len() / 1_024;
    let (numbers, ratios) = (numbers.join(" | "), ratios.join(" | "));
    println!("| {} | {kib} KiB | {} | {unit} | {numbers} | {ratios} |", work.name, work.cores);
}

fn main() {
    eprintln!("bench: making the programs; the engines must agree on each");
    let all = all_work();
    let best = best_times(&all);
    println!("`{COMMAND}` in `compare`. M/s: millions of entries a second, calls and their checks included;");
    println!("ns/word: nanoseconds for each word of memory. Best of {TURNS} turns. Ratios are of speeds.\n");
    println!("{HEADING}");
    for (work, best) in all.iter().zip(best) {
        print_line(work, &best.map(|time| time.as_nanos() as f64));
    }
}
