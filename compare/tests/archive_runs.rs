//! The engine under test against this one, on whole runs: every answer and
//! every lent byte by both runs, and nothing beside what is lent.
//!
//! Seeds are fixed. A case that fails is kept in a file for `replay`.
#![cfg(feature = "engine")]

mod common;

use common::watch::Counts;
use common::wrong_lists::WrongLists;
use common::{file_of, show, stop};
use compare::battery::Pair;
use compare::cases::{self, Case};
use compare::check::{self, Codec, Engine, BY_HISTORY};
use compare::dump;
use compare::engine::Archive;
use compare::guard::Guarded;
use compare::isa;
use compare::limits;
use compare::lists;
use compare::rng::Rng;
use compare::runs::{self, MEMORY_LEAST, MEMORY_MOST, SCHEDULE_MOST};
use compare::state::{place, Core, IEE, SHEET_WORDS};
use compare::vectors::OLD;
use std::collections::BTreeMap;
use std::ops::Range;
use std::sync::atomic::{AtomicU64, Ordering};
use std::sync::Mutex;
use std::thread;

const THREADS: usize = 2;
/// Progress is shown this many times for each range of seeds.
const SHOWN: u64 = 8;
const PAIR: Pair = Pair { one: &BY_HISTORY, other: &Guarded(&Archive) };

type Verdict = Result<(), String>;

/// Asks about every seed, in two threads.
fn for_seeds(what: &str, seeds: Range<u64>, ask: impl Fn(u64) -> Verdict + Sync) {
    show(&format!("{what}: seeds {} to {}", seeds.start, seeds.end - 1));
    let (all, next) = (seeds.end - seeds.start, AtomicU64::new(seeds.start));
    let done = AtomicU64::new(0);
    let work = || -> Verdict {
        loop {
            let seed = next.fetch_add(1, Ordering::Relaxed);
            if seed >= seeds.end {
                return Ok(());
            }
            if let Err(text) = ask(seed) {
                next.store(seeds.end, Ordering::Relaxed);
                return Err(text);
            }
            let count = done.fetch_add(1, Ordering::Relaxed) + 1;
            if count * SHOWN / all != (count - 1) * SHOWN / all {
                show(&format!("{what}: {count} of {all} cases compared"));
            }
        }
    };
    let verdicts: Vec<Verdict> = thread::scope(|scope| {
        let workers: Vec<_> = (0..THREADS).map(|_| scope.spawn(work)).collect();
        workers.into_iter().map(|worker| worker.join().expect("no stray write")).collect()
    });
    for verdict in verdicts {
        if let Err(text) = verdict {
            stop(what, &text);
        }
    }
}

/// What these tests do with a disagreement: the case can be run again.
#[test]
fn a_disagreement_is_kept() {
    let case = cases::accepted_case(&mut Rng::new(1), 10);
    let text = format!("seed 1: not the same\n{}", dump::write_case(&case));
    let ask = |seed: u64| if seed == 3 { Err(text.clone()) } else { Ok(()) };
    let stopped = std::panic::catch_unwind(|| for_seeds("kept", 0..5, ask)).expect_err("stopped");
    let message = stopped.downcast_ref::<String>().expect("a message");
    assert!(message.contains("seed 1: not the same") && message.contains("--bin replay"));
    let kept = std::fs::read_to_string(file_of("kept")).expect("a file");
    assert_eq!(dump::read_case(&kept), Some(case));
}

fn one(seed: u64) -> Range<u64> {
    seed..seed + 1
}

/// 225,000 of them and more have no linked cores.
#[test]
fn accepted_cases() {
    // What no thread is at: each counts for itself.
    let idle: Mutex<Vec<Counts>> = Mutex::default();
    for_seeds("accepted cases", 1_000_000..1_345_000, |seed| {
        let case = cases::accepted_case(&mut Rng::new(seed), 600);
        let mut counts = idle.lock().expect("no panic").pop().unwrap_or_default();
        counts.watch(&case);
        idle.lock().expect("no panic").push(counts);
        PAIR.case(&case, 0).map_err(|text| format!("seed {seed}: {text}"))
    });
    let counts = idle.into_inner().expect("no panic").into_iter().reduce(Counts::joined);
    counts.expect("some cases").expect("accepted cases", 50_000, 50_000, 12);
}

/// Many short schedules: the edges of the cases themselves.
#[test]
fn short_schedules() {
    for_seeds("short schedules", 2_000_000..2_030_000, |seed| PAIR.accepted_cases(one(seed), 8));
}

/// What a run left goes into the next one, which accepts it and has its own limit and
/// vectors.
#[test]
fn runs_on_what_the_last_left() {
    for_seeds("runs in a row", 3_000_000..3_004_000, |seed| {
        let mut rng = Rng::new(seed);
        let mut case = cases::accepted_case(&mut rng, 200);
        for _ in 0..4 {
            PAIR.case(&case, 0).map_err(|text| format!("seed {seed}: {text}"))?;
            case = check::after_fast(PAIR.other, &case).case;
            case.throw_schedule(&mut rng, 200);
            case.limit = limits::good(&mut rng.aside(), &case);
            lists::throw(&mut rng.far_aside(), &mut case);
        }
        Ok(())
    });
}

/// What would be due beside a wrong limit, or 0; nothing, if the limit is good.
fn beside_the_limit(case: &Case) -> Option<u8> {
    let wrong = !runs::limit_is_good(&case.memory, case.limit);
    wrong.then(|| Case { limit: 0, ..case.clone() }.refusal())
}

#[test]
fn broken_cases() {
    let met: Mutex<BTreeMap<u8, u32>> = Mutex::default();
    let beside: Mutex<BTreeMap<u8, u32>> = Mutex::default();
    let lists: Mutex<WrongLists> = Mutex::default();
    for_seeds("broken cases", 4_000_000..4_040_000, |seed| {
        let (case, refusal) = cases::broken_case(&mut Rng::new(seed));
        *met.lock().expect("no panic").entry(refusal).or_default() += 1;
        if let Some(other) = beside_the_limit(&case) {
            *beside.lock().expect("no panic").entry(other).or_default() += 1;
        }
        lists.lock().expect("no panic").note(&case);
        PAIR.case(&case, refusal).map_err(|text| format!("seed {seed}: {text}"))
    });
    lists.into_inner().expect("no panic").expect("broken cases", 15);
    let met = met.into_inner().expect("no panic");
    let beside = beside.into_inner().expect("no panic");
    show(&format!("broken cases, how many of each beside a wrong limit: {beside:?}"));
    // Every other refusal, and none.
    assert!(beside.len() == cases::ORDER.len() && beside.values().all(|&count| count > 400));
    show(&format!("broken cases, how many of each refusal: {met:?}"));
    assert!(cases::ORDER
        .iter()
        .all(|refusal| met.get(refusal).is_some_and(|&count| count > 1_000)));
}

#[test]
fn schedules_of_the_greatest_length() {
    for_seeds("long schedules", 5_000_000..5_000_400, |seed| PAIR.long_schedules(one(seed)));
}

/// The largest memory, with the table empty, filled in part and filled whole.
#[test]
fn the_largest_memory() {
    for_seeds("largest memory", 6_000_000..6_000_120, |seed| {
        let mut case = cases::large_case(&mut Rng::new(seed));
        for index in 0..case.table.len() {
            match seed % 3 {
                0 => case.table[index] = 0,
                1 => case.table[index] = isa::decode(case.word(index)),
                _ => {}
            }
        }
        PAIR.case(&case, 0).map_err(|text| format!("seed {seed}: {text}"))
    });
}

/// Memory from the least to the most, with a core at its very end.
#[test]
fn memory_lengths() {
    let lengths = [MEMORY_LEAST, MEMORY_LEAST + 4, 16_384, 65_536, MEMORY_MOST - 4, MEMORY_MOST];
    for_seeds("memory lengths", 7_000_000..7_000_240, |seed| {
        let mut rng = Rng::new(seed);
        let mut case = cases::accepted_case(&mut rng, 300);
        let bytes = lengths[(seed % 6) as usize];
        case.memory.resize(bytes, 0);
        case.table = vec![0; bytes / 4];
        case.sheets[place::PC] = (bytes - 4 * rng.between(1, 12)) as u32;
        case.limit = limits::good(&mut rng.aside(), &case);
        lists::throw(&mut rng.far_aside(), &mut case);
        PAIR.case(&case, 0).map_err(|text| format!("seed {seed}: {text}"))
    });
}

/// "An empty schedule changes nothing."
#[test]
fn empty_schedules() {
    for_seeds("empty schedules", 8_000_000..8_003_000, |seed| {
        let case = cases::accepted_case(&mut Rng::new(seed), 0);
        PAIR.case(&case, 0)?;
        let both = check::after_both(PAIR.other, &case);
        let unchanged = both.plain.case == case && both.fast.case == case;
        assert!(unchanged && both.plain.answer.pack() == 0 && both.fast.answer.pack() == 0);
        Ok(())
    });
}

/// A core whose schedule only raises, one that only reuses: counts at 65,536.
#[test]
fn the_greatest_counts() {
    for word in [0xffff_ffff, 0x2100_0000, 0x1500_0000, 0x0000_0000] {
        let mut case = Case {
            memory: u32::to_be_bytes(word).repeat(MEMORY_LEAST / 4),
            sheets: compare::card::reset_sheets(1, 0x100),
            schedule: vec![0; SCHEDULE_MOST],
            levels: vec![0; SCHEDULE_MOST],
            limit: 0,
            vectors: OLD.to_vec(),
            table: vec![isa::decode(word); MEMORY_LEAST / 4],
        };
        if let Err(text) = PAIR.case(&case, 0) {
            stop("greatest counts", &text);
        }
        case.table.fill(0);
        if let Err(text) = PAIR.case(&case, 0) {
            stop("greatest counts", &text);
        }
    }
}

/// An interrupt at every second entry, and l.rfe between them.
#[test]
fn the_most_interrupts() {
    let mut case = Case {
        memory: u32::to_be_bytes(0x2400_0000).repeat(MEMORY_LEAST / 4),
        sheets: compare::card::reset_sheets(1, 0x100),
        schedule: vec![0; SCHEDULE_MOST],
        levels: vec![u32::MAX; SCHEDULE_MOST],
        limit: 0,
        vectors: OLD.to_vec(),
        table: vec![0; MEMORY_LEAST / 4],
    };
    case.sheets[place::SR] |= IEE;
    if let Err(text) = PAIR.case(&case, 0) {
        stop("most interrupts", &text);
    }
    assert_eq!(check::after_fast(PAIR.other, &case).answer.raised, 32_768);
}

/// Zeros of these lengths, but for good sheets, at a limit.
fn lengths(memory: usize, sheets: &[u32], [entries, levels]: [usize; 2], limit: u32, table: usize) {
    let case = Case {
        memory: vec![0; memory],
        sheets: sheets.to_vec(),
        schedule: vec![0; entries],
        levels: vec![0; levels],
        limit,
        vectors: OLD.to_vec(),
        table: vec![0; table],
    };
    if let Err(text) = check::same_case(PAIR.one, PAIR.other, &case) {
        stop("any lengths", &text);
    }
}

/// So many words: as many whole sheets as they are, all good.
fn good_sheets(words: usize) -> Vec<u32> {
    let mut sheets = vec![0; words];
    for sheet in sheets.chunks_exact_mut(SHEET_WORDS) {
        Core::reset(0).to_sheet(sheet);
    }
    sheets
}

/// Nothing lent at all, and lengths that are each wrong, alone and together.
#[test]
fn any_lengths() {
    let memories = [0, 1, 3, 4, 4_092, 4_096, 4_097, 1_048_576, 1_048_580];
    let sheets = [0, 1, 42, 43, 44, 45, 46, 47, 88, 92, 168, 176, 184, 185, 230, 4_600];
    let schedules = [0, 1, 65_536, 65_537];
    let tables = [0, 1, 1_023, 1_024, 1_025, 262_144];
    for memory in memories {
        for sheet_words in sheets {
            for entries in schedules {
                for table in tables {
                    lengths(memory, &vec![0; sheet_words], [entries, entries], 0, table);
                    let good = good_sheets(sheet_words);
                    lengths(memory, &good, [entries, entries], 0, table);
                    lengths(memory, &good, [entries, 1], 0, table);
                }
            }
        }
    }
}

/// Limits at the edges of each memory's length, with every other length right or not.
#[test]
fn any_limits() {
    for memory in [0, 3, 4_092, 4_096, 4_097, 16_384, 1_048_576] {
        let (bytes, good) = (memory as u32, good_sheets(2 * SHEET_WORDS));
        let near = [0, 1, 2, 3, 4, bytes.wrapping_sub(4), bytes.wrapping_sub(1), bytes];
        let past = [bytes + 1, bytes + 2, bytes + 4, 4 * bytes, 1 << 31, !3, u32::MAX];
        for limit in [near.as_slice(), &past].concat() {
            for (entries, levels) in [(0, 0), (7, 7), (7, 6), (65_537, 7)] {
                for table in [memory / 4, 1] {
                    lengths(memory, &good, [entries, levels], limit, table);
                }
            }
            lengths(memory, &good[1..], [1, 1], limit, memory / 4);
        }
    }
}

/// Lists at the edges of each rule, with every other length right or not.
#[test]
fn any_lists() {
    let good = good_sheets(2 * SHEET_WORDS);
    let mut lists: Vec<Vec<u32>> = (0..=16).map(|length| (1..=length).collect()).collect();
    lists.extend((0..=16).map(|length| (1..=length).map(|number| 4 * number).collect()));
    for place in 0..7 {
        for address in [0, 1, 2, 3, 0x10, 0xf_fffc, 0xf_ffff, 0x10_0000, 1 << 31, !3, u32::MAX] {
            let mut list = vec![0x10, 0x14, 0x18, 0x1c, 0x20, 0x24, 0x28];
            list[place] = address;
            lists.push(list);
        }
    }
    for list in &lists {
        for (memory, entries, limit) in [(4_096, 7, 0), (4_096, 0, 0), (4_096, 7, 2), (0, 7, 0)] {
            for (sheets, table) in [(&good[..], memory / 4), (&good[..], 1), (&good[1..], 1)] {
                let case = Case {
                    memory: vec![0; memory],
                    sheets: sheets.to_vec(),
                    schedule: vec![1; entries],
                    levels: vec![0; entries],
                    limit,
                    vectors: list.clone(),
                    table: vec![0; table],
                };
                if let Err(text) = check::same_case(PAIR.one, PAIR.other, &case) {
                    stop("any lists", &text);
                }
            }
        }
    }
}

/// Bus errors whose vector is outside memory: nothing is ever fetched again.
#[test]
fn the_most_bus_errors() {
    let mut case = Case {
        memory: vec![0; MEMORY_LEAST],
        sheets: compare::card::reset_sheets(1, MEMORY_LEAST as u32),
        schedule: vec![0; SCHEDULE_MOST],
        levels: vec![0; SCHEDULE_MOST],
        limit: 0,
        vectors: OLD.to_vec(),
        table: vec![0; MEMORY_LEAST / 4],
    };
    for vector in [MEMORY_LEAST as u32, 0xf_fffc] {
        case.vectors[0] = vector;
        if let Err(text) = PAIR.case(&case, 0) {
            stop("most bus errors", &text);
        }
        let left = check::after_fast(PAIR.other, &case);
        assert_eq!((left.answer.raised, left.answer.reused), (65_536, 0));
        assert_eq!(left.case.sheets[place::PC], vector);
    }
}

/// A core that only stores where it may not: every entry raises, at both runs' most.
#[test]
fn the_most_refused_stores() {
    // l.sw 0(r0),r0 everywhere, also at the vector.
    let mut case = Case {
        memory: u32::to_be_bytes(0xd400_0000).repeat(MEMORY_LEAST / 4),
        sheets: compare::card::reset_sheets(1, 0x100),
        schedule: vec![0; SCHEDULE_MOST],
        levels: vec![0; SCHEDULE_MOST],
        limit: 4,
        vectors: OLD.to_vec(),
        table: vec![0; MEMORY_LEAST / 4],
    };
    for limit in [4, MEMORY_LEAST as u32] {
        case.limit = limit;
        if let Err(text) = PAIR.case(&case, 0) {
            stop("most refused stores", &text);
        }
        let answer = check::after_fast(PAIR.other, &case).answer;
        assert_eq!((answer.raised, answer.reused), (65_536, 65_534));
    }
}

/// Four cores that only store, each near where all of them run, up to memory's end and
/// from the vector on again: l.sw 0(r3),r4, where r4 is that word or another.
#[test]
fn the_most_linked_stores() {
    for seed in 0..12 {
        let mut rng = Rng::new(10_000_000 + seed);
        let mut case = Case {
            memory: u32::to_be_bytes(0xd403_2000).repeat(MEMORY_LEAST / 4),
            sheets: compare::card::reset_sheets(4, 0x100),
            schedule: vec![0; SCHEDULE_MOST],
            levels: vec![0; SCHEDULE_MOST],
            limit: 0,
            vectors: OLD.to_vec(),
            table: vec![0; MEMORY_LEAST / 4],
        };
        for sheet in case.sheets.chunks_mut(SHEET_WORDS) {
            sheet[3] = 4 * rng.between(0x40, 0x90) as u32;
            // l.addi r3,r3,-64 leads them elsewhere.
            sheet[4] = rng.pick(&[0xd403_2000, 0x1500_0000, 0x9c63_ffc0]);
        }
        for core in 1..4 {
            case.sheets[core * SHEET_WORDS + place::MODE] = 1;
        }
        if let Err(text) = PAIR.case(&case, 0) {
            stop("most linked stores", &text);
        }
    }
}

/// Buffers that share nothing with the ones before: the archive keeps nothing.
#[test]
fn the_archive_keeps_nothing() {
    let cases: Vec<Case> =
        (0..200).map(|seed| cases::accepted_case(&mut Rng::new(9_000_000 + seed), 200)).collect();
    let first: Vec<_> = cases.iter().map(|case| check::after_fast(&Archive, case)).collect();
    let again: Vec<_> = cases.iter().rev().map(|case| check::after_fast(&Archive, case)).collect();
    assert!(
        first.iter().eq(again.iter().rev()),
        "{} is not a function of what is lent",
        Archive.name()
    );
    let engine: &dyn Engine = &Archive;
    assert_eq!(engine.plain_run(&mut Case::default().lent()), 1 << 60);
}
