//! Random cases: the fast run in both wordings against each other and against
//! the plain run, and what the generators reach.

mod common;

use common::watch::Counts;
use common::wrong_lists::WrongLists;
use compare::battery::Pair;
use compare::cases::{self, Case};
use compare::check::{self, Codec, BY_CACHE, BY_HISTORY};
use compare::dump;
use compare::exec::{self, Board, Cause};
use compare::isa::{self, Kind};
use compare::rng::Rng;
use compare::runs;
use compare::state::{Core, F, SHEET_WORDS};
use compare::vectors::Vectors;
use std::collections::BTreeSet;
use std::ops::Range;

const PAIR: Pair = Pair { one: &BY_HISTORY, other: &BY_CACHE };

/// Stops a test with the seed and a case that `replay` runs again.
fn expect(verdict: Result<(), String>) {
    if let Err(text) = verdict {
        panic!("{text}");
    }
}

/// 20,000 of them and more have no linked cores.
#[test]
fn accepted_cases() {
    let mut counts = Counts::default();
    for seed in 0..31_000 {
        let case = cases::accepted_case(&mut Rng::new(seed), 400);
        counts.watch(&case);
        expect(PAIR.case(&case, 0).map_err(|text| format!("seed {seed}: {text}")));
    }
    counts.expect("accepted cases", 5_000, 2_500, 1);
}

#[test]
fn long_schedules() {
    expect(PAIR.long_schedules(100_000..100_040));
}

#[test]
fn the_largest_memory() {
    expect(PAIR.large_cases(110_000..110_004));
}

#[test]
fn broken_cases() {
    let mut seen = BTreeSet::new();
    let mut lists = WrongLists::default();
    for seed in 200_000..204_000 {
        let (case, refusal) = cases::broken_case(&mut Rng::new(seed));
        lists.note(&case);
        seen.insert(refusal);
        expect(PAIR.case(&case, refusal).map_err(|text| format!("seed {seed}: {text}")));
    }
    assert_eq!(seen, BTreeSet::from(cases::ORDER));
    lists.expect("broken cases", 1);
}

/// "Demand 3 is one claim about the whole schedule": a run in two parts, each
/// on what the last left, is the run of the whole.
#[test]
fn runs_in_two_parts() {
    for seed in 300_000..301_500 {
        let mut rng = Rng::new(seed);
        let case = cases::accepted_case(&mut rng, 300);
        let cut = rng.between(0, case.schedule.len());
        let whole = check::after_fast(&BY_CACHE, &case);
        let part = |of: Range<usize>, left: &Case| Case {
            schedule: case.schedule[of.clone()].to_vec(),
            levels: case.levels[of].to_vec(),
            ..left.clone()
        };
        let all = case.schedule.len();
        let first = check::after_fast(&BY_HISTORY, &part(0..cut, &case));
        let second = check::after_fast(&BY_CACHE, &part(cut..all, &first.case));
        let joined = part(0..all, &second.case);
        assert_eq!(joined, whole.case, "seed {seed}\n{}", dump::write_case(&case));
        let sum = |count: fn(&runs::Answer) -> u32| count(&first.answer) + count(&second.answer);
        assert_eq!(sum(|answer| answer.executed), whole.answer.executed, "seed {seed}");
        assert_eq!(sum(|answer| answer.raised), whole.answer.raised, "seed {seed}");
        assert_eq!(sum(|answer| answer.reused), whole.answer.reused, "seed {seed}");
    }
}

#[test]
fn an_empty_schedule_changes_nothing() {
    for seed in 400_000..400_300 {
        let mut rng = Rng::new(seed);
        let case = cases::accepted_case(&mut rng, 0);
        for engine in [&BY_CACHE, &BY_HISTORY] {
            let left = check::after_fast(engine, &case);
            assert_eq!(left.case, case, "{} seed {seed}", engine.name());
            assert_eq!(left.answer.pack(), 0);
        }
    }
}

/// What random cases reached, so that a generator gone dull is noticed.
#[derive(Default)]
struct Reached {
    kinds: BTreeSet<Kind>,
    raised: BTreeSet<(Cause, bool)>,
    /// l.swa that stored, l.swa that did not.
    linked_stores: [u32; 2],
    /// Stores into the running word, into a filled entry, of an equal value.
    own_word: u32,
    filled_word: u32,
    equal_value: u32,
    /// Links cleared by another core's store.
    lost_links: u32,
    halts: u32,
    reused: u32,
    untaken: u32,
}

fn watch(case: &Case, reached: &mut Reached) {
    let vectors = Vectors::of_list(&case.vectors).expect("a good list");
    let board = &mut Board { memory: &mut case.memory.clone(), limit: case.limit, vectors };
    let mut table = case.table.clone();
    let mut cores: Vec<Core> = case.sheets.chunks(SHEET_WORDS).map(Core::from_sheet).collect();
    for (&entry, &lines) in case.schedule.iter().zip(&case.levels) {
        let who = usize::from(entry);
        let slot = cores[who].delay;
        if !cores[who].is_running() {
            continue;
        }
        match exec::interrupt(&mut cores[who], &vectors, lines) {
            Some(step) => reached.raised.extend(step.raised.map(|cause| (cause, slot))),
            None => watch_step(board, &mut table, &mut cores, who, reached),
        }
    }
}

fn watch_step(
    board: &mut Board,
    table: &mut [u64],
    cores: &mut [Core],
    who: usize,
    reached: &mut Reached,
) {
    let before = cores.to_vec();
    let core = &before[who];
    let kind = exec::fetch(board.memory, core.pc).map(|word| isa::decode_insn(word).kind);
    let store = matches!(kind, Some(Kind::Sw | Kind::Sb | Kind::Sh | Kind::Swa));
    let (held, old) =
        if store { (table.to_vec(), board.memory.to_vec()) } else { (vec![], vec![]) };
    let (step, reused) = runs::fast_step(board, cores, who, table);
    reached.kinds.extend(kind);
    reached.raised.extend(step.raised.map(|cause| (cause, core.delay)));
    reached.reused += u32::from(reused);
    reached.halts += u32::from(!cores[who].is_running());
    if kind == Some(Kind::Swa) && step.raised.is_none() {
        reached.linked_stores[usize::from(step.stored.is_none())] += 1;
    }
    let untaken = (kind == Some(Kind::Bf)) != core.has(F);
    let branch = matches!(kind, Some(Kind::Bf | Kind::Bnf)) && step.raised.is_none();
    reached.untaken += u32::from(branch && untaken);
    if let Some(word) = step.stored {
        reached.own_word += u32::from(word == core.pc);
        reached.filled_word += u32::from(held[word as usize / 4] != 0);
        reached.equal_value += u32::from(old == board.memory);
        let lost = |(now, then): (&Core, &Core)| then.link && !now.link;
        let others = cores.iter().zip(&before).enumerate().filter(|(index, _)| *index != who);
        reached.lost_links += others.filter(|(_, pair)| lost(*pair)).count() as u32;
    }
}

#[test]
fn the_generators_reach_everything() {
    let mut reached = Reached::default();
    for seed in 500_000..501_200 {
        let mut rng = Rng::new(seed);
        let case = cases::accepted_case(&mut rng, 300);
        watch(&case, &mut reached);
    }
    let missing: Vec<_> = isa::TABLE
        .iter()
        .map(|row| row.kind)
        .filter(|kind| !reached.kinds.contains(kind))
        .collect();
    assert!(missing.is_empty(), "kinds never run: {missing:?}");
    use Cause::*;
    for cause in [Bus, Alignment, Illegal, Range, Trap] {
        for slot in [false, true] {
            assert!(reached.raised.contains(&(cause, slot)), "{cause:?}, slot {slot}");
        }
    }
    for cause in [Syscall, Interrupt] {
        assert!(reached.raised.contains(&(cause, false)), "{cause:?}");
        assert!(!reached.raised.contains(&(cause, true)), "{cause:?} in a slot");
    }
    let counts = [
        ("l.swa that stored", reached.linked_stores[0]),
        ("l.swa that did not", reached.linked_stores[1]),
        ("stores into the running word", reached.own_word),
        ("stores into a filled word", reached.filled_word),
        ("stores of an equal value", reached.equal_value),
        ("links lost to another core", reached.lost_links),
        ("halts", reached.halts),
        ("reused", reached.reused),
        ("untaken branches", reached.untaken),
    ];
    for (what, count) in counts {
        println!("{what}: {count}");
        assert!(count >= 20, "{what}: only {count}");
    }
}

#[test]
fn dumps_can_be_read_back() {
    for seed in 600_000..600_200 {
        let mut rng = Rng::new(seed);
        let case = cases::accepted_case(&mut rng, 100);
        let text = format!("seed 1: some message\n{}note", dump::write_case(&case));
        assert_eq!(dump::read_case(&text), Some(case), "seed {seed}");
        let (case, _) = cases::broken_case(&mut rng);
        assert_eq!(dump::read_case(&dump::write_case(&case)), Some(case), "seed {seed}");
    }
}
