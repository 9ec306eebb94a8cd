//! Every refusal at its edges, their order, and that nothing lent is written.

mod common;

use common::{engines, two_places};
use compare::card::reset_sheets;
use compare::cases::Case;
use compare::check::{self, BY_CACHE};
use compare::isa;
use compare::runs::Answer;
use compare::state::{place, SHEET_WORDS};
use compare::vectors::OLD;

/// A good case: nothing but l.nop, and every entry empty.
fn good(cores: usize, bytes: usize) -> Case {
    let memory = 0x1500_0000u32.to_be_bytes().repeat(bytes / 4);
    Case {
        sheets: reset_sheets(cores, 0x100),
        schedule: vec![0, (cores - 1) as u8],
        levels: vec![0; 2],
        limit: 0,
        vectors: OLD.to_vec(),
        table: vec![0; memory.len() / 4],
        memory,
    }
}

/// The refusals of the plain and the fast run, with all that was lent left as
/// it was wherever one refused.
fn refusals(case: &Case) -> (u8, u8) {
    let plain = check::after_plain(&BY_CACHE, case);
    let fast = check::after_fast(&BY_CACHE, case);
    for other in engines() {
        check::same_case(&BY_CACHE, other, case).unwrap();
    }
    for left in [&plain, &fast] {
        if left.answer.refusal != 0 {
            assert_eq!(left.answer, Answer::refused(left.answer.refusal));
            assert_eq!(left.case, *case);
        }
    }
    (plain.answer.refusal, fast.answer.refusal)
}

#[test]
fn packed_answers() {
    let answer = Answer { refusal: 0, executed: 65_536, raised: 65_535, reused: 65_534 };
    assert_eq!(answer.pack(), 65_534 << 40 | 65_535 << 20 | 65_536);
    assert_eq!(Answer::unpack(answer.pack()), answer);
    assert_eq!(Answer::refused(7).pack(), 7 << 60);
    assert_eq!(Answer::unpack(7 << 60), Answer::refused(7));
    assert_eq!(Answer::refused(11).pack(), 11 << 60);
    assert_eq!(Answer::unpack(11 << 60), Answer::refused(11));
    assert_eq!(Answer::refused(12).pack(), 12 << 60);
    assert_eq!(Answer::unpack(12 << 60), Answer::refused(12));
    assert_eq!(Answer::refused(13).pack(), 13 << 60);
    assert_eq!(Answer::unpack(13 << 60), Answer::refused(13));
}

#[test]
fn refusal_1_memory_lengths() {
    for bytes in [4_096, 4_100, 1_048_572, 1_048_576] {
        assert_eq!(refusals(&good(1, bytes)), (0, 0), "{bytes}");
    }
    for bytes in [0, 1, 4, 4_092, 4_095, 4_097, 4_098, 4_099, 1_048_575, 1_048_577, 1_048_580] {
        let mut case = good(1, 4_096);
        case.memory.resize(bytes, 0);
        assert_eq!(refusals(&case), (1, 1), "{bytes}");
    }
}

#[test]
fn refusal_2_sheet_counts() {
    for cores in 1..=4 {
        assert_eq!(refusals(&good(cores, 4_096)), (0, 0));
    }
    // 42 for each core were taken before note 2 of document 02, 44 before note 4.
    let old = [42, 84, 126, 168, 44, 88, 132, 176];
    let others = [0, 1, 43, 45, 47, 87, 89, 91, 93, 175, 177, 183, 185, 210, 220, 230, 440, 460];
    for words in [old.as_slice(), &others].concat() {
        let mut case = good(4, 4_096);
        case.sheets.resize(words, 0);
        assert_eq!(refusals(&case), (2, 2), "{words}");
    }
}

/// Some words of a sheet with new values.
type Change = &'static [(usize, u32)];

const BROKEN: &[Change] = &[
    &[(0, 1)],
    &[(0, 0x8000_0000)],
    &[(place::PC, 1)],
    &[(place::PC, 2)],
    &[(place::DELAY, 2)],
    &[(place::DELAY, 3)],
    &[(place::TARGET, 4)],
    &[(place::DELAY, 1), (place::TARGET, 2)],
    &[(place::EPCR, 3)],
    &[(place::SR, 1)],
    &[(place::ESR, 1)],
    &[(place::SR, 0)],
    &[(place::ESR, 0)],
    &[(place::LINK, 2)],
    &[(place::LINK, 0x1_0001)],
    &[(place::LINK_ADDRESS, 4)],
    &[(place::LINK, 1), (place::LINK_ADDRESS, 1)],
    &[(place::MODE, 2)],
    &[(place::MODE, 4)],
    &[(place::MODE, 5)],
    &[(place::MODE, 0x1_0001)],
    &[(place::MODE, 0x1_0003)],
    &[(place::MODE, 0x8000_0000)],
    &[(place::MODE, u32::MAX)],
    &[(place::PICMR, 0)],
    &[(place::PICMR, 1)],
    &[(place::PICMR, 2)],
    &[(place::PICMR, 0xffff_fffc)],
    &[(place::PICMR, 0xffff_fffd)],
    &[(place::PICMR, 0xffff_fffe)],
    // A halted core's sheet is held to it too.
    &[(place::MODE, 0), (place::PICMR, 0)],
    &[(place::MODE, 0), (place::PICMR, 1)],
    &[(place::MODE, 0), (place::PICMR, 2), (place::PICSR, 3)],
];

const KEPT: &[Change] = &[
    &[(1, u32::MAX)],
    &[(31, u32::MAX)],
    &[(place::PC, 0xffff_fffc)],
    &[(place::DELAY, 1)],
    &[(place::DELAY, 1), (place::TARGET, 0xffff_fffc)],
    &[(place::EPCR, 0xffff_fffc)],
    &[(place::EEAR, u32::MAX)],
    &[(place::SR, 0x8000)],
    &[(place::SR, 0xbe07)],
    &[(place::ESR, 0xbe07)],
    &[(place::LINK, 1)],
    &[(place::LINK, 1), (place::LINK_ADDRESS, 0xffff_fffc)],
    &[(place::MODE, 0)],
    &[(place::MACHI, u32::MAX)],
    &[(place::MACLO, u32::MAX)],
    &[(place::PICMR, 7)],
    &[(place::PICMR, u32::MAX)],
    &[(place::PICMR, 0x8000_0003)],
    // PICSR may be anything, whatever PICMR lets through.
    &[(place::PICSR, 1)],
    &[(place::PICSR, 4)],
    &[(place::PICSR, u32::MAX)],
    &[(place::PICMR, u32::MAX), (place::PICSR, u32::MAX)],
    &[(place::MODE, 0), (place::PICSR, 0x8000_0000)],
];

#[test]
fn refusal_3_rules_of_a_sheet() {
    BROKEN.iter().for_each(|change| changed(change, 3));
    KEPT.iter().for_each(|change| changed(change, 0));
}

/// Tries a change on the first, the second and the last sheet of three.
fn changed(change: Change, refusal: u8) {
    for core in 0..3 {
        let mut case = good(3, 4_096);
        for &(word, value) in change {
            case.sheets[core * SHEET_WORDS + word] = value;
        }
        assert_eq!(refusals(&case), (refusal, refusal), "core {core}: {change:x?}");
    }
}

/// 02, note 8: "Mode 1 is allowed for cores 1 to 3", whatever modes the others have;
/// with core 0 in mode 1 every sheet may be good but its own.
#[test]
fn refusal_3_modes() {
    const MODES: [u32; 6] = [0, 1, 2, 3, 4, 0x101];
    for cores in 1..=4 {
        for code in 0..6usize.pow(cores) {
            let modes: Vec<u32> =
                (0..cores).map(|core| MODES[code / 6usize.pow(core) % 6]).collect();
            let mut case = good(cores as usize, 4_096);
            for (core, &mode) in modes.iter().enumerate() {
                case.sheets[core * SHEET_WORDS + place::MODE] = mode;
            }
            let allowed = |(core, mode): (usize, &u32)| match mode {
                0 | 3 => true,
                1 => core != 0,
                _ => false,
            };
            let refusal = if modes.iter().enumerate().all(allowed) { 0 } else { 3 };
            assert_eq!(refusals(&case), (refusal, refusal), "{modes:?}");
        }
    }
    // A linked core's sheet keeps the other rules.
    for change in BROKEN.iter().filter(|change| change.iter().all(|(word, _)| *word != place::MODE))
    {
        let mut case = good(2, 4_096);
        let sheet = &mut case.sheets[SHEET_WORDS..];
        sheet[place::MODE] = 1;
        change.iter().for_each(|&(word, value)| sheet[word] = value);
        assert_eq!(refusals(&case), (3, 3), "{change:x?}");
    }
}

#[test]
fn refusal_3_each_status_bit() {
    for bit in 0..32 {
        let may_change = matches!(bit, 0..=2 | 9..=13);
        for word in [place::SR, place::ESR] {
            let mut case = good(1, 4_096);
            case.sheets[word] ^= 1 << bit;
            let refusal = if may_change { 0 } else { 3 };
            assert_eq!(refusals(&case), (refusal, refusal), "bit {bit} of word {word}");
        }
    }
}

#[test]
fn refusal_4_schedule_length() {
    for (entries, refusal) in [(0, 0), (65_536, 0), (65_537, 4), (100_000, 4)] {
        let mut case = good(1, 4_096);
        case.set_schedule(vec![0; entries]);
        assert_eq!(refusals(&case), (refusal, refusal), "{entries}");
    }
}

#[test]
fn refusal_5_entries() {
    for cores in 1..=4 {
        for entry in 0..=255 {
            let mut case = good(cores, 4_096);
            case.set_schedule(vec![0, (cores - 1) as u8, entry]);
            let refusal = if usize::from(entry) < cores { 0 } else { 5 };
            assert_eq!(refusals(&case), (refusal, refusal), "{entry} of {cores}");
        }
    }
    // A halted core does not excuse the entries after it.
    let mut case = good(1, 4_096);
    case.sheets[place::MODE] = 0;
    case.set_schedule(vec![0, 1]);
    assert_eq!(refusals(&case), (5, 5));
}

/// A case with so many entries and so many levels.
fn with_levels(entries: usize, levels: usize) -> Case {
    let mut case = good(1, 4_096);
    case.schedule = vec![0; entries];
    case.levels = vec![0xffff_ffff; levels];
    case
}

/// 02, note 4: "refuses with 11, after 5, a level list whose length is not the
/// schedule's".
#[test]
fn refusal_11_level_lengths() {
    for entries in [0, 1, 2, 3, 256, 65_535, 65_536] {
        assert_eq!(refusals(&with_levels(entries, entries)), (0, 0), "{entries}");
        let wrong =
            [0, 1, entries / 4, entries.saturating_sub(1), entries + 1, 4 * entries, 65_536];
        for levels in wrong.into_iter().filter(|&levels| levels != entries) {
            assert_eq!(refusals(&with_levels(entries, levels)), (11, 11), "{entries}, {levels}");
        }
    }
    // A halted core needs its levels too.
    let mut case = with_levels(3, 2);
    case.sheets[place::MODE] = 0;
    assert_eq!(refusals(&case), (11, 11));
}

/// 4 and 5 come before 11, also where the lengths are equal or the entries past the
/// levels are the wrong ones; 6 and 7 come after it.
#[test]
fn refusal_11_among_the_others() {
    for levels in [0, 65_536, 65_538, 65_537] {
        assert_eq!(refusals(&with_levels(65_537, levels)), (4, 4), "{levels}");
    }
    for levels in [0, 1, 2, 4, 3] {
        let mut case = with_levels(3, levels);
        case.schedule[2] = 1;
        assert_eq!(refusals(&case), (5, 5), "{levels}");
    }
    for levels in [0, 2, 4] {
        let mut case = with_levels(3, levels);
        case.table.pop();
        assert_eq!(refusals(&case), (11, 11), "{levels}");
        let mut case = with_levels(3, levels);
        case.table[5] = 1;
        assert_eq!(refusals(&case), (11, 11), "{levels}");
    }
}

/// Limits that are no multiple of 4 or exceed so many bytes of memory.
fn wrong_limits(bytes: u32) -> Vec<u32> {
    let near = [1, 2, 3, 5, bytes - 3, bytes - 2, bytes - 1, bytes + 1, bytes + 2, bytes + 3];
    let past = [bytes + 4, 2 * bytes, 4 * bytes, 0x10_0004, 0x8000_0000, 0xffff_fffc, u32::MAX];
    [near.as_slice(), &past].concat()
}

/// 02, note 5: "refuses with 12, after 11, a limit that is no multiple of 4 or
/// exceeds memory". Memory's own length does not exceed it.
#[test]
fn refusal_12_limits() {
    for bytes in [4_096, 4_100, 16_384, 1_048_576] {
        let mut case = good(2, bytes as usize);
        for limit in [0, 4, 8, 0x100, (bytes / 2) & !3, bytes - 4, bytes] {
            case.limit = limit;
            assert_eq!(refusals(&case), (0, 0), "{limit} of {bytes}");
        }
        for limit in wrong_limits(bytes) {
            case.limit = limit;
            assert_eq!(refusals(&case), (12, 12), "{limit} of {bytes}");
        }
    }
    // A limit for the largest memory is one for the largest memory alone.
    let mut case = good(1, 1_048_572);
    case.limit = 1_048_576;
    assert_eq!(refusals(&case), (12, 12));
}

/// The limit is tested though nothing is stored: by an empty schedule or halted cores.
#[test]
fn refusal_12_without_stores() {
    for limit in [2, 4_100] {
        let mut case = good(1, 4_096);
        case.limit = limit;
        case.set_schedule(vec![]);
        assert_eq!(refusals(&case), (12, 12), "{limit}");
        case.set_schedule(vec![0; 3]);
        case.sheets[place::MODE] = 0;
        assert_eq!(refusals(&case), (12, 12), "{limit}");
    }
}

/// 1 to 5 and 11 come before 12; 6 and 7 come after it, and the plain run, which has
/// no table, has 12 too.
#[test]
fn refusal_12_among_the_others() {
    for limit in wrong_limits(4_096) {
        for other in [1, 2, 3, 4, 5, 11] {
            let mut case = good(2, 4_096);
            case.limit = limit;
            break_by(&mut case, other);
            assert_eq!(refusals(&case), (other, other), "{limit}");
        }
        for other in [6, 7] {
            let mut case = good(2, 4_096);
            case.limit = limit;
            break_by(&mut case, other);
            assert_eq!(refusals(&case), (12, 12), "{limit}");
        }
    }
}

/// A case with a list of vectors.
fn with_vectors(list: &[u32]) -> Case {
    Case { vectors: list.to_vec(), ..good(2, 4_096) }
}

/// The old list with one address, or more, in place of others.
fn changed_list(changes: &[(usize, u32)]) -> Vec<u32> {
    let mut list = OLD.to_vec();
    for &(place, address) in changes {
        list[place] = address;
    }
    list
}

/// 02, note 6: "Addresses are multiples of 4 below 1,048,576", in every place, and
/// whatever the memory: it may be smaller.
#[test]
fn refusal_13_addresses() {
    for place in 0..7 {
        for address in [0, 4, 0x300, 0xffc, 0x1000, 0x1004, 0x8_0000, 0xf_fff8, 0xf_fffc] {
            let case = with_vectors(&changed_list(&[(place, address)]));
            assert_eq!(refusals(&case), (0, 0), "{address:x} at {place}");
        }
        for address in wrong_addresses() {
            let case = with_vectors(&changed_list(&[(place, address)]));
            assert_eq!(refusals(&case), (13, 13), "{address:x} at {place}");
        }
    }
    // The bound is no memory's: the largest one's length is refused too.
    let mut case = good(1, 1_048_576);
    case.vectors[0] = 1_048_572;
    assert_eq!(refusals(&case), (0, 0));
    case.vectors[0] = 1_048_576;
    assert_eq!(refusals(&case), (13, 13));
}

/// No multiples of 4, and addresses at and past 1,048,576.
fn wrong_addresses() -> Vec<u32> {
    let odd = [1, 2, 3, 0x201, 0x202, 0x203, 0x1001, 0xf_fffd, 0xf_fffe, 0xf_ffff];
    let far = [0x10_0000, 0x10_0004, 0x10_0200, 0x20_0000, 0x8000_0000, 0x8000_0200, 0xffff_fffc];
    let both = [0x10_0001, 0x10_0002, 0x8000_0003, 0xffff_ffff];
    [odd.as_slice(), &far, &both].concat()
}

/// Two equal addresses at each two places, also where the rest is not the old list, and
/// more than two.
#[test]
fn refusal_13_equal_addresses() {
    assert_eq!(two_places().count(), 21);
    for (first, later) in two_places() {
        for address in [OLD[first], OLD[later], 0, 0xf_fffc, 0x2000] {
            let list = changed_list(&[(first, address), (later, address)]);
            assert_eq!(refusals(&with_vectors(&list)), (13, 13), "{first}, {later}");
            // Four bytes apart they are two.
            let list = changed_list(&[(first, address), (later, address ^ 4)]);
            assert_eq!(refusals(&with_vectors(&list)), (0, 0), "{first}, {later}");
        }
    }
    for list in [[0; 7], [0x200; 7], [4, 8, 4, 8, 4, 8, 4], [4, 8, 12, 16, 20, 24, 4]] {
        assert_eq!(refusals(&with_vectors(&list)), (13, 13), "{list:x?}");
    }
    // In any order, up, down and side by side.
    let up = [0, 4, 8, 12, 16, 20, 24];
    let mut down = up;
    down.reverse();
    for list in [up, down, [24, 0, 20, 4, 16, 8, 12]] {
        assert_eq!(refusals(&with_vectors(&list)), (0, 0), "{list:x?}");
    }
}

/// A list of another length than seven breaks the rules too, good as its addresses are.
#[test]
fn refusal_13_lengths() {
    let addresses: Vec<u32> = (0..92).map(|number| 0x100 + 4 * number).collect();
    for length in (0..=16).chain([46, 92]) {
        let refusal = if length == 7 { 0 } else { 13 };
        let case = with_vectors(&addresses[..length]);
        assert_eq!(refusals(&case), (refusal, refusal), "{length}");
    }
    // The old list cut short, with one more, and twice.
    for list in [&OLD[..6], &[OLD.as_slice(), &[0x900]].concat(), &OLD.repeat(2)] {
        assert_eq!(refusals(&with_vectors(list)), (13, 13), "{list:x?}");
    }
}

/// The list is tested though nothing raises: by an empty schedule or halted cores.
#[test]
fn refusal_13_without_exceptions() {
    for list in [changed_list(&[(3, 2)]), changed_list(&[(3, 0x200)]), vec![]] {
        let mut case = with_vectors(&list);
        case.set_schedule(vec![]);
        assert_eq!(refusals(&case), (13, 13), "{list:x?}");
        case.set_schedule(vec![0; 3]);
        case.sheets[place::MODE] = 0;
        assert_eq!(refusals(&case), (13, 13), "{list:x?}");
    }
}

/// 1 to 5, 11 and 12 come before 13; 6 and 7 come after it, and the plain run, which has
/// no table, has 13 too.
#[test]
fn refusal_13_among_the_others() {
    let lists = [
        changed_list(&[(0, 2)]),
        changed_list(&[(6, 0x10_0000)]),
        changed_list(&[(5, 0x200)]),
        vec![],
        OLD[..6].to_vec(),
        [OLD.as_slice(), &[0x900]].concat(),
    ];
    for list in lists {
        for other in [1, 2, 3, 4, 5, 11, 12] {
            let mut case = with_vectors(&list);
            break_by(&mut case, other);
            assert_eq!(refusals(&case), (other, other), "{list:x?}");
        }
        for other in [6, 7] {
            let mut case = with_vectors(&list);
            break_by(&mut case, other);
            assert_eq!(refusals(&case), (13, 13), "{list:x?}");
        }
    }
}

#[test]
fn refusals_6_and_7_concern_the_fast_run_alone() {
    for entries in [0, 1, 1_023, 1_025, 4_096] {
        let mut case = good(1, 4_096);
        case.table.resize(entries, 0);
        assert_eq!(refusals(&case), (0, 6), "{entries}");
    }
    let form = isa::decode(0x1500_0000);
    for index in [0, 1, 512, 1_023] {
        let mut case = good(1, 4_096);
        case.table[index] = form;
        assert_eq!(refusals(&case), (0, 0));
        for wrong in [1 << 56, form ^ 1, form | 1 << 47, form | 1 << 42, 1, u64::MAX] {
            case.table[index] = wrong;
            assert_eq!(refusals(&case), (0, 7), "{wrong:x} at {index}");
        }
    }
}

/// Breaks a case so that it meets one refusal, on top of others.
fn break_by(case: &mut Case, refusal: u8) {
    match refusal {
        1 => case.memory.push(0),
        2 => case.sheets.push(0),
        3 => case.sheets[0] = 1,
        4 => case.schedule.resize(65_537, 0),
        5 => case.schedule[0] = 4,
        11 => case.levels.push(0),
        12 => case.limit = 2,
        13 => case.vectors[6] = 0x200,
        6 => case.table.push(0),
        _ => case.table[5] = 1,
    }
}

#[test]
fn refusals_are_tested_in_order() {
    const ORDER: [u8; 10] = [1, 2, 3, 4, 5, 11, 12, 13, 6, 7];
    for set in 1u32..1_024 {
        let mut case = good(2, 4_096);
        let met: Vec<u8> =
            (0..10).filter(|place| set >> place & 1 == 1).map(|place| ORDER[place]).collect();
        for &refusal in &met {
            break_by(&mut case, refusal);
        }
        let plain = if [6, 7].contains(&met[0]) { 0 } else { met[0] };
        assert_eq!(refusals(&case), (plain, met[0]), "{met:?}");
    }
}

#[test]
fn counts_of_a_small_run() {
    // Core 1 is halted; core 0 runs l.nop three times and then l.trap.
    let mut case = good(2, 4_096);
    case.set_word(0x10c / 4, 0x2100_0000);
    case.sheets[SHEET_WORDS + place::MODE] = 0;
    case.set_schedule(vec![0, 1, 0, 1, 0, 0, 0]);
    case.table[0x104 / 4] = isa::decode(0x1500_0000);
    let left = check::after_fast(&BY_CACHE, &case);
    assert_eq!(left.answer, Answer { refusal: 0, executed: 5, raised: 1, reused: 1 });
    let filled: Vec<usize> = (0..1_024).filter(|&index| left.case.table[index] != 0).collect();
    assert_eq!(filled, [0x40, 0x41, 0x42, 0x43, 0xe00 / 4]);
    let plain = check::after_plain(&BY_CACHE, &case);
    assert_eq!(plain.answer, Answer { refusal: 0, executed: 5, raised: 1, reused: 0 });
}
