//! The starting SR in the card (note 7 of document 02): its line, what it sets, what each
//! of its bits changes, and the cards of before.

mod common;

use common::by_lines;
use common::old_cards::{self, OldCards};
use common::sr_cards::{self, BITS};
use common::sr_lines::SrLines;
use common::{asm, assert_card, expect_counts, show, stored};
use compare::card::{self, Fault, File, Job, IMAGE_BYTES};
use compare::cards::{self, Card};
use compare::isa::Kind::{self, *};
use compare::lists;
use compare::rng::Rng;
use compare::state::{place, CY, DSX, F, IEE, OV, OVE, SHEET_WORDS, SM, TEE};
use std::collections::BTreeMap;
use std::fs;
use std::path::Path;

/// SR at reset.
const SR: u32 = 0x8001;
const NOP: u32 = 0x1500_0000;
const TRAP: u32 = 0x2100_0000;
/// Where a trap goes.
const VECTOR: u32 = 0xe00;

fn parse(card: &[u8]) -> Result<Job, (u8, usize)> {
    let job = card::parse(card, &mut [0; IMAGE_BYTES]);
    job.map_err(|fault| (fault.refusal, fault.line))
}

fn printed(card: &[u8]) -> String {
    card::output(&File::Absent, card)
}

/// 01's example with the line prints what it printed, and without it is refused.
#[test]
fn the_line_follows_entry() {
    let card = b"cores=1\nmemory=4096\nentry=00000000\nsr=00008001\nsteps=6\nschedule=0\nwords=4\n\
        w=9c600005\nw=e0841800\nw=03ffffff\nw=15000000\n";
    let output = "executed=6\nraised=0\nreused=2\n\
        core=0 mode=3 pc=0000000c delay=1 sr=00008001\nr3=00000005\nr4=0000000a\nend\n";
    assert_card(&File::Absent, card, output);
    assert_eq!(sr_cards::example().text(), card);
    let old = b"cores=1\nmemory=4096\nentry=00000000\nsteps=6\nschedule=0\nwords=4\n\
        w=9c600005\nw=e0841800\nw=03ffffff\nw=15000000\n";
    assert_eq!(printed(old), "refused=9 line=4\n");
    assert_eq!(old_cards::output(&File::Absent, old), output);
    assert_eq!(old_cards::with_sr(old), card);
    for (line, output) in [
        ("sr=00008001", "refused=9 line=5\n"),
        ("sr=00008002\nsteps=06", "refused=9 line=5\n"),
        ("sr=00000001", "refused=10 line=4\n"),
        ("sr=00008011", "refused=10 line=4\n"),
        ("sr=8001", "refused=9 line=4\n"),
        ("SR=00008001", "refused=9 line=4\n"),
    ] {
        let card = format!("cores=1\nmemory=4096\nentry=00000000\n{line}\n");
        assert_eq!(printed(card.as_bytes()), output, "{line}");
    }
}

/// Every row of the table, and how many there are of each refusal on each line.
#[test]
fn every_fault_of_the_line() {
    let mut met: BTreeMap<(u8, usize), u32> = BTreeMap::new();
    for row in sr_cards::rows() {
        let shown = String::from_utf8_lossy(&row.text[..row.text.len().min(200)]).into_owned();
        let due = row.numbers();
        assert_eq!(parse(&row.text).err().unwrap_or((0, 0)), due, "{}\n{shown}", row.what);
        let by_lines = by_lines::read(&row.text).err().unwrap_or((0, 0));
        assert_eq!(by_lines, due, "{}\n{shown}", row.what);
        *met.entry(due).or_default() += 1;
        if let Some(fault) = row.due {
            assert_eq!(printed(&row.text), fault.to_string(), "{}", row.what);
        }
    }
    show(&format!("cards, how many of each refusal and line: {met:?}"));
    let least = |refusal, line, least| met.get(&(refusal, line)).is_some_and(|&met| met >= least);
    assert!(least(0, 0, 512) && least(10, 4, 190) && least(9, 4, 300) && least(9, 0, 20));
    assert!((1..=12).all(|line| least(9, line, 12)));
    assert!([1, 2, 3].iter().all(|&line| least(10, line, 5)));
    assert!([5, 6, 7].iter().all(|&line| least(10, line, 1)));
}

/// "A value that no sheet's SR may have": every value of the lower half, alone and beside
/// each upper bit.
#[test]
fn every_value() {
    let mut image = [0; IMAGE_BYTES];
    let mut good = vec![];
    let mut card = Card::default();
    let upper = (16..32).map(|bit| 1 << bit);
    for upper in [0].into_iter().chain(upper) {
        // Beside an upper bit, what is wrong with the lower half does not matter.
        for lower in (0..0x1_0000).step_by(if upper == 0 { 1 } else { 0x97 }) {
            card.sr = upper | lower;
            match card::parse(&card.text(), &mut image) {
                Ok(job) => good.push(job.sr),
                Err(fault) => assert_eq!(fault, Fault { refusal: 10, line: 4 }, "{:08x}", card.sr),
            }
        }
    }
    let mut lawful = sr_cards::lawful();
    lawful.sort_unstable();
    assert_eq!((good.len(), good), (256, lawful));
}

/// "sets SR of every core", and the rest is as at reset, ESR too.
#[test]
fn random_good_cards() {
    let mut met = SrLines::default();
    for seed in 0..6_000 {
        let card = cards::good(&mut Rng::new(seed));
        let job = parse(&card.text()).expect("a good card");
        let mut sheet = [0; SHEET_WORDS];
        (sheet[place::PC], sheet[place::SR]) = (card.entry, card.sr);
        (sheet[place::ESR], sheet[place::MODE], sheet[place::PICMR]) = (SR, 3, 3);
        assert_eq!(job.sheets(), sheet.repeat(card.cores), "seed {seed}");
        met.note_good(card.sr, card.cores);
    }
    met.expect_good("good cards", 180);
}

/// Faults of the line put in on purpose are told as they are due, by two readers.
#[test]
fn random_faults() {
    let mut met = SrLines::default();
    for seed in 10_000..22_000 {
        let (card, due) = cards::faulty_sr(&mut Rng::new(seed));
        let due = (due.refusal, due.line);
        let shown = || String::from_utf8_lossy(&card[..card.len().min(200)]).into_owned();
        let mut image = [0xee; IMAGE_BYTES];
        let found = card::parse(&card, &mut image).expect_err("a fault");
        assert_eq!((found.refusal, found.line), due, "seed {seed}\n{}", shown());
        assert_eq!(by_lines::read(&card), Err(due), "seed {seed}\n{}", shown());
        assert!(image.iter().all(|&byte| byte == 0xee), "seed {seed}");
        met.note(&card, due);
    }
    met.expect_faults("faulty lines", 1);
}

/// "Cards taken until now lack the line and so meet 9 at line 4; with 00008001 put in,
/// the printed run equals the earlier one."
#[test]
fn random_old_cards() {
    let mut met = OldCards::default();
    for seed in 30_000..39_000 {
        let mut rng = Rng::new(seed);
        let file = lists::good_or_absent(&mut rng.far_aside());
        let old = old_cards::any_card(&mut rng);
        let shown = || String::from_utf8_lossy(&old[..old.len().min(200)]).into_owned();
        let without = card::output(&file, &old);
        assert_eq!(without, old_cards::due_without(&file, &old), "seed {seed}\n{}", shown());
        let with = card::output(&file, &old_cards::with_sr(&old));
        assert_eq!(with, old_cards::due_with(&file, &old), "seed {seed}\n{}", shown());
        met.note(&old);
    }
    met.expect("old cards", 1);
}

/// The longest card there can be: each one that was taken has room for the line.
#[test]
fn the_longest_card() {
    let card = Card {
        cores: 4,
        memory: 16_384,
        steps: 16_384,
        schedule: "0123".repeat(4),
        words: vec![NOP; 4_096],
        ..Card::default()
    };
    let (card, old) = (card.text(), old_cards::without_sr(&card.text()));
    assert_eq!((card.len(), old.len()), (45_153, 45_141));
    assert_eq!(old_cards::with_sr(&old), card);
    assert_eq!(printed(&card), old_cards::output(&File::Absent, &old));
    assert!(printed(&card).starts_with("executed=16384\n"));
}

/// What is stored is what the old reader printed without the line; whether the card has it.
fn is_as_it_was(file: &File, card: &[u8], path: &Path) -> bool {
    let old = old_cards::without_sr(card);
    let has_line = old != card && old_cards::with_sr(&old) == card;
    if has_line {
        let expected = fs::read_to_string(path.with_extension("expected")).expect("its output");
        assert_eq!(old_cards::due_with(file, &old), expected, "{}", path.display());
        assert_eq!(card::output(file, card), expected, "{}", path.display());
        assert_eq!(card::output(file, &old), old_cards::due_without(file, &old));
    }
    has_line
}

/// The stored cards and lists of vectors; cards with an earlier fault need not have the
/// line.
#[test]
fn stored_cards_as_they_were() {
    let cards = stored("../examples/cards", "card")
        .into_iter()
        .filter(|path| is_as_it_was(&File::Absent, &fs::read(path).expect("a card"), path));
    let causes = fs::read("../examples/vector-lists/causes.card").expect("a card");
    let lists = stored("../examples/vector-lists", "vectors")
        .into_iter()
        .filter(|path| is_as_it_was(&File::Bytes(fs::read(path).expect("a list")), &causes, path));
    let counts = (cards.count(), lists.count());
    show(&format!("stored cards and lists as they were: {counts:?}"));
    assert!(counts.0 >= 10 && counts.1 >= 10, "{counts:?}");
}

/// A card of one core that runs each word once.
fn card(sr: u32, words: &[u32]) -> Card {
    Card { sr, steps: words.len(), words: words.to_vec(), ..Card::default() }
}

/// One core that runs prints this, its registers being given as lines.
fn running(executed: u32, raised: u32, pc: u32, sr: u32, registers: &str) -> String {
    format!(
        "executed={executed}\nraised={raised}\nreused=0\n\
        core=0 mode=3 pc={pc:08x} delay=0 sr={sr:08x}\n{registers}end\n"
    )
}

fn assert_prints(card: &Card, expected: &str) {
    assert_card(&File::Absent, &card.text(), expected);
}

/// SR after an exception that is not in a slot.
fn after_exception(sr: u32) -> u32 {
    sr & (F | CY | OV) | SR
}

/// Without a step every core of a card is printed with the value.
#[test]
fn every_core_starts_with_it() {
    for cores in 1..=4 {
        for sr in sr_cards::lawful() {
            let mut expected = "executed=0\nraised=0\nreused=0\n".to_string();
            for core in 0..cores {
                expected += &format!("core={core} mode=3 pc=00000ff0 delay=0 sr={sr:08x}\n");
            }
            assert_prints(
                &Card { cores, entry: 0xff0, sr, ..Card::default() },
                &(expected + "end\n"),
            );
        }
    }
}

/// Each core reads it; the third is not in the schedule.
#[test]
fn cores_that_run_and_one_that_does_not() {
    let words = [asm(Mfspr, 3, 0, 0, 17), asm(Nop, 0, 0, 0, 1)];
    let card = Card { cores: 3, schedule: "10".to_string(), ..card(0xbe06, &words) };
    let expected = "executed=4\nraised=0\nreused=2\n\
        core=0 mode=0 pc=00000008 delay=0 sr=0000be06\nr3=0000be06\n\
        core=1 mode=0 pc=00000008 delay=0 sr=0000be06\nr3=0000be06\n\
        core=2 mode=3 pc=00000000 delay=0 sr=0000be06\nend\n";
    assert_prints(&Card { steps: 4, ..card }, expected);
}

/// A program that reads SR and ESR, traps, and reads both again; then l.rfe.
fn trapping(sr: u32) -> Card {
    let mut words = vec![NOP; VECTOR as usize / 4];
    let start = [asm(Mfspr, 3, 0, 0, 17), asm(Mfspr, 4, 0, 0, 64), TRAP];
    words[..3].copy_from_slice(&start);
    words.extend([asm(Mfspr, 5, 0, 0, 17), asm(Mfspr, 6, 0, 0, 64), asm(Rfe, 0, 0, 0, 0)]);
    Card { sr, steps: 5, words, ..Card::default() }
}

/// SM, TEE, IEE, OVE and DSX as an exception and l.rfe leave them. ESR is 00008001 until
/// then, whatever SR is.
#[test]
fn sr_and_esr_through_an_exception() {
    for sr in sr_cards::lawful() {
        let after = after_exception(sr);
        let registers = format!("r3={sr:08x}\nr4=00008001\nr5={after:08x}\nr6={sr:08x}\n");
        let card = trapping(sr);
        assert_prints(&card, &running(5, 1, VECTOR + 8, after, &registers));
        assert_prints(&Card { steps: 6, ..card }, &running(6, 1, 8, sr, &registers));
    }
}

/// l.rfe before any exception: EPCR is 0 and ESR 00008001, as at reset.
#[test]
fn esr_is_not_set() {
    for sr in sr_cards::lawful() {
        let card = Card { entry: 4, ..card(sr, &[NOP, asm(Rfe, 0, 0, 0, 0)]) };
        assert_prints(&Card { steps: 1, ..card }, &running(1, 0, 0, SR, ""));
    }
}

/// EPCR, EEAR, MACHI, MACLO, PICMR and PICSR are as at reset.
#[test]
fn the_rest_is_as_at_reset() {
    let numbers = [32, 48, 0x2802, 0x2801, 0x4802, 0x4800];
    let words = [1, 2, 3, 4, 5, 6].map(|d| asm(Mfspr, d, 0, 0, numbers[usize::from(d) - 1]));
    for sr in [SR, 0xbe07, 0x8000] {
        assert_prints(&card(sr, &words), &running(6, 0, 0x18, sr, "r6=00000003\n"));
    }
}

/// What raises at once: a fetch outside memory, and no sum before it.
#[test]
fn an_entry_outside_memory() {
    for sr in sr_cards::lawful() {
        let card = Card { entry: 0x1000, steps: 1, ..card(sr, &[]) };
        assert_prints(&card, &running(1, 1, 0x200, after_exception(sr), ""));
    }
}

/// With OVE the first sum, product or quotient that overflows raises.
#[test]
fn ove_makes_overflow_raise() {
    let rows = [
        (asm(Add, 4, 3, 3, 0), OV, "r4=fffffffe\n"),
        (asm(Addi, 4, 3, 0, 1), OV, "r4=80000000\n"),
        (asm(Addic, 4, 3, 0, 1), OV, "r4=80000000\n"),
        (asm(Mul, 4, 3, 3, 0), OV | CY, "r4=00000001\n"),
        (asm(Muli, 4, 3, 0, 3), OV | CY, "r4=7ffffffd\n"),
        (asm(Div, 4, 3, 0, 0), CY, ""),
        (asm(Divu, 4, 3, 0, 0), CY, ""),
    ];
    for (word, flags, written) in rows {
        let words = [asm(Movhi, 3, 0, 0, 0x7fff), asm(Ori, 3, 3, 0, 0xffff), word];
        let registers = format!("r3=7fffffff\n{written}");
        for sr in [SR, SR & !SM, SR | TEE | IEE, SR | F | DSX] {
            let quiet = running(3, 0, 12, sr | flags, &registers);
            assert_prints(&card(sr, &words), &quiet);
            let raised = running(3, 1, 0xb00, after_exception(sr | flags), &registers);
            assert_prints(&card(sr | OVE, &words), &raised);
        }
    }
}

/// OV and OVE together at the start raise nothing; the next sum clears OV.
#[test]
fn ov_alone_raises_nothing() {
    let sr = SR | OV | OVE;
    assert_prints(&card(sr, &[NOP]), &running(1, 0, 4, sr, ""));
    assert_prints(&card(sr, &[asm(Add, 0, 0, 0, 0)]), &running(1, 0, 4, SR | OVE, ""));
    assert_prints(&card(sr, &[asm(Mac, 0, 0, 0, 0)]), &running(1, 0, 4, sr, ""));
}

/// F: both branches, and l.cmov.
#[test]
fn f_chooses() {
    let one =
        |kind: Kind| [asm(kind, 0, 0, 0, 12), NOP, asm(Ori, 3, 0, 0, 1), asm(Ori, 4, 0, 0, 2)];
    let (on, past) = ((12, "r3=00000001\n"), (16, "r4=00000002\n"));
    for (kind, of_0, of_1) in [(Bf, on, past), (Bnf, past, on)] {
        for (sr, (pc, registers)) in [(SR, of_0), (SR | F, of_1)] {
            let card = Card { steps: 3, ..card(sr, &one(kind)) };
            assert_prints(&card, &running(3, 0, pc, sr, registers));
        }
    }
    let words = [asm(Ori, 3, 0, 0, 7), asm(Cmov, 4, 3, 0, 0)];
    assert_prints(&card(SR, &words), &running(2, 0, 8, SR, "r3=00000007\n"));
    let taken = "r3=00000007\nr4=00000007\n";
    assert_prints(&card(SR | F, &words), &running(2, 0, 8, SR | F, taken));
}

/// CY goes into the first l.addc or l.addic, and no further.
#[test]
fn cy_is_added() {
    for word in [asm(Addc, 3, 0, 0, 0), asm(Addic, 3, 0, 0, 0)] {
        assert_prints(&card(SR, &[word]), &running(1, 0, 4, SR, ""));
        assert_prints(&card(SR | CY, &[word]), &running(1, 0, 4, SR, "r3=00000001\n"));
        assert_prints(&card(SR | CY, &[word, word]), &running(2, 0, 8, SR, ""));
    }
}

/// All lines are low, so that IEE interrupts nothing.
#[test]
fn iee_interrupts_nothing() {
    let mask = asm(Mtspr, 0, 0, 3, 0x4800);
    let words = [asm(Xori, 3, 0, 0, u32::MAX), mask, NOP, NOP];
    for sr in [SR | IEE, SR | IEE | TEE, 1 << 15 | IEE] {
        assert_prints(&card(sr, &words), &running(4, 0, 16, sr, "r3=ffffffff\n"));
    }
}

/// A halted core keeps it.
#[test]
fn a_halted_core() {
    for sr in sr_cards::lawful() {
        let expected = running(1, 0, 4, sr, "").replace("mode=3", "mode=0");
        assert_prints(&card(sr, &[asm(Nop, 0, 0, 0, 1)]), &expected);
    }
}

/// What is printed but for SR on the cores' lines and for r28, where some programs put it.
fn without_sr(printed: &str) -> Vec<&str> {
    let lines = printed.lines().filter(|line| !line.starts_with("r28="));
    lines.map(|line| line.split(" sr=").next().unwrap_or("")).collect()
}

/// Random cards, each with one bit of its SR the other way: how often what is printed is
/// otherwise, and how often in more than SR, with the least numbers in 3,000 cards. The
/// second needs a program that asks for the bit.
#[test]
fn every_bit_changes_runs() {
    let least = [
        ("SM", 900, 1),
        ("TEE", 900, 1),
        ("IEE", 900, 1),
        ("F", 1_200, 40),
        ("CY", 1_000, 30),
        ("OV", 1_000, 1),
        ("OVE", 1_100, 500),
        ("DSX", 900, 1),
    ];
    let mut met = [(0, 0); 8];
    for seed in 50_000..53_000 {
        let mut card = cards::good(&mut Rng::new(seed));
        card.steps = card.steps.min(500);
        let one = printed(&card.text());
        for ((bit, _), met) in BITS.into_iter().zip(&mut met) {
            let other = printed(&Card { sr: card.sr ^ 1 << bit, ..card.clone() }.text());
            met.0 += u32::from(one != other);
            met.1 += u32::from(without_sr(&one) != without_sr(&other));
        }
    }
    let rows = least.into_iter().zip(met).flat_map(|((name, of_all, of_more), met)| {
        [(name.to_string(), met.0, of_all), (format!("{name}, in more than SR"), met.1, of_more)]
    });
    expect_counts("runs that a bit changes", rows);
    assert_eq!(least.map(|(name, _, _)| name), BITS.map(|(_, name)| name));
}
