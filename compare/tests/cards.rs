//! The run card: the paper's example, every fault, and random cards.

mod common;

use common::{assert_card, by_lines, engines};
use compare::battery::Pair;
use compare::card::{self, Fault, File, Job, IMAGE_BYTES};
use compare::cards::{self, line_of, Card, KEYS};
use compare::cases::Case;
use compare::check::BY_HISTORY;
use compare::rng::Rng;
use compare::vectors::OLD;

const EXAMPLE: &str = "cores=1\nmemory=4096\nentry=00000000\nsr=00008001\nsteps=6\n\
    schedule=0\nwords=4\nw=9c600005\nw=e0841800\nw=03ffffff\nw=15000000\n";

const OUTPUT: &str = "executed=6\nraised=0\nreused=2\n\
    core=0 mode=3 pc=0000000c delay=1 sr=00008001\nr3=00000005\nr4=0000000a\nend\n";

fn parse(card: &[u8]) -> Result<Job, Fault> {
    card::parse(card, &mut vec![0; IMAGE_BYTES])
}

fn fault(refusal: u8, line: usize) -> Result<Job, Fault> {
    Err(Fault { refusal, line })
}

fn example() -> Vec<String> {
    EXAMPLE.lines().map(str::to_string).collect()
}

/// The example with the line that has a key replaced.
fn with_line(key: &str, text: &str) -> Vec<u8> {
    let mut lines = example();
    lines[line_of(key) - 1] = text.to_string();
    cards::join(&lines)
}

#[test]
fn the_example() {
    assert_card(&File::Absent, EXAMPLE.as_bytes(), OUTPUT);
    assert_eq!(
        card::output(&File::Absent, b"cores=1\nmemory=4096\nentry=0\n"),
        "refused=9 line=3\n"
    );
    assert_eq!(card::output(&File::Absent, &with_line("cores", "core=1")), "refused=9 line=1\n");
    assert_eq!(card::output(&File::Absent, &with_line("cores", "cores=5")), "refused=10 line=1\n");
}

/// The generator's keys are the example's, in their order.
#[test]
fn the_order_of_the_lines() {
    let keys = example().into_iter().map(|line| line.split('=').next().unwrap_or("").to_string());
    assert_eq!(keys.take(KEYS.len()).collect::<Vec<_>>(), KEYS);
    assert_eq!(["cores", "entry", "sr", "steps", "words"].map(line_of), [1, 3, 4, 5, 7]);
    let words = vec![0x9c60_0005, 0xe084_1800, 0x03ff_ffff, 0x1500_0000];
    assert_eq!(Card { steps: 6, words, ..Card::default() }.lines(), example());
}

#[test]
fn several_cores_are_printed_in_turn() {
    // Each core puts its number plus 7 in r3, then halts.
    let card = Card {
        cores: 2,
        entry: 0x10,
        steps: 7,
        schedule: "10".to_string(),
        words: vec![0, 0, 0, 0, 0xb460_0080, 0x9c63_0007, 0x1500_0001],
        ..Card::default()
    };
    let output = "executed=6\nraised=0\nreused=3\n\
        core=0 mode=0 pc=0000001c delay=0 sr=00008001\nr3=00000007\n\
        core=1 mode=0 pc=0000001c delay=0 sr=00008001\nr3=00000008\nend\n";
    assert_card(&File::Absent, &card.text(), output);
}

/// 02, note 2: r4 is 7 times -3 and r5 that by -3; MACLO, which is then 3f, is
/// no register and is not printed.
#[test]
fn products_on_a_card() {
    let words = vec![0x9c60_fffd, 0xb083_0007, 0xc403_2001, 0xe0a4_1b09, 0x1500_0001];
    let card = Card { steps: 5, words, ..Card::default() };
    let output = "executed=5\nraised=0\nreused=0\n\
        core=0 mode=0 pc=00000014 delay=0 sr=00008001\n\
        r3=fffffffd\nr4=ffffffeb\nr5=00000007\nend\n";
    assert_card(&File::Absent, &card.text(), output);
}

#[test]
fn form_faults() {
    let lines = [
        ("cores", "cores= 1"),
        ("cores", "cores=01"),
        ("cores", "cores=00"),
        ("cores", "cores="),
        ("cores", "cores=00000001"),
        ("cores", "cores=10000000"),
        ("cores", "cores=1\r"),
        ("cores", " cores=1"),
        ("cores", "Cores=1"),
        ("cores", ""),
        ("memory", "entry=00000000"),
        ("memory", "memory=+4096"),
        ("memory", "memory=4,096"),
        ("entry", "entry=0000000"),
        ("entry", "entry=000000000"),
        ("entry", "entry=0000000A"),
        ("entry", "entry=0x000000"),
        ("sr", "sr=8001"),
        ("sr", "sr=0000A001"),
        ("sr", "sr=0000000"),
        ("sr", "steps=6"),
        ("steps", "steps=-1"),
        ("schedule", "schedule="),
        ("schedule", "schedule=00000000000000000"),
        ("schedule", "schedule=0a"),
        ("schedule", "schedule=99999999999999999"),
        ("schedule", "schedule=9 "),
        ("words", "words=04"),
    ];
    for (key, text) in lines {
        assert_eq!(parse(&with_line(key, text)), fault(9, line_of(key)), "{text}");
    }
    for (place, text) in [(0, "w=9C600005"), (0, "w=9c60000"), (3, "W=15000000")] {
        let mut lines = example();
        lines[KEYS.len() + place] = text.to_string();
        assert_eq!(parse(&cards::join(&lines)), fault(9, KEYS.len() + place + 1), "{text}");
    }
}

#[test]
fn value_faults() {
    let lines = [
        ("cores", "cores=0"),
        ("cores", "cores=5"),
        ("cores", "cores=9999999"),
        ("memory", "memory=4092"),
        ("memory", "memory=4094"),
        ("memory", "memory=4098"),
        ("memory", "memory=16388"),
        ("entry", "entry=00000001"),
        ("entry", "entry=fffffffe"),
        ("sr", "sr=00000001"),
        ("sr", "sr=00008009"),
        ("sr", "sr=ffffffff"),
        ("steps", "steps=16385"),
        ("schedule", "schedule=1"),
        ("schedule", "schedule=0000000000000009"),
        ("words", "words=1025"),
    ];
    for (key, text) in lines {
        assert_eq!(parse(&with_line(key, text)), fault(10, line_of(key)), "{text}");
    }
}

#[test]
fn limits_that_are_good() {
    let lines = [
        ("cores", "cores=4"),
        ("memory", "memory=16384"),
        ("memory", "memory=4100"),
        ("entry", "entry=fffffffc"),
        ("sr", "sr=00008000"),
        ("sr", "sr=0000be07"),
        ("steps", "steps=0"),
        ("steps", "steps=16384"),
        ("schedule", "schedule=0000000000000000"),
    ];
    for (key, text) in lines {
        assert!(parse(&with_line(key, text)).is_ok(), "{text}");
    }
    let least = Card::default();
    assert!(parse(&least.text()).is_ok());
    // The most words there can be.
    let most = Card { memory: 16_384, words: vec![0x1500_0000; 4_096], ..least };
    assert!(parse(&most.text()).is_ok());
}

#[test]
fn missing_and_left_over_lines() {
    let lines = example();
    for count in 0..lines.len() {
        assert_eq!(parse(&cards::join(&lines[..count])), fault(9, count + 1));
        let mut unended = cards::join(&lines[..=count]);
        unended.pop();
        assert_eq!(parse(&unended), fault(9, count + 1));
    }
    for rest in ["\n", "w=00000000\n", "w", " "] {
        let card = format!("{EXAMPLE}{rest}");
        assert_eq!(parse(card.as_bytes()), fault(9, lines.len() + 1), "{rest:?}");
    }
}

#[test]
fn the_first_bad_line_counts_and_form_before_value() {
    let card = |first: &str, second: &str| {
        EXAMPLE.replace("cores=1", first).replace("memory=4096", second).into_bytes()
    };
    assert_eq!(parse(&card("cores=5", "memory=x")), fault(10, 1));
    assert_eq!(parse(&card("cores=x", "memory=0")), fault(9, 1));
    assert_eq!(parse(b"cores=5"), fault(9, 1));
    assert_eq!(parse(&with_line("schedule", "schedule=9x")), fault(9, line_of("schedule")));
}

#[test]
fn the_image_then_the_length_then_the_lines() {
    for length in [0, 4_096, IMAGE_BYTES - 1, IMAGE_BYTES + 1] {
        let mut image = vec![0xee; length];
        let long = vec![b'x'; 65_537];
        for card in [EXAMPLE.as_bytes(), &long, b"cores=5\n"] {
            assert_eq!(card::parse(card, &mut image), fault(1, 0));
        }
        assert!(image.iter().all(|&byte| byte == 0xee));
    }
    let mut card = with_line("cores", "cores=5");
    card.resize(65_536, b'\n');
    assert_eq!(parse(&card), fault(10, 1));
    card.push(b'\n');
    assert_eq!(parse(&card), fault(9, 0));
    let mut card = EXAMPLE.as_bytes().to_vec();
    card.resize(65_536, b'\n');
    assert_eq!(parse(&card), fault(9, example().len() + 1));
    assert_eq!(card::output(&File::Absent, &vec![b'0'; 65_537]), "refused=9 line=0\n");
}

#[test]
fn a_good_card_fills_the_first_bytes_alone() {
    for seed in 0..300 {
        let card = cards::good(&mut Rng::new(seed));
        let mut image = vec![0xee; IMAGE_BYTES];
        let job = card::parse(&card.text(), &mut image).expect("a good card");
        assert!(image[job.memory..].iter().all(|&byte| byte == 0xee), "seed {seed}");
        for (index, place) in image[..job.memory].chunks(4).enumerate() {
            let word = card.words.get(index).copied().unwrap_or(0);
            assert_eq!(place, word.to_be_bytes(), "seed {seed}");
        }
        let digits = card.schedule.as_bytes();
        for (index, entry) in job.schedule.iter().enumerate() {
            assert_eq!(entry + b'0', digits[index % digits.len()], "seed {seed}");
        }
        let read = (job.cores, job.memory, job.entry, job.sr, job.schedule.len());
        assert_eq!(read, (card.cores, card.memory, card.entry, card.sr, card.steps));
    }
}

#[test]
fn faulty_cards_leave_the_image_alone() {
    for seed in 1_000..4_000 {
        let mut rng = Rng::new(seed);
        let (text, expected) = cards::faulty_card(&mut rng);
        let mut image = vec![0xee; IMAGE_BYTES];
        let found = card::parse(&text, &mut image);
        let shown = String::from_utf8_lossy(&text[..text.len().min(400)]).into_owned();
        assert_eq!(found, Err(expected), "seed {seed}\n{shown}");
        assert!(image.iter().all(|&byte| byte == 0xee), "seed {seed}");
    }
}

#[test]
fn damaged_cards_by_two_readers() {
    let mut good = 0;
    for seed in 10_000..16_000 {
        let mut rng = Rng::new(seed);
        let text = cards::damaged_card(&mut rng);
        let shown = || String::from_utf8_lossy(&text).into_owned();
        match (parse(&text), by_lines::read(&text)) {
            (Ok(job), Ok(values)) => {
                good += 1;
                let (entry, sr) = (job.entry as usize, job.sr as usize);
                let seen = [job.cores, job.memory, entry, sr, job.schedule.len()];
                let seen = seen.map(|value| value as u64);
                assert_eq!(seen, values[..5], "seed {seed}\n{}", shown());
            }
            (Err(fault), Err(other)) => {
                assert_eq!((fault.refusal, fault.line), other, "seed {seed}\n{}", shown());
            }
            (one, other) => panic!("seed {seed}: {one:?}, {other:?}\n{}", shown()),
        }
    }
    assert!(good > 200, "only {good} damaged cards were good");
}

#[test]
fn good_cards_run_alike() {
    for engine in engines() {
        let pair = Pair { one: &BY_HISTORY, other: engine };
        pair.good_cards(20_000..20_300).unwrap_or_else(|text| panic!("{text}"));
    }
}

#[test]
fn good_cards_give_accepted_runs() {
    for seed in 30_000..30_300 {
        let text = cards::good_card(&mut Rng::new(seed));
        let job = parse(&text).expect("a good card");
        let case = Case {
            memory: vec![0; job.memory],
            sheets: job.sheets(),
            levels: vec![0; job.schedule.len()],
            schedule: job.schedule,
            limit: 0,
            vectors: OLD.to_vec(),
            table: vec![0; job.memory / 4],
        };
        assert_eq!(case.refusal(), 0, "seed {seed}");
    }
}
