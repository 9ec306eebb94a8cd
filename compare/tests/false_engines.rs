//! Engines that are wrong in ways documents 01 and 02 name: the battery must
//! stop each, with a message from which the case can be run again.

mod common;

use common::wrong_step::{assert_passed, assert_stopped, wrong, WrongStep};
use common::{list, show};
use compare::battery::{self, Pair};
use compare::card::{self, File};
use compare::check::{self, Codec, Engine, BY_CACHE, BY_HISTORY};
use compare::isa::{Kind, Reg};
use compare::runs::Lent;
use compare::state::{place, OV, OVE, SHEET_WORDS};

type Decode = fn(u32) -> u64;
type Encode = fn(u64) -> u64;
type Run = fn(&mut Lent) -> u64;

struct False {
    name: &'static str,
    decode: Decode,
    encode: Encode,
    plain: Run,
    fast: Run,
}

impl Codec for False {
    fn name(&self) -> &str {
        self.name
    }
    fn decode(&self, word: u32) -> u64 {
        (self.decode)(word)
    }
    fn encode(&self, entry: u64) -> u64 {
        (self.encode)(entry)
    }
}

impl Engine for False {
    fn plain_run(&self, lent: &mut Lent) -> u64 {
        (self.plain)(lent)
    }
    fn fast_run(&self, lent: &mut Lent) -> u64 {
        (self.fast)(lent)
    }
}

/// An engine that is right as yet.
const TRUE: False = False {
    name: "true",
    decode: |word| BY_CACHE.decode(word),
    encode: |entry| BY_CACHE.encode(entry),
    plain: |lent| BY_CACHE.plain_run(lent),
    fast: |lent| BY_CACHE.fast_run(lent),
};

/// Takes back the advance of cores that halted.
fn halt_early(sheets: &mut [u32], before: &[u32]) {
    for (now, then) in sheets.chunks_mut(SHEET_WORDS).zip(before.chunks(SHEET_WORDS)) {
        if now[place::MODE] != then[place::MODE] {
            now[place::PC] = now[place::PC].wrapping_sub(4);
        }
    }
}

/// Exchanges MACHI and MACLO on every whole sheet.
fn exchange(sheets: &mut [u32]) {
    for sheet in sheets.chunks_exact_mut(SHEET_WORDS) {
        sheet.swap(place::MACHI, place::MACLO);
    }
}

/// The same with the first entry alone.
fn first_entry<'a>(lent: &'a mut Lent) -> Lent<'a> {
    let first = lent.schedule.len().min(1);
    let (schedule, levels) = (&lent.schedule[..first], &lent.levels[..first]);
    Lent { schedule, levels, ..lent.again() }
}

const WRONG_RUNS: [False; 8] = [
    False {
        name: "has MACLO before MACHI on a sheet",
        plain: |lent| {
            exchange(lent.sheets);
            let answer = BY_CACHE.plain_run(lent);
            exchange(lent.sheets);
            answer
        },
        fast: |lent| {
            exchange(lent.sheets);
            let answer = BY_CACHE.fast_run(lent);
            exchange(lent.sheets);
            answer
        },
        ..TRUE
    },
    False {
        name: "never fills the table",
        fast: |lent| {
            let kept = lent.table.to_vec();
            let answer = BY_CACHE.fast_run(lent);
            lent.table.copy_from_slice(&kept);
            answer
        },
        ..TRUE
    },
    False {
        name: "invents a reused count",
        fast: |lent| {
            let answer = BY_CACHE.fast_run(lent);
            // One more whenever anything was raised.
            answer + ((answer >> 20 & 0xf_ffff).min(1) << 40)
        },
        ..TRUE
    },
    False {
        name: "runs the first entry and idles",
        plain: |lent| BY_CACHE.plain_run(&mut first_entry(lent)),
        fast: |lent| BY_CACHE.fast_run(&mut first_entry(lent)),
        ..TRUE
    },
    False {
        name: "halts a core before its l.nop 1",
        plain: |lent| {
            let before = lent.sheets.to_vec();
            let answer = BY_CACHE.plain_run(lent);
            halt_early(lent.sheets, &before);
            answer
        },
        fast: |lent| {
            let before = lent.sheets.to_vec();
            let answer = BY_CACHE.fast_run(lent);
            halt_early(lent.sheets, &before);
            answer
        },
        ..TRUE
    },
    False { name: "idles", plain: |_| 0, fast: |_| 0, ..TRUE },
    False { name: "turns everyone back", plain: |_| 1 << 60, fast: |_| 1 << 60, ..TRUE },
    False {
        name: "turns a filled table back",
        fast: |lent| {
            if lent.table.iter().all(|&entry| entry != 0) {
                return 7 << 60;
            }
            BY_CACHE.fast_run(lent)
        },
        ..TRUE
    },
];

#[test]
fn wrong_runs_are_stopped() {
    for engine in &WRONG_RUNS {
        assert_stopped(engine);
    }
    assert_passed(&TRUE);
}

const SUMS: &[Kind] = &[Kind::Addi, Kind::Addic];

const WRONG_SUMS: [WrongStep; 10] = [
    wrong("l.addi never raises", SUMS, |taken| {
        taken.end(taken.raised && taken.insn.kind != Kind::Addi)
    }),
    wrong("l.addic never raises", SUMS, |taken| {
        taken.end(taken.raised && taken.insn.kind != Kind::Addic)
    }),
    wrong("does not raise for r0", SUMS, |taken| {
        taken.end(taken.raised && taken.insn.d != Reg::R0)
    }),
    wrong("raises without OVE", SUMS, |taken| taken.end(taken.after.has(OV))),
    wrong("raises by the OV there was", SUMS, |taken| {
        taken.end(taken.before.has(OV) && taken.before.has(OVE))
    }),
    wrong("raises before rD is written", SUMS, |taken| {
        taken.if_raised(|after, before| after.regs = before.regs)
    }),
    wrong("ESR has the old flags", SUMS, |taken| {
        taken.if_raised(|after, before| after.esr = before.sr)
    }),
    wrong("EPCR is its own address in a slot", SUMS, |taken| {
        taken.if_raised(|after, before| after.epcr = before.pc)
    }),
    wrong("EEAR is its own address", SUMS, |taken| {
        taken.if_raised(|after, before| after.eear = before.pc)
    }),
    wrong("keeps the link", SUMS, |taken| {
        taken.if_raised(|after, before| {
            (after.link, after.link_address) = (before.link, before.link_address);
        })
    }),
];

/// 02, note 1: "raise range on OV with OVE, after rD and flags are written".
#[test]
fn wrong_immediate_sums_are_stopped() {
    for engine in &WRONG_SUMS {
        assert_stopped(engine);
    }
    // An engine that is right as yet.
    assert_passed(&wrong("true", SUMS, |taken| taken.end(taken.raised)));
    // Cards too have sums that raise.
    for engine in &WRONG_SUMS[..2] {
        let pair = Pair { one: &BY_HISTORY, other: engine };
        assert!(pair.good_cards(0..300).is_err(), "{}", engine.name);
    }
}

#[test]
fn a_run_that_writes_before_it_refuses_is_stopped() {
    let engine = False {
        name: "writes before it refuses",
        fast: |lent| {
            let answer = BY_CACHE.fast_run(lent);
            if answer >> 60 == 7 {
                lent.table[0] ^= 1;
            }
            answer
        },
        ..TRUE
    };
    let pair = Pair { one: &BY_HISTORY, other: &engine };
    assert!(pair.broken_cases(0..300).is_err());
}

/// Runs sheets of an old length, with what later notes put after each, all others
/// as they are.
fn widened(lent: &mut Lent, old: usize, run: Run) -> u64 {
    let cores = lent.sheets.len() / old;
    if !lent.sheets.len().is_multiple_of(old) || !(1..=4).contains(&cores) {
        return run(lent);
    }
    let mut wide = card::reset_sheets(cores, 0);
    for (to, from) in wide.chunks_mut(SHEET_WORDS).zip(lent.sheets.chunks(old)) {
        to[..old].copy_from_slice(from);
    }
    let answer = run(&mut Lent { sheets: &mut wide, ..lent.again() });
    for (to, from) in lent.sheets.chunks_mut(old).zip(wide.chunks(SHEET_WORDS)) {
        to.copy_from_slice(&from[..old]);
    }
    answer
}

const OLD_SHEETS: [False; 2] = [
    False {
        name: "takes sheets of 42 words",
        plain: |lent| widened(lent, 42, TRUE.plain),
        fast: |lent| widened(lent, 42, TRUE.fast),
        ..TRUE
    },
    False {
        name: "takes sheets of 44 words",
        plain: |lent| widened(lent, 44, TRUE.plain),
        fast: |lent| widened(lent, 44, TRUE.fast),
        ..TRUE
    },
];

/// 02, note 2: "Sheets grow to 44 words"; note 4: "46 words in all".
#[test]
fn a_run_that_takes_old_sheets_is_stopped() {
    for engine in &OLD_SHEETS {
        let pair = Pair { one: &BY_HISTORY, other: engine };
        assert!(pair.broken_cases(0..300).is_err(), "{}", engine.name);
        assert_eq!(pair.accepted_cases(0..20, 20), Ok(()), "{}", engine.name);
    }
}

/// A decoder that takes l.jalr naming r9 for any other.
fn with_jalr_r9(word: u32) -> u64 {
    if word & 0xfc00_f800 == 0x4800_4800 {
        15 << 56 | 9 << 32
    } else {
        BY_CACHE.decode(word)
    }
}

#[test]
fn wrong_decoders_are_stopped() {
    let illegal = False { name: "illegal always", decode: |_| 1 << 56, ..TRUE };
    let pair = Pair { one: &BY_CACHE, other: &illegal };
    assert!(pair.words(1, 100).is_err());
    let linking = False { name: "takes l.jalr r9", decode: with_jalr_r9, ..TRUE };
    assert!(Pair { one: &BY_CACHE, other: &linking }.words(1, 100).is_err());
    let same = Pair { one: &BY_CACHE, other: &TRUE };
    assert_eq!(same.words(1, 100), Ok(()));
    assert_eq!(same.entries(1, 100), Ok(()));
}

/// The entry of a kind with a word's D, A and B.
fn with_fields(kind: u64, word: u32) -> u64 {
    let field = |place: u32| u64::from(word >> place & 31);
    kind << 56 | field(21) << 42 | field(16) << 37 | field(11) << 32
}

/// The entry that one kind's words get if they are read another way.
fn read_as(word: u32, mask: u32, value: u32, other: impl Fn(u32) -> u64) -> u64 {
    if word & mask == value {
        other(word)
    } else {
        BY_CACHE.decode(word)
    }
}

/// Note 2's rows, each read wrongly in one way.
const WRONG_ROWS: [(&str, Decode); 8] = [
    ("takes opcode 31 with bits 3-0 = 3 for l.mac", |word| {
        read_as(word, 0xfc00_000f, 0xc400_0003, |word| with_fields(86, word & 0x001f_f800))
    }),
    ("takes opcode 31 with bits 3-0 = 0 for l.mac", |word| {
        read_as(word, 0xfc00_000f, 0xc400_0000, |word| with_fields(86, word & 0x001f_f800))
    }),
    ("zero-extends l.muli's immediate", |word| {
        read_as(word, 0xfc00_0000, 0xb000_0000, |word| BY_CACHE.decode(word) & !0xffff_0000)
    }),
    ("keeps D of l.mac", |word| {
        read_as(word, 0xfc00_000f, 0xc400_0001, |word| with_fields(86, word & 0x03ff_f800))
    }),
    ("splits l.maci's immediate like a store's", |word| {
        read_as(word, 0xfc00_0000, 0x4c00_0000, |word| {
            let half = (word >> 10 & 0xf800 | word & 0x07ff) as u16;
            with_fields(85, word & 0x001f_0000) | u64::from(half as i16 as u32)
        })
    }),
    ("wants bits 15-0 of l.macrc to be 0", |word| match word & 0xffff {
        0 => BY_CACHE.decode(word),
        _ => read_as(word, 0xfc01_0000, 0x1801_0000, |_| 1 << 56),
    }),
    ("takes l.mul with bits 9-8 = 0", |word| {
        read_as(word, 0xfc00_030f, 0xe000_0006, |word| with_fields(80, word))
    }),
    ("has l.div and l.divu exchanged", |word| {
        read_as(word, 0xfc00_030f, 0xe000_0309, |word| with_fields(84, word))
    }),
];

#[test]
fn wrong_rows_are_stopped() {
    for (name, decode) in WRONG_ROWS {
        let engine = False { name, decode, ..TRUE };
        assert!(Pair { one: &BY_CACHE, other: &engine }.words(1, 100).is_err(), "{name}");
    }
}

/// A decoder that cuts so many bits for one field, of kinds that have it.
fn cut(word: u32, field: usize, bits: u32) -> u64 {
    let entry = BY_CACHE.decode(word);
    if !list::has_fields(entry >> 56)[field] {
        return entry;
    }
    let number = u64::from(word >> list::IN_WORD[field] & ((1 << bits) - 1));
    entry & !(31 << list::IN_ENTRY[field]) | number << list::IN_ENTRY[field]
}

/// A decoder that looks at so many bits of B to see whether l.jalr names r9.
fn jalr_by(word: u32, bits: u32) -> u64 {
    read_as(word, 0xfc00_0000, 0x4800_0000, |word| match word >> 11 & ((1 << bits) - 1) {
        9 => 1 << 56,
        _ => 15 << 56 | u64::from(word >> 11 & 31) << 32,
    })
}

/// An encoder that does not look at some bits of entries whose kind has D or
/// not.
fn encode_without(entry: u64, bits: u64, has_d: bool) -> u64 {
    if list::has_fields(entry >> 56)[0] == has_d {
        BY_CACHE.encode(entry & !bits)
    } else {
        BY_CACHE.encode(entry)
    }
}

const fn decoder(name: &'static str, decode: Decode) -> False {
    False { name, decode, ..TRUE }
}

const fn encoder(name: &'static str, encode: Encode) -> False {
    False { name, encode, ..TRUE }
}

/// Bits 55-47 of an entry, which are above D.
const ABOVE_D: u64 = 0x1ff << 47;

/// Wrong in the number of a register, each in one way. A sixth bit of A does not
/// show where the kind has D: it is D's lowest in the word and in the entry
/// alike. So it is with B and A.
const WRONG_REGISTERS: [False; 17] = [
    decoder("cuts six bits for D", |word| cut(word, 0, 6)),
    decoder("takes a whole byte for D", |word| cut(word, 0, 8)),
    decoder("cuts four bits for D", |word| cut(word, 0, 4)),
    decoder("cuts six bits for A", |word| cut(word, 1, 6)),
    decoder("takes a whole byte for A", |word| cut(word, 1, 8)),
    decoder("packs A into the byte after B", |word| cut(word, 1, 3)),
    decoder("cuts six bits for B", |word| cut(word, 2, 6)),
    decoder("takes a whole byte for B", |word| cut(word, 2, 8)),
    decoder("cuts four bits for B", |word| cut(word, 2, 4)),
    decoder("looks for r9 in six bits", |word| jalr_by(word, 6)),
    decoder("looks for r9 in four bits", |word| jalr_by(word, 4)),
    encoder("takes six bits for D and masks them", |entry| encode_without(entry, 1 << 47, true)),
    encoder("takes a byte for D and masks it", |entry| encode_without(entry, 7 << 47, true)),
    encoder("masks D where there is none", |entry| encode_without(entry, 31 << 42, false)),
    encoder("drops bits 55-47 where D is", |entry| encode_without(entry, ABOVE_D, true)),
    encoder("drops bits 55-47 where no D is", |entry| encode_without(entry, ABOVE_D, false)),
    encoder("writes l.jalr r9", |entry| match entry {
        0x0f00_0009_0000_0000 => 0x4800_4800,
        _ => BY_CACHE.encode(entry),
    }),
];

/// Asks again for the word or entry that a message names.
fn ask_again(pair: &Pair, text: &str) -> Result<(), String> {
    let mut parts = text.split([' ', ':']).skip_while(|part| !["word", "entry"].contains(part));
    let (what, digits) = (parts.next(), parts.next().expect("a number"));
    let number = u64::from_str_radix(digits, 16).expect("hexadecimal digits");
    match what {
        Some("word") => check::same_word(pair.one, pair.other, number as u32),
        _ => check::same_entry(pair.one, pair.other, number),
    }
}

/// 02, note 3: "carried as bytes, each shown to be below 32. Entries, answers
/// and refusals remain".
#[test]
fn wrong_register_numbers_are_stopped() {
    for engine in &WRONG_REGISTERS {
        let pair = Pair { one: &BY_CACHE, other: engine };
        let asked = pair.words(1, 100).and_then(|()| pair.entries(1, 100));
        let text = asked.expect_err(engine.name);
        show(&text);
        assert!(text.starts_with("seed 1: "), "{text}");
        assert!(ask_again(&pair, &text).is_err(), "{}: {text}", engine.name);
    }
}

#[test]
fn wrong_runners_are_stopped() {
    let mut right = |file: &File, card: &[u8]| card::output(file, card);
    assert_eq!(battery::printed_cards(0..300, &mut right), Ok(()));
    let mut wrong =
        |file: &File, card: &[u8]| card::output(file, card).replace("line=1\n", "line=2\n");
    let text = battery::printed_cards(0..300, &mut wrong).expect_err("a wrong line");
    assert!(text.starts_with("seed "), "{text}");
}
