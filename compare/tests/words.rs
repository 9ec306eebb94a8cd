//! Decoding and encoding: rows, round trips, damaged entries.

mod common;

use common::{fields, list};
use compare::check::BY_CACHE;
use compare::isa::{self, Insn, Kind, Reg, ILLEGAL_WORD, KINDS, NO_WORD, TABLE};
use compare::programs;
use compare::rng::Rng;

/// Rows that the two documents do not print, from document 01's list.
#[test]
fn rows_of_document_01_alone() {
    let rows = [
        (0x2100_1234, 9, 0x1234),
        (0x2200_ffff, 10, 0),
        (0x2280_0001, 11, 0),
        (0x2300_0000, 12, 0),
        (0xb865_ff3f, 29, 31),
        (0xb865_ff7f, 30, 31),
        (0xb865_ffa0, 31, 0),
        (0xb865_ffc1, 32, 1),
        (0xe065_fcc8, 57, 0),
        (0xe065_fc0c, 58, 0),
        (0xe065_fc4c, 59, 0),
        (0xe065_fc8c, 60, 0),
        (0xe065_fccc, 61, 0),
        (0xe065_fc0d, 62, 0),
        (0xe065_fc4d, 63, 0),
    ];
    for (word, kind, imm) in rows {
        let fields: u64 = match kind {
            9..=12 => 0,
            57 => 3 << 42 | 5 << 37 | 31 << 32,
            _ => 3 << 42 | 5 << 37,
        };
        assert_eq!(isa::decode(word), kind << 56 | fields | imm, "{word:08x}");
    }
}

/// Rows that document 02 alone gives, with every reserved bit set.
#[test]
fn rows_of_document_02_alone() {
    let (a, b, d) = (5 << 37, 6 << 32, 3 << 42);
    assert_eq!(isa::decode(0xc7e5_37f1), 86 << 56 | a | b);
    assert_eq!(isa::decode(0xc7e5_37f2), 87 << 56 | a | b);
    assert_eq!(isa::decode(0x187f_ffff), 88 << 56 | d);
    assert_eq!(isa::encode(86 << 56 | a | b), 0xc405_3001);
    assert_eq!(isa::encode(87 << 56 | a | b), 0xc405_3002);
    assert_eq!(isa::encode(88 << 56 | d), 0x1861_0000);
    for low in [0, 3, 4, 5, 6, 7, 8, 9, 10, 11, 12, 13, 14, 15] {
        assert_eq!(isa::decode(0xc405_3000 | low), 1 << 56, "{low:x}");
    }
    for entry in [86 << 56 | a | b | d, 87 << 56 | a | b | 1, 88 << 56 | d | a, 89 << 56] {
        assert_eq!(isa::encode(entry), NO_WORD, "{entry:016x}");
    }
}

#[test]
fn kinds_by_the_papers_list() {
    let mut rng = Rng::new(7);
    let mut words = programs::systematic_words(&mut rng);
    words.extend((0..200_000).map(|_| programs::any_word(&mut rng)));
    words.extend((0..200_000).map(|_| rng.next_u32()));
    for word in words {
        assert_eq!(isa::decode(word) >> 56, u64::from(list::kind_of(word)), "{word:08x}");
    }
}

fn check_word(word: u32) {
    let entry = isa::decode(word);
    let back = isa::encode(entry);
    assert!(back < NO_WORD, "word {word:08x}: its entry {entry:016x} is refused");
    assert_eq!(isa::decode(back as u32), entry, "word {word:08x}, back {back:08x}");
    let kind = Kind::from_number((entry >> 56) as u8).expect("a kind");
    if kind == Kind::Illegal {
        assert_eq!(back as u32, ILLEGAL_WORD, "word {word:08x}");
    } else {
        let reserved = isa::reserved_bits(kind);
        assert_eq!(back as u32, word & !reserved, "word {word:08x}");
    }
}

#[test]
fn round_trips_of_words() {
    let mut rng = Rng::new(3);
    for _ in 0..600_000 {
        check_word(programs::any_word(&mut rng));
        check_word(rng.next_u32());
    }
    for word in programs::systematic_words(&mut rng) {
        check_word(word);
    }
    // Every bottom half of some.
    for half in 0..=0xffff {
        for top in [0xe000, 0xe0a5, 0xb8a5, 0x4800, 0xf8a5, 0x18a0, 0x18a1, 0x2100, 0xc4a5] {
            check_word(top << 16 | half);
        }
    }
}

#[test]
fn reserved_bits_do_not_matter() {
    let mut rng = Rng::new(4);
    for _ in 0..200_000 {
        let kind = TABLE[rng.between(1, KINDS - 1)].kind;
        let word = programs::word_of_kind(&mut rng, kind);
        let other = word ^ rng.next_u32() & isa::reserved_bits(kind);
        assert_eq!(isa::decode(word), isa::decode(other), "{word:08x} {other:08x}");
    }
}

#[test]
fn the_encoder_turns_back_what_no_word_has_and_only_that() {
    let mut rng = Rng::new(5);
    for _ in 0..1_000_000 {
        let entry = programs::any_entry(&mut rng);
        let word = isa::encode(entry);
        if list::some_word_has(entry) {
            assert!(word < NO_WORD, "entry {entry:016x} is refused");
            assert_eq!(isa::decode(word as u32), entry, "entry {entry:016x}");
        } else {
            assert_eq!(word, NO_WORD, "entry {entry:016x}");
        }
    }
}

#[test]
fn every_single_bit_of_a_form() {
    let mut rng = Rng::new(6);
    for row in &TABLE {
        for _ in 0..40 {
            let entry = isa::decode(programs::word_of_kind(&mut rng, row.kind));
            for bit in 0..64 {
                let near = entry ^ 1 << bit;
                let refused = isa::encode(near) == NO_WORD;
                assert_eq!(refused, !list::some_word_has(near), "entry {near:016x}");
            }
        }
    }
}

/// 02, note 3: "carried as bytes, each shown to be below 32".
#[test]
fn a_register_is_a_byte_below_32() {
    assert_eq!((size_of::<Reg>(), size_of::<Insn>()), (1, 8));
    for number in 0..=255 {
        let register = Reg::new(number).map(Reg::number);
        assert_eq!(register, (number < 32).then_some(number));
    }
    for (entry, number) in [(u64::MAX, 31), (0xff00_8000_ffff_ffff, 0)] {
        let insn = Insn::from_entry(entry);
        assert_eq!([insn.d, insn.a, insn.b].map(Reg::number), [number; 3], "{entry:016x}");
    }
}

#[test]
fn register_fields() {
    fields::ask(&BY_CACHE).expect("this engine");
}

#[test]
fn kinds_are_counted_as_the_paper_counts_them() {
    for (index, row) in TABLE.iter().enumerate() {
        assert_eq!(row.kind as usize, index + 1);
        assert_eq!(row.value & !row.mask, 0);
    }
    assert_eq!((Kind::Cflush as usize, Kind::Mul as usize), (79, 80));
    assert_eq!((Kind::Macrc as usize, KINDS), (88, 88));
    assert_eq!(Kind::Lwa as u8, 16);
    assert_eq!(Kind::Sfeqi as u8, 33);
    assert_eq!(Kind::Mtspr as u8, 43);
    assert_eq!(Kind::Sfeq as u8, 67);
    assert_eq!(isa::encode(1 << 56), u64::from(ILLEGAL_WORD));
}
