//! Note 3 of document 02: "Entries, answers and refusals remain as they stood
//! before this note, for every word and every 64-bit number."
//!
//! Digests of the decoder's and the encoder's answers, pinned. By default of a
//! stated part of the 2^32 words; of all if the environment has OR1K_ALL_WORDS.
//!
//! A digest that differs does not tell where: with the feature `engine`,
//! `tests/archive.rs` names the word or entry.

mod common;

use common::show;
use compare::check::{Codec, BY_CACHE};
use compare::isa::{KINDS, NO_WORD};
use compare::rng::Rng;
use std::thread;

// These were printed by this test, by both engines alike, when neither had a
// line of note 3: at commit 3bed926, with which note 2 landed. The last one
// hangs on `Rng` too.

/// The words that are multiples of `STRIDE`: of their entries, and of what the
/// encoder makes of these.
const OF_MULTIPLES: [u64; 2] = [0x0771_fca7_f06e_f435, 0x8c61_55d0_5fbe_0ce2];
/// The same of all words. The encoder's is of every entry that it accepts.
const OF_ALL_WORDS: [u64; 2] = [0x6bde_99bc_664d_ce65, 0xe71a_fe63_d267_6c15];
/// What the encoder makes of `numbers`.
const OF_NUMBERS: u64 = 0x78c1_e89e_78d4_ef9c;

/// It is odd, so that its multiples go through all values of the low bits.
const STRIDE: u64 = 37;
const THREADS: u64 = 2;
/// One for each opcode.
const BLOCKS: u64 = 64;
const BLOCK_WORDS: u64 = (1 << 32) / BLOCKS;

/// Depends on the order, and one number that differs makes another of it: each
/// step can be undone, given either what was there or the number.
struct Digest(u64);

impl Digest {
    fn add(&mut self, number: u64) {
        self.0 = (self.0 ^ number).wrapping_mul(0x9e37_79b9_7f4a_7c15).rotate_left(29);
    }
}

type Shared = &'static (dyn Codec + Sync);

fn codecs() -> Vec<Shared> {
    vec![
        &BY_CACHE,
        #[cfg(feature = "engine")]
        &compare::engine::Archive,
    ]
}

/// Of the multiples of the stride in a block.
fn of_block(codec: Shared, block: u64, stride: u64) -> [u64; 2] {
    let (mut entries, mut words) = (Digest(block), Digest(block));
    let mut word = (block * BLOCK_WORDS).next_multiple_of(stride);
    while word < (block + 1) * BLOCK_WORDS {
        let entry = codec.decode(word as u32);
        entries.add(entry);
        words.add(codec.encode(entry));
        word += stride;
    }
    if stride == 1 {
        show(&format!("{}: words of opcode {block:02x} decoded and encoded", codec.name()));
    }
    [entries.0, words.0]
}

/// Of all blocks in their order, which the threads do not change.
fn of_words(codec: Shared, stride: u64) -> [u64; 2] {
    let share = BLOCKS / THREADS;
    let part = |first: u64| {
        move || (first..first + share).map(|block| of_block(codec, block, stride)).collect()
    };
    let parts: Vec<Vec<[u64; 2]>> = thread::scope(|scope| {
        let workers: Vec<_> = (0..THREADS).map(|k| scope.spawn(part(k * share))).collect();
        workers.into_iter().map(|worker| worker.join().expect("no panic")).collect()
    });
    let (mut entries, mut words) = (Digest(0), Digest(0));
    for [of_entries, of_words] in parts.concat() {
        entries.add(of_entries);
        words.add(of_words);
    }
    [entries.0, words.0]
}

#[test]
fn words_have_the_entries_they_had() {
    let all = std::env::var_os("OR1K_ALL_WORDS").is_some();
    let (stride, before) = if all { (1, OF_ALL_WORDS) } else { (STRIDE, OF_MULTIPLES) };
    let of_codec = |codec: Shared| {
        let (now, name) = (of_words(codec, stride), codec.name());
        show(&format!("{name}: multiples of {stride}: digests {now:016x?}"));
        now == before
    };
    let same: Vec<bool> = codecs().into_iter().map(of_codec).collect();
    assert!(same.iter().all(|&same| same), "not as before: {before:016x?}");
}

/// The immediates that some kind may have, or just not.
const IMMEDIATES: [u32; 14] = [
    0,
    1,
    4,
    0x1f,
    0x20,
    0x7fff,
    0x8000,
    0xffff,
    0x1_0000,
    0xffff_8000,
    0xffff_7fff,
    0x07ff_fffc,
    0xf800_0000,
    0xffff_ffff,
];

/// Every kind byte over random registers, every choice of D, A and B being
/// there and the others 0, and over these immediates, all twice. Among them are
/// entries of every kind there is. No engine has a part in them.
fn forms(rng: &mut Rng) -> Vec<u64> {
    let mut forms = Vec::new();
    for kind in 0..256 {
        for fields in 0..8u64 {
            let five = |field: u64| 31 * (fields >> field & 1);
            let mask = five(2) << 42 | five(1) << 37 | five(0) << 32;
            for imm in [IMMEDIATES, IMMEDIATES].concat() {
                forms.push(kind << 56 | rng.next_u64() & mask | u64::from(imm));
            }
        }
    }
    forms
}

/// Forms, each with each one bit off, every kind byte over full fields, and
/// random numbers of any length.
fn numbers() -> Vec<u64> {
    let mut rng = Rng::new(3);
    let mut numbers = forms(&mut rng);
    let near = |form: &u64| [*form; 64].into_iter().zip(0..).map(|(form, bit)| form ^ 1 << bit);
    numbers.extend(numbers.clone().iter().flat_map(near));
    for kind in 0..256 {
        numbers.extend([0x7fff_ffff_ffff, 0xff_ffff_ffff_ffff].map(|rest| kind << 56 | rest));
    }
    numbers.extend((0..1_000_000).map(|_| rng.next_u64()));
    numbers.extend((0..1_000_000).map(|_| rng.next_u64() >> rng.below(64)));
    numbers
}

/// Of the numbers' words and refusals, and how many of each kind have a word.
fn of_numbers(codec: Shared, numbers: &[u64]) -> (u64, [u32; 256]) {
    let (mut digest, mut accepted) = (Digest(0), [0; 256]);
    for &number in numbers {
        let word = codec.encode(number);
        digest.add(word);
        accepted[(number >> 56) as usize] += u32::from(word != NO_WORD);
    }
    (digest.0, accepted)
}

#[test]
fn numbers_have_the_words_and_refusals_they_had() {
    let numbers = numbers();
    let of_codec = |codec: Shared| {
        let (now, accepted) = of_numbers(codec, &numbers);
        let (count, name) = (accepted.iter().sum::<u32>(), codec.name());
        let least = *accepted[1..=KINDS].iter().min().expect("kinds");
        show(&format!("{name}: {} numbers, {count} with a word", numbers.len()));
        show(&format!("{name}: of each kind {least} or more, digest {now:016x}"));
        now == OF_NUMBERS && count >= 70_000 && least >= 25
    };
    let same: Vec<bool> = codecs().into_iter().map(of_codec).collect();
    assert!(same.iter().all(|&same| same), "not as before: {OF_NUMBERS:016x}");
}
