//! The engine under test against this one, on words and entries.
//!
//! By default a stated part of the 2^32 words; all of them if the environment
//! has OR1K_ALL_WORDS.
#![cfg(feature = "engine")]

mod common;

use common::fields;
use compare::battery;
use compare::check::{self, Codec, BY_HISTORY};
use compare::engine::Archive;
use compare::programs;
use compare::rng::Rng;
use std::ops::Range;
use std::sync::atomic::{AtomicU64, Ordering};
use std::thread;

const THREADS: u64 = 2;
/// Words are taken and counted in this many blocks.
const BLOCKS: u64 = 1 << 12;
const BLOCK_WORDS: u64 = (1 << 32) / BLOCKS;
/// The default step from word to word. It is odd, so that its multiples go
/// through all values of the low bits.
const STRIDE: u64 = 23;

/// Compares the word's entry and the word that this entry encodes to.
fn same(word: u32) -> Result<(), String> {
    check::same_word(&BY_HISTORY, &Archive, word)?;
    check::same_entry(&BY_HISTORY, &Archive, BY_HISTORY.decode(word))
}

fn progress(done: u64) {
    if done.is_multiple_of(BLOCKS / 16) {
        common::show(&format!("words: {done} of {BLOCKS} blocks compared"));
    }
}

/// Compares the multiples of the stride in these blocks.
fn compare_blocks(blocks: Range<u64>, stride: u64, done: &AtomicU64) -> Result<(), String> {
    for block in blocks {
        let (first, end) = (block * BLOCK_WORDS, (block + 1) * BLOCK_WORDS);
        let mut word = first.next_multiple_of(stride);
        while word < end {
            same(word as u32)?;
            word += stride;
        }
        progress(done.fetch_add(1, Ordering::Relaxed) + 1);
    }
    Ok(())
}

fn compare_multiples(stride: u64) -> Result<(), String> {
    let done = &AtomicU64::new(0);
    let share = BLOCKS / THREADS;
    thread::scope(|scope| {
        let parts = (0..THREADS).map(|k| k * share..(k + 1) * share);
        let workers: Vec<_> =
            parts.map(|part| scope.spawn(move || compare_blocks(part, stride, done))).collect();
        workers.into_iter().try_for_each(|worker| worker.join().expect("no panic"))
    })
}

#[test]
fn words_by_stride() {
    let all = std::env::var_os("OR1K_ALL_WORDS").is_some();
    compare_multiples(if all { 1 } else { STRIDE }).unwrap();
}

/// Every top half with some bottom halves, and every bottom half under every
/// opcode with some bits between: the bits that any row tests in all values.
#[test]
fn words_by_rows() {
    for half in 0..=0xffff {
        for low in [0, 0x4800, 0x5555, 0xaaaa, 0xffff] {
            same(half << 16 | low).unwrap();
        }
        for opcode in 0..64 {
            for middle in [0, 0x155, 0x2aa, 0x3ff] {
                same(opcode << 26 | middle << 16 | half).unwrap();
            }
        }
    }
}

#[test]
fn random_words() {
    for seed in 0..8 {
        battery::words(&BY_HISTORY, &Archive, seed, 1_000_000).unwrap();
    }
}

#[test]
fn random_entries() {
    for seed in 0..8 {
        battery::entries(&BY_HISTORY, &Archive, seed, 1_000_000).unwrap();
    }
}

/// 02, note 3: D, A and B in every value, and just outside their places.
#[test]
fn register_fields() {
    fields::ask(&Archive).expect("archive");
}

/// Entries of words of every kind with each one bit changed.
#[test]
fn entries_one_bit_off() {
    let mut rng = Rng::new(9);
    for _ in 0..400_000 {
        let entry = BY_HISTORY.decode(programs::any_word(&mut rng));
        for bit in 0..64 {
            check::same_entry(&BY_HISTORY, &Archive, entry ^ 1 << bit).unwrap();
        }
    }
}

/// Any 64-bit numbers, and every kind byte over zero fields and over full ones.
#[test]
fn any_numbers() {
    let mut rng = Rng::new(10);
    for _ in 0..4_000_000 {
        check::same_entry(&BY_HISTORY, &Archive, rng.next_u64()).unwrap();
    }
    for kind in 0..256u64 {
        for fields in [0, 0x7fff_ffff_ffff, 0xff_ffff_ffff_ffff] {
            check::same_entry(&BY_HISTORY, &Archive, kind << 56 | fields).unwrap();
        }
    }
}
