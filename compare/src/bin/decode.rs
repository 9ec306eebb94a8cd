//! Speed of the archive's decoder and of this engine's, over all 2^32 words.
//!
//! The two take turns block by block, each now and then the first, so that other
//! work on the machine hits both alike. What counts is the ratio. Prints a line
//! for each and one for the ratio; progress goes to standard error.

use compare::check::{Codec, BY_CACHE};
use compare::engine::Archive;
use std::hint::black_box;
use std::time::{Duration, Instant};

/// All words are in one of these blocks.
const BLOCKS: u64 = 256;
const BLOCK_WORDS: u64 = (1 << 32) / BLOCKS;

struct Decoder {
    codec: &'static dyn Codec,
    time: Duration,
    /// Of all entries: what the times are spent on, and equal for both.
    sum: u64,
}

impl Decoder {
    fn new(codec: &'static dyn Codec) -> Decoder {
        Decoder { codec, time: Duration::ZERO, sum: 0 }
    }

    fn take(&mut self, block: u64) {
        // Both are called and not put into the loop, which only one could be.
        let codec = black_box(self.codec);
        let (first, end) = (block * BLOCK_WORDS, (block + 1) * BLOCK_WORDS);
        let start = Instant::now();
        for word in first..end {
            self.sum = self.sum.wrapping_add(codec.decode(word as u32));
        }
        black_box(self.sum);
        self.time += start.elapsed();
    }

    fn nanoseconds(&self) -> f64 {
        self.time.as_nanos() as f64 / (BLOCKS * BLOCK_WORDS) as f64
    }
}

fn main() {
    let (mut archive, mut rust) = (Decoder::new(&Archive), Decoder::new(&BY_CACHE));
    for block in 0..BLOCKS {
        let mut turn = [&mut archive, &mut rust];
        turn.rotate_left((block % 2) as usize);
        for decoder in turn {
            decoder.take(block);
        }
        if (block + 1).is_multiple_of(BLOCKS / 16) {
            eprintln!("decode: {} of {BLOCKS} blocks of {BLOCK_WORDS} words", block + 1);
        }
    }
    assert_eq!(archive.sum, rust.sum, "the entries differ");
    let times = [archive.nanoseconds(), rust.nanoseconds()];
    println!("archive: {:.3} ns a word", times[0]);
    println!("Rust: {:.3} ns a word", times[1]);
    println!("archive / Rust, ratio of speeds: {:.2}", times[1] / times[0]);
}
