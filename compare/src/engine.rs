//! The engine under test, through the C functions of its archive.

use crate::check::{Codec, Engine};
use crate::runs::Lent;

// As include/or1k.h declares them: a slice is a pointer and a count of items.
extern "C" {
    fn or1k_decode(word: u32) -> u64;
    fn or1k_encode(entry: u64) -> u64;
    fn or1k_plain_run(
        memory: *mut u8,
        memory_length: usize,
        states: *mut u32,
        states_length: usize,
        schedule: *const u8,
        schedule_length: usize,
        levels: *const u32,
        levels_length: usize,
        limit: u32,
        vectors: *const u32,
        vectors_length: usize,
    ) -> u64;
    fn or1k_fast_run(
        memory: *mut u8,
        memory_length: usize,
        states: *mut u32,
        states_length: usize,
        schedule: *const u8,
        schedule_length: usize,
        levels: *const u32,
        levels_length: usize,
        limit: u32,
        vectors: *const u32,
        vectors_length: usize,
        cache: *mut u64,
        cache_length: usize,
    ) -> u64;
}

pub struct Archive;

impl Codec for Archive {
    fn name(&self) -> &str {
        "archive"
    }
    fn decode(&self, word: u32) -> u64 {
        // SAFETY: a number goes in and one comes out; every number is accepted.
        unsafe { or1k_decode(word) }
    }
    fn encode(&self, entry: u64) -> u64 {
        // SAFETY: as above.
        unsafe { or1k_encode(entry) }
    }
}

impl Engine for Archive {
    fn plain_run(&self, lent: &mut Lent) -> u64 {
        // SAFETY: each pointer is a slice's and goes with that slice's length,
        // and no two mutable slices overlap. The functions require nothing of
        // lengths, items or the limit: what they do not run they refuse.
        unsafe {
            or1k_plain_run(
                lent.memory.as_mut_ptr(),
                lent.memory.len(),
                lent.sheets.as_mut_ptr(),
                lent.sheets.len(),
                lent.schedule.as_ptr(),
                lent.schedule.len(),
                lent.levels.as_ptr(),
                lent.levels.len(),
                lent.limit,
                lent.vectors.as_ptr(),
                lent.vectors.len(),
            )
        }
    }
    fn fast_run(&self, lent: &mut Lent) -> u64 {
        // SAFETY: as above.
        unsafe {
            or1k_fast_run(
                lent.memory.as_mut_ptr(),
                lent.memory.len(),
                lent.sheets.as_mut_ptr(),
                lent.sheets.len(),
                lent.schedule.as_ptr(),
                lent.schedule.len(),
                lent.levels.as_ptr(),
                lent.levels.len(),
                lent.limit,
                lent.vectors.as_ptr(),
                lent.vectors.len(),
                lent.table.as_mut_ptr(),
                lent.table.len(),
            )
        }
    }
}
