//! Random levels of the interrupt lines (02, note 4).

use crate::rng::Rng;

/// A word of levels for each of so many entries: all low, now and then a line,
/// lines that stay high for a while, lines that a mask stops, or dice. The mask
/// is some core's at the start.
pub fn levels(rng: &mut Rng, entries: usize, mask: u32) -> Vec<u32> {
    let rare = rng.pick(&[6, 20, 60]);
    match rng.below(10) {
        0..=2 => vec![0; entries],
        3..=5 => (0..entries).map(|_| pulse(rng, rare, mask)).collect(),
        6 | 7 => stretches(rng, entries, mask),
        8 => (0..entries).map(|_| pulse(rng, rare, mask) | rng.next_u32() & !mask).collect(),
        _ => {
            let all = rng.pick(&[u32::MAX, 3, mask, 1 << 31]);
            (0..entries).map(|_| rng.next_u32() & rng.next_u32() & all).collect()
        }
    }
}

/// One line that no mask stops, that this one does not, or any.
fn line(rng: &mut Rng, mask: u32) -> u32 {
    let turn = rng.below(32) as u32;
    match rng.below(4) {
        0 => rng.pick(&[1, 2]),
        1 => 1 << turn,
        // The first of the mask's ones from some place on.
        _ => 1 << ((mask.rotate_right(turn).trailing_zeros() + turn) % 32),
    }
}

/// All low but once in `rare` times; then a line or, seldom, several.
fn pulse(rng: &mut Rng, rare: usize, mask: u32) -> u32 {
    if !rng.one_in(rare) {
        return 0;
    }
    if rng.one_in(8) {
        rng.next_u32()
    } else {
        line(rng, mask)
    }
}

/// A line that rises, stays high until it is served or longer, and falls.
fn stretches(rng: &mut Rng, entries: usize, mask: u32) -> Vec<u32> {
    let mut levels = Vec::with_capacity(entries);
    while levels.len() < entries {
        let (low, high) = (rng.between(1, 50), rng.between(1, 12));
        let line = line(rng, mask);
        levels.resize(entries.min(levels.len() + low), 0);
        levels.resize(entries.min(levels.len() + high), line);
    }
    levels
}
