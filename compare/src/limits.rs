//! Random limits of the read-only start of memory (02, note 5), and what makes
//! programs meet them.

use crate::cases::{self, Case};
use crate::programs;
use crate::rng::Rng;
use crate::runs;
use crate::state::{place, SHEET_WORDS};

/// Gives half of the cases a limit, and as a rule cores that point there.
pub fn throw(rng: &mut Rng, case: &mut Case) {
    if rng.one_in(2) {
        return;
    }
    case.limit = good(rng, case);
    if rng.one_in(8) {
        return;
    }
    let shared = case.limit.wrapping_add(rng.pick(&[0, 0u32.wrapping_sub(4)]));
    for core in 0..case.cores() {
        point(rng, case, core, shared);
        cases::plant(rng, case, core, 2, programs::probe_slot, programs::probe);
    }
}

/// A limit that is accepted: none, at memory's ends, anywhere, or near what a core
/// runs, points to or is linked to.
pub fn good(rng: &mut Rng, case: &Case) -> u32 {
    let bytes = case.memory.len() as u32;
    let sheet = &case.sheets[rng.below(case.cores()) * SHEET_WORDS..];
    let met = rng.pick(&[place::PC, place::PC, 1, 1, 2, 2, 3, place::LINK_ADDRESS]);
    let away = rng.pick(&[0, 0, 4, 4, 8, 20, 0u32.wrapping_sub(4), 0u32.wrapping_sub(16)]);
    let near = sheet[met].wrapping_add(away) & !3;
    match rng.below(16) {
        0 => rng.pick(&[0, 4, 8]),
        1 => rng.pick(&[bytes, bytes, bytes - 4, (bytes / 2) & !3]),
        2 => 4 * rng.below(bytes as usize / 4) as u32,
        _ if near <= bytes => near,
        _ => (bytes / 4) & !3,
    }
}

/// A limit that is turned back by 12.
pub fn wrong(rng: &mut Rng, case: &Case) -> u32 {
    let bytes = case.memory.len() as u32;
    let odd = rng.between(1, 3) as u32;
    let good = if case.limit < bytes { case.limit } else { 0 };
    let outside = [bytes + 4, bytes + 4, 2 * bytes, 4 * bytes, 0x10_0004, 0x8000_0000, 0xffff_fffc];
    let both = [bytes + odd, 0xffff_ffff, 0x8000_0001];
    let limit = match rng.below(4) {
        0 | 1 => good + odd,
        2 => rng.pick(&outside),
        _ => rng.pick(&both),
    };
    if runs::limit_is_good(&case.memory, limit) {
        bytes + 4
    } else {
        limit
    }
}

/// Makes r4 the limit, mostly, and r1 the shared word at it, with the link there,
/// if the core has one.
fn point(rng: &mut Rng, case: &mut Case, core: usize, shared: u32) {
    let limit = case.limit;
    let sheet = &mut case.sheets[core * SHEET_WORDS..(core + 1) * SHEET_WORDS];
    if !rng.one_in(4) {
        sheet[4] = limit;
    }
    if rng.one_in(2) {
        sheet[1] = shared;
        if sheet[place::LINK] == 1 && rng.one_in(2) {
            sheet[place::LINK_ADDRESS] = shared;
        }
    }
}
