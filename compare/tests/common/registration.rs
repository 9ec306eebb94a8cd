//! What `programs/products.c` must leave, worked out here by other means: 64-bit
//! numbers where it has halves, and sums where it accumulates.

use super::Xorshift;

const EDGES: [u32; 12] = [
    0,
    1,
    2,
    7,
    0x7fff,
    0x8000,
    0xb505,
    0x1_0000,
    0x7fff_ffff,
    0x8000_0000,
    0xffff_8000,
    0xffff_ffff,
];
const PAIRS: usize = 200;
const REACH: i64 = 8;
const SHIFT: usize = 5;

/// What C leaves open, as note 2 of document 02 decides it, and the count of
/// range exceptions.
pub const BOARD: [u32; 13] = [
    0x8000_0000,
    0x22,
    0x33,
    // OV, CY and CY.
    0x800,
    0x400,
    0x400,
    // With overflow traps: the first three raise.
    0x44,
    0x55,
    0x8000_0000,
    0x2_0001,
    0x8000_0000,
    0,
    3,
];

/// The edges with each other, then random numbers of any length.
fn pairs() -> Vec<(u32, u32)> {
    let mut pairs: Vec<(u32, u32)> =
        EDGES.iter().flat_map(|&a| EDGES.iter().map(move |&b| (a, b))).collect();
    let mut state = Xorshift(6);
    while pairs.len() < PAIRS {
        let shifts = state.next();
        let mut shifted = |by: u32| (state.next() as i32 >> (by & 31)) as u32;
        pairs.push((shifted(shifts), shifted(shifts >> 5)));
    }
    pairs
}

/// The eight results of a pair, in the struct's order.
fn of_pair((a, b): (u32, u32)) -> [u32; 8] {
    let product = u64::from(a) * u64::from(b);
    let mut results = [product as u32, (product >> 32) as u32, 0, 0, 0, 0, 0, 0];
    if b != 0 {
        let (wide, by) = (u64::from(a % b) << 32 | u64::from(a), u64::from(b));
        (results[2], results[3]) = (a / b, a % b);
        (results[6], results[7]) = ((wide / by) as u32, (wide % by) as u32);
    }
    if let Some(quotient) = (a as i32).checked_div(b as i32) {
        (results[4], results[5]) =
            (quotient as u32, a.wrapping_sub(b.wrapping_mul(quotient as u32)));
    }
    results
}

fn bands() -> (Vec<i64>, Vec<i64>) {
    let mut state = Xorshift(7);
    let first: Vec<i64> = (0..64).map(|_| i64::from(state.next() & 0x3ff) - 512).collect();
    let mut weaker = |i: usize| {
        let seen = if i < SHIFT { 0 } else { first[i - SHIFT] };
        (seen * 3 - i64::from(state.next() & 15)) / 5
    };
    let second = (0..64).map(&mut weaker).collect();
    (first, second)
}

/// The values of both bands at the places that an offset gives to both.
fn overlap(first: &[i64], second: &[i64], offset: i64) -> Vec<(i64, i64)> {
    let places = first.iter().zip(0..);
    places
        .filter_map(|(&x, i)| {
            let place = usize::try_from(i + offset).ok()?;
            Some((x, *second.get(place)?))
        })
        .collect()
}

/// Means times 37, the slope in thousandths and the match's vertex in 256ths.
fn fitted(both: &[(i64, i64)], around: [i64; 3]) -> [i64; 4] {
    let sum = |term: fn(&(i64, i64)) -> i64| both.iter().map(term).sum::<i64>();
    let (count, x, y) = (both.len() as i64, sum(|pair| pair.0), sum(|pair| pair.1));
    let (xx, xy) = (sum(|(x, _)| x * x), sum(|(x, y)| x * y));
    let slope = (count * xy - x * y) / ((count * xx - x * x) / 1_000);
    let [before, at, after] = around.map(|sum| sum / 256);
    let vertex = 256 * (before - after) / (2 * (before - 2 * at + after));
    [37 * x / count, 37 * y / count, slope, vertex]
}

/// The words of the struct of results up to what needs the board.
pub fn results() -> Vec<u32> {
    let of_pairs: Vec<[u32; 8]> = pairs().into_iter().map(of_pair).collect();
    let mut words: Vec<u32> =
        (0..8).flat_map(|field| of_pairs.iter().map(move |results| results[field])).collect();
    let (first, second) = bands();
    let product_sum =
        |offset: i64| -> i64 { overlap(&first, &second, offset).iter().map(|(x, y)| x * y).sum() };
    let matches: Vec<i64> = (-REACH..=REACH).map(product_sum).collect();
    let fine: Vec<i64> = matches.iter().map(|sum| 4_096 * sum).collect();
    words.extend(matches.iter().map(|&sum| sum as u32));
    words.extend(fine.iter().map(|sum| (sum >> 32) as u32));
    words.extend(fine.iter().map(|&sum| sum as u32));
    let squares = |band: &[i64]| band.iter().map(|x| x * x).sum::<i64>();
    let energy = squares(&first) - squares(&second) - 3 * second.iter().sum::<i64>();
    let most = matches.iter().max().expect("offsets");
    let index = matches.iter().position(|sum| sum == most).expect("the greatest");
    let best = index as i64 - REACH;
    let around = [matches[index - 1], matches[index], matches[index + 1]];
    let fit = fitted(&overlap(&first, &second, best), around);
    words.extend([(energy >> 32) as u32, energy as u32, best as u32]);
    words.extend(fit.map(|number| number as u32));
    words
}
