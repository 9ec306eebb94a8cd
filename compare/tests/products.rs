//! Single instructions of note 2 of document 02: products, quotients and
//! accumulators, each sentence on numbers worked out by hand.

mod common;

use common::{asm, engines, on_two, Bench, BYTES};
use compare::card;
use compare::cases::Case;
use compare::check;
use compare::exec::Cause;
use compare::isa::{self, Kind};
use compare::rng::Rng;
use compare::runs::Answer;
use compare::state::{place, Core, CY, DSX, F, IEE, OV, OVE, TEE};
use compare::vectors::OLD;

const SR: u32 = 0x8001;
const LEAST: u32 = 0x8000_0000;
const MOST: u32 = 0x7fff_ffff;
const MINUS_1: u32 = 0xffff_ffff;

/// rD <- r3 op y, where y is r4 or the immediate.
fn word_of(kind: Kind, d: u8, y: u32) -> u32 {
    match kind {
        Kind::Muli => asm(kind, d, 3, 0, y),
        _ => asm(kind, d, 3, 4, 0),
    }
}

/// r5, CY and OV after r5 <- r3 op y; F is kept, and nothing raises.
fn result(kind: Kind, x: u32, y: u32) -> (u32, bool, bool) {
    let [first, second] = [SR | F, SR | CY | OV].map(|sr| {
        let (bench, step) = on_two(word_of(kind, 5, y), sr, x, y);
        let core = &bench.cores[0];
        assert_eq!((step.raised, core.pc), (None, 0x104), "{kind:?} {x:x} {y:x}");
        assert_eq!(core.sr & !(CY | OV), sr & !(CY | OV));
        (core.regs[5], core.has(CY), core.has(OV))
    });
    assert_eq!(first, second, "{kind:?} {x:x} {y:x}: the flags there were do not matter");
    first
}

/// Factors, the low word, CY (the unsigned product does not fit) and OV (the
/// signed one does not).
const PRODUCTS: [(u32, u32, u32, bool, bool); 17] = [
    (3, 5, 15, false, false),
    (0, MINUS_1, 0, false, false),
    // -1 times 1, and 4294967295 times 1.
    (MINUS_1, 1, MINUS_1, false, false),
    // -1 times -1 is 1; 4294967295 squared does not fit.
    (MINUS_1, MINUS_1, 1, true, false),
    (MINUS_1, 2, 0xffff_fffe, true, false),
    // The least number negated is 2147483648.
    (LEAST, MINUS_1, LEAST, true, true),
    (LEAST, 1, LEAST, false, false),
    (LEAST, 2, 0, true, true),
    (LEAST, LEAST, 0, true, true),
    // (2^31 - 1)^2 = 2^62 - 2^32 + 1.
    (MOST, MOST, 1, true, true),
    // 65536 times 32768 is 2^31: unsigned it fits.
    (0x1_0000, 0x8000, LEAST, false, true),
    (0x1_0000, 0x7fff, 0x7fff_0000, false, false),
    (0x1_0000, 0x1_0000, 0, true, true),
    // -65536 times 32768 is -2^31 and fits; times 32769 it does not.
    (0xffff_0000, 0x8000, LEAST, true, false),
    (0xffff_0000, 0x8001, 0x7fff_0000, true, true),
    // 46340^2 = 2147395600 and 46341^2 = 2^31 + 4633.
    (0xb504, 0xb504, 0x7ffe_a810, false, false),
    (0xb505, 0xb505, 0x8000_1219, false, true),
];

#[test]
fn products() {
    for (x, y, low, carry, overflow) in PRODUCTS {
        for (x, y) in [(x, y), (y, x)] {
            assert_eq!(result(Kind::Mul, x, y), (low, carry, overflow), "{x:x} {y:x}");
            // "mulu and both divisions set OV to 0."
            assert_eq!(result(Kind::Mulu, x, y), (low, carry, false), "{x:x} {y:x}");
        }
        // An immediate is the same number if it fits.
        if y == y as i16 as u32 {
            assert_eq!(result(Kind::Muli, x, y), (low, carry, overflow), "{x:x} {y:x}");
        }
    }
}

/// 001 5.3: "The immediate value is sign extended".
#[test]
fn products_with_immediates() {
    let minus_8000 = 0xffff_8000;
    assert_eq!(result(Kind::Muli, 2, 0xffff_fffd), (0xffff_fffa, true, false));
    // 65536 times -32768 is -2^31, 65537 times it -2147516416.
    assert_eq!(result(Kind::Muli, 0x1_0000, minus_8000), (LEAST, true, false));
    assert_eq!(result(Kind::Muli, 0x1_0001, minus_8000), (0x7fff_8000, true, true));
    // 65539 times 32767 is 2^31 + 32765.
    assert_eq!(result(Kind::Muli, 0x1_0003, 0x7fff), (0x8000_7ffd, false, true));
    assert_eq!(result(Kind::Muli, 0, minus_8000), (0, false, false));
}

/// Dividends, divisors and signed quotients.
const QUOTIENTS: [(u32, u32, u32); 14] = [
    (7, 2, 3),
    // -7 by 2, 7 by -2 and -7 by -2: "Division truncates toward zero."
    (0xffff_fff9, 2, 0xffff_fffd),
    (7, 0xffff_fffe, 0xffff_fffd),
    (0xffff_fff9, 0xffff_fffe, 3),
    (0xffff_ffff, 2, 0),
    (1, 0xffff_fffe, 0),
    // "For l.div 80000000 by ffffffff gives 80000000."
    (LEAST, MINUS_1, LEAST),
    (LEAST, 1, LEAST),
    (LEAST, 2, 0xc000_0000),
    (LEAST, LEAST, 1),
    (LEAST, MOST, MINUS_1),
    (MOST, MINUS_1, 0x8000_0001),
    (MOST, LEAST, 0),
    (0, MINUS_1, 0),
];

/// Dividends, divisors and unsigned quotients.
const UNSIGNED_QUOTIENTS: [(u32, u32, u32); 10] = [
    (7, 2, 3),
    // 4294967289 by 2.
    (0xffff_fff9, 2, 0x7fff_fffc),
    (7, 0xffff_fffe, 0),
    (LEAST, MINUS_1, 0),
    (MINUS_1, LEAST, 1),
    (MINUS_1, 1, MINUS_1),
    (MINUS_1, MINUS_1, 1),
    (0xffff_fffe, MINUS_1, 0),
    (LEAST, 2, 0x4000_0000),
    (0, 1, 0),
];

/// "other divisors clear CY", and OV is 0; under OVE too nothing raises.
#[test]
fn quotients() {
    for (x, y, quotient) in QUOTIENTS {
        assert_eq!(result(Kind::Div, x, y), (quotient, false, false), "{x:x} {y:x}");
    }
    for (x, y, quotient) in UNSIGNED_QUOTIENTS {
        assert_eq!(result(Kind::Divu, x, y), (quotient, false, false), "{x:x} {y:x}");
    }
    let (bench, step) = on_two(word_of(Kind::Div, 5, 0), SR | OVE | OV | CY, LEAST, MINUS_1);
    let core = &bench.cores[0];
    assert_eq!((step.raised, core.regs[5], core.sr), (None, LEAST, SR | OVE));
}

/// "A zero divisor sets CY, keeps rD and raises range under OVE".
#[test]
fn zero_divisors() {
    for kind in [Kind::Div, Kind::Divu] {
        for (x, before, after) in [(7, SR, SR | CY), (0, SR | OV | F, SR | CY | F)] {
            let (mut bench, step) = on_two(word_of(kind, 3, 0), before, x, 0);
            let core = bench.cores[0];
            assert_eq!((step.raised, core.pc), (None, 0x104), "{kind:?}");
            assert_eq!((core.regs[3], core.sr, core.esr), (x, after, SR), "{kind:?}");
            // r0 as the divisor is 0 too.
            bench.run(0, asm(kind, 3, 3, 0, 0));
            assert_eq!((bench.cores[0].regs[3], bench.cores[0].sr), (x, after), "{kind:?}");
        }
        let (bench, step) = on_two(word_of(kind, 3, 0), SR | OVE | OV | TEE | IEE, 7, 0);
        let core = &bench.cores[0];
        assert_eq!(step.raised, Some(Cause::Range), "{kind:?}");
        assert_eq!((core.pc, core.epcr, core.eear), (0xb00, 0x100, 0));
        assert_eq!((core.regs[3], core.sr), (7, SR | CY));
        assert_eq!(core.esr, SR | OVE | TEE | IEE | CY);
        // r0 as rD does not keep it from raising.
        let (bench, step) = on_two(word_of(kind, 0, 0), SR | OVE, 7, 0);
        assert_eq!((step.raised, bench.cores[0].regs[0]), (Some(Cause::Range), 0), "{kind:?}");
    }
}

/// Four that raise under OVE: x, y, r5 and the flags then. r5 was 55.
const RAISING: [(Kind, u32, u32, u32, u32); 4] = [
    (Kind::Mul, 0x1_0000, 0x8000, LEAST, OV),
    // 98304 times -32768 is -3221225472, that is 40000000 in 32 bits.
    (Kind::Muli, 0x1_8000, 0xffff_8000, 0x4000_0000, OV | CY),
    (Kind::Div, 5, 0, 0x55, CY),
    (Kind::Divu, 5, 0, 0x55, CY),
];

/// "raise range ..., after rD and flags are written", also in a slot.
#[test]
fn range_comes_after_the_writes() {
    for (kind, x, y, low, flags) in RAISING {
        for slot in [false, true] {
            let mut bench = Bench::new(1);
            let core = &mut bench.cores[0];
            (core.regs[3], core.regs[4], core.regs[5]) = (x, y, 0x55);
            (core.sr, core.eear, core.machi, core.maclo) = (SR | OVE, 0x66, 1, 2);
            (core.link, core.link_address) = (true, 0x40);
            (core.delay, core.target) = if slot { (true, 0x300) } else { (false, 0) };
            let step = bench.run(0, word_of(kind, 5, y));
            let core = &bench.cores[0];
            assert_eq!((step.raised, step.stored), (Some(Cause::Range), None), "{kind:?}");
            let epcr = if slot { 0xfc } else { 0x100 };
            assert_eq!((core.pc, core.epcr, core.eear), (0xb00, epcr, 0x66), "{kind:?}");
            assert_eq!((core.regs[5], core.esr), (low, SR | OVE | flags), "{kind:?}");
            assert_eq!(core.sr, SR | flags | if slot { DSX } else { 0 }, "{kind:?}");
            assert_eq!((core.delay, core.target), (false, 0));
            assert_eq!((core.link, core.link_address), (false, 0));
            // Exceptions leave the accumulator alone.
            assert_eq!((core.machi, core.maclo, core.is_running()), (1, 2, true));
        }
    }
}

/// Without OVE nothing raises; l.mulu never does; r0 drops the product but not
/// the exception.
#[test]
fn range_needs_its_enabling() {
    for (kind, x, y, low, flags) in RAISING {
        let word = word_of(kind, 5, y);
        let (bench, step) = on_two(word, SR, x, y);
        let core = &bench.cores[0];
        let low = if low == 0x55 { 0 } else { low };
        assert_eq!((step.raised, core.pc), (None, 0x104), "{kind:?}");
        assert_eq!((core.regs[5], core.sr), (low, SR | flags), "{kind:?}");
        let (bench, step) = on_two(word_of(kind, 0, y), SR | OVE, x, y);
        assert_eq!((step.raised, bench.cores[0].regs[0]), (Some(Cause::Range), 0), "{kind:?}");
    }
    for (x, y) in [(MINUS_1, MINUS_1), (LEAST, 2), (0x1_0000, 0x8000)] {
        let (bench, step) = on_two(word_of(Kind::Mulu, 5, y), SR | OVE | OV, x, y);
        assert_eq!(step.raised, None, "{x:x} {y:x}");
        assert!(!bench.cores[0].has(OV));
    }
}

/// The counts of one step, by every engine.
#[test]
fn counts_of_products() {
    for (kind, x, y, ..) in RAISING {
        for (status, raised) in [(SR | OVE, 1), (SR, 0)] {
            let mut case = Case {
                memory: vec![0; BYTES],
                sheets: card::reset_sheets(1, 0x100),
                schedule: vec![0],
                levels: vec![0],
                limit: 0,
                vectors: OLD.to_vec(),
                table: vec![0; BYTES / 4],
            };
            case.set_word(0x100 / 4, word_of(kind, 5, y));
            (case.sheets[3], case.sheets[4]) = (x, y);
            case.sheets[place::SR] = status;
            let expected = Answer { refusal: 0, executed: 1, raised, reused: 0 };
            for engine in engines() {
                let both = check::after_both(engine, &case);
                let found = [both.plain.answer, both.fast.answer];
                assert_eq!(found, [expected; 2], "{}, {kind:?} {status:x}", engine.name());
            }
        }
    }
}

/// MACHI and MACLO after r3 and y on what they were. All else but PC stays.
fn accumulated(kind: Kind, x: u32, y: u32, before: u64) -> u64 {
    let word = match kind {
        Kind::Maci => asm(kind, 0, 3, 0, y),
        _ => asm(kind, 0, 3, 4, 0),
    };
    let [first, second] = [SR, SR | F | CY | OV | OVE].map(|sr| {
        let mut bench = Bench::new(1);
        let core = &mut bench.cores[0];
        (core.regs[3], core.regs[4], core.sr) = (x, y, sr);
        core.set_accumulator(before);
        let old = *core;
        let step = bench.run(0, word);
        let core = bench.cores[0];
        assert_eq!((step.raised, step.stored), (None, None));
        let kept = Core { pc: 0x104, machi: core.machi, maclo: core.maclo, ..old };
        assert_eq!(core, kept, "{kind:?} {x:x} {y:x}");
        core.accumulator()
    });
    assert_eq!(first, second, "{kind:?} {x:x} {y:x}: the flags do not matter");
    first
}

#[test]
fn accumulators_add() {
    let rows = [
        (0, 3, 5, 15),
        // A carry out of MACLO, and one out of MACHI: "modulo 2^64".
        (0xffff_ffff, 1, 1, 0x1_0000_0000),
        (u64::MAX, 1, 1, 0),
        (0x7fff_ffff_ffff_ffff, 1, 1, 0x8000_0000_0000_0000),
        // Negative products are sign-extended.
        (0, MINUS_1, 1, u64::MAX),
        (0x1_0000_0000, MINUS_1, 1, 0xffff_ffff),
        (0, MINUS_1, MINUS_1, 1),
        // 2^32 is truncated to 0, 2^31 to the least number.
        (0x77, 0x1_0000, 0x1_0000, 0x77),
        (0, 0x1_0000, 0x8000, 0xffff_ffff_8000_0000),
        // 65537^2 = 2^32 + 2^17 + 1; ffff0000 + 20001 = 1 00010001.
        (0x0001_2345_ffff_0000, 0x1_0001, 0x1_0001, 0x0001_2346_0001_0001),
        (5, 0, MINUS_1, 5),
    ];
    for (before, x, y, after) in rows {
        assert_eq!(accumulated(Kind::Mac, x, y, before), after, "{before:x} {x:x} {y:x}");
        if y == y as i16 as u32 {
            assert_eq!(accumulated(Kind::Maci, x, y, before), after, "{before:x} {x:x} {y:x}");
        }
    }
}

#[test]
fn accumulators_add_immediates() {
    let minus_8000 = 0xffff_8000;
    // 2 times -3.
    assert_eq!(accumulated(Kind::Maci, 2, 0xffff_fffd, 0), 0xffff_ffff_ffff_fffa);
    assert_eq!(accumulated(Kind::Maci, 2, 0xffff_fffd, 5), u64::MAX);
    assert_eq!(accumulated(Kind::Maci, 2, 0xffff_fffd, 6), 0);
    // 65536 times -32768 is -2^31, 131072 times it -2^32 and so 0.
    assert_eq!(accumulated(Kind::Maci, 0x1_0000, minus_8000, 0), 0xffff_ffff_8000_0000);
    assert_eq!(accumulated(Kind::Maci, 0x2_0000, minus_8000, 9), 9);
}

#[test]
fn accumulators_subtract() {
    let rows = [
        (15, 3, 5, 0),
        // A borrow from MACHI, and one from above it.
        (0x1_0000_0000, 1, 1, 0xffff_ffff),
        (0, 1, 1, u64::MAX),
        (0x8000_0000_0000_0000, 1, 1, 0x7fff_ffff_ffff_ffff),
        (0, MINUS_1, 1, 1),
        (0xffff_ffff, MINUS_1, 1, 0x1_0000_0000),
        // 2^31 truncated is the least number; less it is 2^31 more.
        (0, 0x1_0000, 0x8000, 0x8000_0000),
        (0x77, 0x1_0000, 0x1_0000, 0x77),
    ];
    for (before, x, y, after) in rows {
        assert_eq!(accumulated(Kind::Msb, x, y, before), after, "{before:x} {x:x} {y:x}");
    }
}

/// "macrc moves MACLO to rD and clears both", r0 or not, in a slot or not.
#[test]
fn move_and_clear() {
    for d in [5, 0] {
        for (delay, target, pc) in [(false, 0, 0x104), (true, 0x300, 0x300)] {
            let mut bench = Bench::new(1);
            let core = &mut bench.cores[0];
            (core.machi, core.maclo, core.regs[5]) = (0x12, 0x8000_0034, 0x55);
            (core.sr, core.delay, core.target) = (SR | F | CY | OV | OVE, delay, target);
            let old = *core;
            let step = bench.run(0, asm(Kind::Macrc, d, 0, 0, 0));
            let mut expected = Core { pc, delay: false, target: 0, machi: 0, maclo: 0, ..old };
            expected.regs[5] = if d == 5 { 0x8000_0034 } else { 0x55 };
            assert_eq!((step.raised, step.stored), (None, None));
            assert_eq!(bench.cores[0], expected, "r{d}");
        }
    }
}

/// "their SPRs are 2802 and 2801 hexadecimal": MACHI's and MACLO's.
#[test]
fn special_registers() {
    let mut bench = Bench::new(2);
    let core = &mut bench.cores[0];
    (core.machi, core.maclo, core.regs[3], core.regs[4]) = (0x11, 0x22, 0x2800, 0xffff_fffe);
    for (base, number, value) in [(0, 0x2802, 0x11), (0, 0x2801, 0x22), (3, 2, 0x11), (3, 3, 0)] {
        bench.run(0, asm(Kind::Mfspr, 5, base, 0, number));
        assert_eq!(bench.cores[0].regs[5], value, "{number:x}");
    }
    bench.run(0, asm(Kind::Mtspr, 0, 0, 4, 0x2802));
    assert_eq!((bench.cores[0].machi, bench.cores[0].maclo), (0xffff_fffe, 0x22));
    bench.run(0, asm(Kind::Mtspr, 0, 3, 4, 1));
    assert_eq!((bench.cores[0].machi, bench.cores[0].maclo), (0xffff_fffe, 0xffff_fffe));
    bench.run(0, asm(Kind::Mtspr, 0, 0, 0, 0x2801));
    assert_eq!((bench.cores[0].machi, bench.cores[0].maclo), (0xffff_fffe, 0));
    // Each core has its own.
    assert_eq!((bench.cores[1].machi, bench.cores[1].maclo), (0, 0));
}

/// "Sheets grow to 44 words, MACHI then MACLO last": after note 4 two more words
/// follow.
#[test]
fn places_on_a_sheet() {
    let mut case = Case {
        memory: vec![0; BYTES],
        sheets: card::reset_sheets(2, 0x100),
        schedule: vec![1],
        levels: vec![0],
        limit: 0,
        vectors: OLD.to_vec(),
        table: vec![0; BYTES / 4],
    };
    assert_eq!((case.sheets.len(), &case.sheets[42..44]), (92, [0, 0].as_slice()));
    // 3 times 5 added to 6 ffffffff.
    case.set_word(0x100 / 4, asm(Kind::Mac, 0, 3, 4, 0));
    (case.sheets[46 + 3], case.sheets[46 + 4]) = (3, 5);
    (case.sheets[46 + 42], case.sheets[46 + 43]) = (6, 0xffff_ffff);
    for engine in engines() {
        for left in [check::after_plain(engine, &case), check::after_fast(engine, &case)] {
            assert_eq!(left.answer.refusal, 0);
            assert_eq!(left.case.sheets[42..44], [0, 0], "{}", engine.name());
            assert_eq!(left.case.sheets[88..90], [7, 14], "{}", engine.name());
        }
    }
}

/// A register may be read and written at once.
#[test]
fn one_register_for_all() {
    for (kind, value) in [(Kind::Mul, 49), (Kind::Mulu, 49), (Kind::Div, 1), (Kind::Divu, 1)] {
        let (bench, _) = on_two(asm(kind, 3, 3, 3, 0), SR, 7, 0);
        assert_eq!(bench.cores[0].regs[3], value, "{kind:?}");
    }
    let (bench, _) = on_two(asm(Kind::Muli, 3, 3, 0, 3), SR, 7, 0);
    assert_eq!(bench.cores[0].regs[3], 21);
}

/// The upper and the lower word of a product, by halves.
fn product_by_halves(x: u32, y: u32) -> (u32, u32) {
    let (xh, xl, yh, yl) = (x >> 16, x & 0xffff, y >> 16, y & 0xffff);
    let middle = xh * yl;
    let other = xl * yh + ((xl * yl) >> 16);
    let (sum, carry) = middle.overflowing_add(other);
    let high = xh * yh + (sum >> 16) + (u32::from(carry) << 16);
    (high, sum << 16 | (xl * yl) & 0xffff)
}

/// The upper word of the signed product: a negative factor takes the other off.
fn signed_high(x: u32, y: u32, high: u32) -> u32 {
    let less = |negative: u32, other: u32| if negative >> 31 == 1 { other } else { 0 };
    high.wrapping_sub(less(x, y)).wrapping_sub(less(y, x))
}

/// Long division, bit by bit.
fn divide(x: u32, y: u32) -> u32 {
    let (mut quotient, mut rest) = (0, 0u64);
    for bit in (0..32).rev() {
        rest = rest << 1 | u64::from(x >> bit & 1);
        if rest >= u64::from(y) {
            rest -= u64::from(y);
            quotient |= 1 << bit;
        }
    }
    quotient
}

/// The magnitudes' quotient with the sign put before it.
fn divide_signed(x: u32, y: u32) -> u32 {
    let magnitude = |word: u32| if word >> 31 == 1 { word.wrapping_neg() } else { word };
    let quotient = divide(magnitude(x), magnitude(y));
    if (x ^ y) >> 31 == 1 {
        quotient.wrapping_neg()
    } else {
        quotient
    }
}

#[test]
fn random_factors_by_other_arithmetic() {
    let mut rng = Rng::new(14);
    for _ in 0..20_000 {
        let mut factor = || if rng.one_in(2) { rng.factor_word() } else { rng.edge_word() };
        let (x, y) = (factor(), factor());
        let (high, low) = product_by_halves(x, y);
        let overflow = signed_high(x, y, high) != 0u32.wrapping_sub(low >> 31);
        assert_eq!(result(Kind::Mul, x, y), (low, high != 0, overflow), "{x:x} {y:x}");
        assert_eq!(result(Kind::Mulu, x, y), (low, high != 0, false), "{x:x} {y:x}");
        let sum = low as i32 as i64 as u64;
        assert_eq!(accumulated(Kind::Mac, x, y, 0), sum, "{x:x} {y:x}");
        assert_eq!(accumulated(Kind::Msb, x, y, sum), 0, "{x:x} {y:x}");
        if y != 0 {
            let both = (result(Kind::Div, x, y), result(Kind::Divu, x, y));
            let expected = (divide_signed(x, y), divide(x, y));
            assert_eq!(both, ((expected.0, false, false), (expected.1, false, false)));
        }
    }
}

/// "executes a filled entry as it stands", of the new kinds too.
#[test]
fn the_fast_step_executes_the_entry() {
    let mut bench = Bench::new(1);
    (bench.cores[0].regs[3], bench.cores[0].regs[4]) = (6, 7);
    bench.put(0x100, 0x1500_0001);
    let mut table = vec![0; BYTES / 4];
    table[0x40] = isa::decode(word_of(Kind::Mul, 5, 0));
    let (step, reused) = bench.fast_step(0, &mut table);
    assert_eq!((step.raised, reused), (None, true));
    assert_eq!((bench.cores[0].regs[5], bench.cores[0].is_running()), (42, true));
}
