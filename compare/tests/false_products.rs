//! Engines that are wrong in one thing that note 2 of document 02 says of a
//! step: the battery must stop each.

mod common;

use common::wrong_step::{assert_passed, assert_stopped, wrong, Taken, WrongStep};
use compare::battery::Pair;
use compare::check::BY_HISTORY;
use compare::isa::Kind::{self, *};
use compare::isa::Reg;
use compare::state::{CY, OV, OVE};

const SIGNED: &[Kind] = &[Mul, Muli];
const PRODUCTS: &[Kind] = &[Mul, Muli, Mulu];
const DIVISIONS: &[Kind] = &[Div, Divu];
const SUMS: &[Kind] = &[Maci, Mac, Msb];
const RAISING: &[Kind] = &[Mul, Muli, Div, Divu];
const SPECIAL: &[Kind] = &[Mfspr, Mtspr];

fn signed(word: u32) -> i64 {
    i64::from(word as i32)
}

/// The signed product, exact.
fn exact(taken: &Taken) -> i64 {
    let (x, y) = taken.operands();
    signed(x) * signed(y)
}

/// l.muli and the like as if their second factor were another.
fn with_factor(taken: &mut Taken, y: u32) {
    let x = taken.operands().0;
    let wide = u64::from(x) * u64::from(y);
    let overflow = signed(x) * signed(y) != signed(wide as u32);
    taken.all(wide as u32, wide >> 32 != 0, overflow, overflow && taken.before.has(OVE));
}

/// MACHI and MACLO with a term added to what they were.
fn accumulate(taken: &mut Taken, term: i64) {
    let sum = taken.before.accumulator().wrapping_add(term as u64);
    taken.after.set_accumulator(sum);
}

/// Whether it divides 80000000 by ffffffff.
fn least_by_minus_1(taken: &Taken) -> bool {
    taken.operands() == (0x8000_0000, 0xffff_ffff)
}

const WRONG_PRODUCTS: [WrongStep; 14] = [
    wrong("l.mul has CY by the signed product", &[Mul], |taken| {
        let fits = exact(taken) == signed(exact(taken) as u32);
        taken.flag(CY, !fits)
    }),
    wrong("l.muli has CY by the signed product", &[Muli], |taken| {
        let fits = exact(taken) == signed(exact(taken) as u32);
        taken.flag(CY, !fits)
    }),
    wrong("products keep CY", PRODUCTS, |taken| taken.flag(CY, taken.before.has(CY))),
    wrong("products clear CY", PRODUCTS, |taken| taken.flag(CY, false)),
    wrong("OV by the unsigned product", SIGNED, |taken| {
        let carry = taken.after.has(CY);
        taken.flag(OV, carry);
        taken.end(carry && taken.before.has(OVE))
    }),
    wrong("OV stays once it is set", SIGNED, |taken| {
        let overflow = taken.before.has(OV) || taken.after.has(OV);
        taken.flag(OV, overflow)
    }),
    wrong("l.mulu keeps OV", &[Mulu], |taken| taken.flag(OV, taken.before.has(OV))),
    wrong("l.mulu has OV by its product", &[Mulu], |taken| taken.flag(OV, taken.after.has(CY))),
    wrong("l.mulu raises", &[Mulu], |taken| {
        taken.end(taken.after.has(CY) && taken.before.has(OVE))
    }),
    wrong("l.mul never raises", &[Mul], |taken| taken.end(false)),
    wrong("l.muli never raises", &[Muli], |taken| taken.end(false)),
    wrong("l.muli's immediate is zero-extended", &[Muli], |taken| {
        let factor = taken.insn.imm & 0xffff;
        with_factor(taken, factor)
    }),
    wrong("rD has the upper half", PRODUCTS, |taken| {
        let (x, y) = taken.operands();
        taken.result(((u64::from(x) * u64::from(y)) >> 32) as u32)
    }),
    wrong("rD saturates", SIGNED, |taken| {
        let most = i64::from(i32::MAX);
        taken.result(exact(taken).clamp(-most - 1, most) as u32)
    }),
];

const WRONG_QUOTIENTS: [WrongStep; 15] = [
    wrong("division rounds down", &[Div], |taken| {
        let (x, y) = taken.operands();
        if y != 0 {
            let down = signed(x).div_euclid(signed(y));
            // Euclid's quotient is the one below but for negative divisors.
            let rest = signed(x).rem_euclid(signed(y));
            let floor = if signed(y) < 0 && rest != 0 { down - 1 } else { down };
            taken.result(floor as u32)
        }
    }),
    wrong("l.div leaves no negative rest", &[Div], |taken| {
        let (x, y) = taken.operands();
        if y != 0 {
            taken.result(signed(x).div_euclid(signed(y)) as u32)
        }
    }),
    wrong("a zero divisor writes 0", DIVISIONS, |taken| {
        if taken.by_zero() {
            taken.result(0)
        }
    }),
    wrong("a zero divisor writes ffffffff", DIVISIONS, |taken| {
        if taken.by_zero() {
            taken.result(u32::MAX)
        }
    }),
    wrong("a zero divisor raises on OV alone", DIVISIONS, |taken| {
        taken.end(taken.after.has(OV) && taken.before.has(OVE))
    }),
    wrong("a zero divisor raises by the OV there was", DIVISIONS, |taken| {
        taken.end(taken.by_zero() && taken.before.has(OV) && taken.before.has(OVE))
    }),
    wrong("a zero divisor raises without OVE", DIVISIONS, |taken| taken.end(taken.by_zero())),
    wrong("a zero divisor sets OV", DIVISIONS, |taken| taken.flag(OV, taken.by_zero())),
    wrong("a zero divisor keeps CY", DIVISIONS, |taken| {
        if taken.by_zero() {
            taken.flag(CY, taken.before.has(CY))
        }
    }),
    wrong("other divisors keep CY", DIVISIONS, |taken| {
        if !taken.by_zero() {
            taken.flag(CY, taken.before.has(CY))
        }
    }),
    wrong("divisions keep OV", DIVISIONS, |taken| taken.flag(OV, taken.before.has(OV))),
    wrong("80000000 by ffffffff raises", &[Div], |taken| {
        let least = least_by_minus_1(taken) && taken.before.has(OVE);
        taken.end(taken.raised || least)
    }),
    wrong("80000000 by ffffffff sets OV", &[Div], |taken| {
        if least_by_minus_1(taken) {
            taken.flag(OV, true)
        }
    }),
    wrong("80000000 by ffffffff gives 7fffffff", &[Div], |taken| {
        if least_by_minus_1(taken) {
            taken.result(0x7fff_ffff)
        }
    }),
    wrong("l.divu divides signed numbers", &[Divu], |taken| {
        let (x, y) = taken.operands();
        if y != 0 {
            taken.result((signed(x) / signed(y)) as u32)
        }
    }),
];

const WRONG_ACCUMULATORS: [WrongStep; 16] = [
    wrong("l.msb adds", &[Msb], |taken| {
        let low = exact(taken) as u32;
        accumulate(taken, signed(low))
    }),
    wrong("l.mac does not truncate the product", &[Mac], |taken| {
        let term = exact(taken);
        accumulate(taken, term)
    }),
    wrong("l.maci does not truncate the product", &[Maci], |taken| {
        let term = exact(taken);
        accumulate(taken, term)
    }),
    wrong("l.msb does not truncate the product", &[Msb], |taken| {
        let term = exact(taken);
        accumulate(taken, -term)
    }),
    wrong("the product is zero-extended", &[Maci, Mac], |taken| {
        let low = exact(taken) as u32;
        accumulate(taken, i64::from(low))
    }),
    wrong("l.maci's immediate is zero-extended", &[Maci], |taken| {
        let low = taken.operands().0.wrapping_mul(taken.insn.imm & 0xffff);
        accumulate(taken, signed(low))
    }),
    wrong("no carry into MACHI", SUMS, |taken| taken.after.machi = taken.before.machi),
    wrong("the sum saturates", &[Maci, Mac], |taken| {
        let (sum, low) = (taken.before.accumulator() as i64, exact(taken) as u32);
        taken.after.set_accumulator(sum.saturating_add(signed(low)) as u64)
    }),
    wrong("accumulating sets CY and OV", SUMS, |taken| {
        let fits = exact(taken) == signed(exact(taken) as u32);
        taken.flag(CY, !fits);
        taken.flag(OV, !fits)
    }),
    wrong("accumulating clears CY and OV", SUMS, |taken| {
        taken.flag(CY, false);
        taken.flag(OV, false)
    }),
    wrong("accumulating raises", SUMS, |taken| {
        let fits = exact(taken) == signed(exact(taken) as u32);
        taken.end(!fits && taken.before.has(OVE))
    }),
    wrong("l.macrc clears MACLO alone", &[Macrc], |taken| taken.after.machi = taken.before.machi),
    wrong("l.macrc clears neither", &[Macrc], |taken| {
        taken.after.set_accumulator(taken.before.accumulator())
    }),
    wrong("l.macrc to r0 clears neither", &[Macrc], |taken| {
        if taken.insn.d == Reg::R0 {
            taken.after.set_accumulator(taken.before.accumulator())
        }
    }),
    wrong("l.macrc moves MACHI", &[Macrc], |taken| taken.result(taken.before.machi)),
    wrong("l.macrc sets CY by MACHI", &[Macrc], |taken| taken.flag(CY, taken.before.machi != 0)),
];

/// The special register that a step names.
fn number(taken: &Taken) -> u32 {
    taken.before.get(taken.insn.a) | taken.insn.imm
}

const WRONG_SPECIAL: [WrongStep; 4] = [
    wrong("MACHI and MACLO exchanged", SPECIAL, |taken| {
        let (old, value) = (taken.before, taken.before.get(taken.insn.b));
        match (taken.insn.kind, number(taken)) {
            (Mfspr, 0x2801) => taken.result(old.machi),
            (Mfspr, 0x2802) => taken.result(old.maclo),
            (_, 0x2801) => (taken.after.machi, taken.after.maclo) = (value, old.maclo),
            (_, 0x2802) => (taken.after.machi, taken.after.maclo) = (old.machi, value),
            _ => {}
        }
    }),
    wrong("MACHI and MACLO read 0", &[Mfspr], |taken| {
        if matches!(number(taken), 0x2801 | 0x2802) {
            taken.result(0)
        }
    }),
    wrong("MACHI and MACLO cannot be written", &[Mtspr], |taken| {
        taken.after.set_accumulator(taken.before.accumulator())
    }),
    wrong("MACLO is at 2800 too", &[Mfspr], |taken| {
        if number(taken) == 0x2800 {
            taken.result(taken.before.maclo)
        }
    }),
];

const WRONG_EXCEPTIONS: [WrongStep; 8] = [
    wrong("does not raise for r0", RAISING, |taken| {
        taken.end(taken.raised && taken.insn.d != Reg::R0)
    }),
    wrong("a product raises before rD is written", SIGNED, |taken| {
        taken.if_raised(|after, before| after.regs = before.regs)
    }),
    wrong("ESR has the old flags", RAISING, |taken| {
        taken.if_raised(|after, before| after.esr = before.sr)
    }),
    wrong("EPCR is its own address in a slot", RAISING, |taken| {
        taken.if_raised(|after, before| after.epcr = before.pc)
    }),
    wrong("EPCR is the next address", RAISING, |taken| {
        taken.if_raised(|after, before| after.epcr = before.pc.wrapping_add(4))
    }),
    wrong("EEAR is its own address", RAISING, |taken| {
        taken.if_raised(|after, before| after.eear = before.pc)
    }),
    wrong("keeps the link", RAISING, |taken| {
        taken.if_raised(|after, before| {
            (after.link, after.link_address) = (before.link, before.link_address);
        })
    }),
    wrong("an exception clears MACHI and MACLO", RAISING, |taken| {
        taken.if_raised(|after, _| after.set_accumulator(0))
    }),
];

#[test]
fn wrong_products_are_stopped() {
    WRONG_PRODUCTS.iter().for_each(|engine| assert_stopped(engine));
}

#[test]
fn wrong_quotients_are_stopped() {
    WRONG_QUOTIENTS.iter().for_each(|engine| assert_stopped(engine));
}

#[test]
fn wrong_accumulators_are_stopped() {
    WRONG_ACCUMULATORS.iter().for_each(|engine| assert_stopped(engine));
    WRONG_SPECIAL.iter().for_each(|engine| assert_stopped(engine));
}

#[test]
fn wrong_exceptions_of_products_are_stopped() {
    WRONG_EXCEPTIONS.iter().for_each(|engine| assert_stopped(engine));
}

/// What the wrong engines do is right where they spoil nothing, and cards too
/// have products and divisions that raise.
#[test]
fn a_right_engine_passes() {
    assert_passed(&wrong("ends as it did", RAISING, |taken| taken.end(taken.raised)));
    assert_passed(&wrong("multiplies again", SIGNED, |taken| {
        let y = taken.operands().1;
        with_factor(taken, y)
    }));
    assert_passed(&wrong("adds again", &[Maci, Mac], |taken| {
        let low = exact(taken) as u32;
        accumulate(taken, signed(low))
    }));
    for engine in [&WRONG_PRODUCTS[9], &WRONG_PRODUCTS[10], &WRONG_QUOTIENTS[4]] {
        let pair = Pair { one: &BY_HISTORY, other: engine };
        assert!(pair.good_cards(0..300).is_err(), "{}", engine.name);
    }
}
