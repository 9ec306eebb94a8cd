//! How often the kinds of note 2 of document 02 meet what the note tells apart.

use super::watch::Seen;
use super::{join, show};
use compare::isa::Kind::{self, *};
use compare::isa::Reg;
use compare::state::{CY, OV, OVE};
use std::collections::BTreeMap;

/// A kind, and what is counted of it.
type Class = (Kind, &'static str);

#[derive(Default)]
pub struct Products {
    met: BTreeMap<Class, u32>,
    /// Steps that raised though the note says otherwise, or did not.
    otherwise: u32,
}

const RAISED: &str = "raised";
const RAISED_IN_SLOT: &str = "raised in a slot";
const RAISED_TO_R0: &str = "raised, rD being r0";
const OV_WITHOUT_OVE: &str = "OV without OVE, not raised";
const OVE_WITHOUT_OV: &str = "OVE without OV, not raised";
const CY_ALONE: &str = "CY without OV";
const OV_ALONE: &str = "OV without CY";
const CARRY: &str = "CY";
const NO_CARRY: &str = "no CY";
const OV_GOES: &str = "OV cleared";
const ZERO_WITHOUT_OVE: &str = "zero divisor without OVE, not raised";
const OTHER_DIVISOR: &str = "other divisor";
const OTHER_UNDER_OVE: &str = "other divisor under OVE";
const LEAST_BY_MINUS_1: &str = "80000000 by ffffffff";
const LEAST_UNDER_OVE: &str = "80000000 by ffffffff under OVE";
const CUT: &str = "negative quotient cut toward zero";
const TOP_BITS: &str = "other divisor, a top bit set";
const CARRIED: &str = "carry into or borrow from MACHI";
const NOT_CARRIED: &str = "neither carry nor borrow";
const NEGATIVE: &str = "negative product";
const CUT_PRODUCT: &str = "product truncated";
const WITH_FLAGS: &str = "CY, OV and OVE kept";
const MACLO_MOVED: &str = "MACLO not 0";
const MACHI_CLEARED: &str = "MACHI not 0";
const TO_R0: &str = "rD being r0, MACHI and MACLO not 0";
const IN_SLOT: &str = "in a slot";
const MACHI_NUMBER: &str = "MACHI";
const MACLO_NUMBER: &str = "MACLO";

/// What must be met as often as the caller says.
const OFTEN: &[Class] = &[
    (Mul, RAISED),
    (Mul, OV_WITHOUT_OVE),
    (Mul, OVE_WITHOUT_OV),
    (Mul, CY_ALONE),
    (Muli, RAISED),
    (Muli, OV_WITHOUT_OVE),
    (Muli, OVE_WITHOUT_OV),
    (Muli, CY_ALONE),
    (Mulu, CARRY),
    (Mulu, NO_CARRY),
    (Div, RAISED),
    (Div, ZERO_WITHOUT_OVE),
    (Div, OTHER_DIVISOR),
    (Div, OTHER_UNDER_OVE),
    (Div, LEAST_BY_MINUS_1),
    (Divu, RAISED),
    (Divu, ZERO_WITHOUT_OVE),
    (Divu, OTHER_DIVISOR),
    (Divu, OTHER_UNDER_OVE),
    (Divu, TOP_BITS),
    (Maci, CARRIED),
    (Maci, NOT_CARRIED),
    (Mac, CARRIED),
    (Mac, NOT_CARRIED),
    (Mac, NEGATIVE),
    (Mac, CUT_PRODUCT),
    (Msb, CARRIED),
    (Msb, NOT_CARRIED),
    (Msb, NEGATIVE),
    (Msb, CUT_PRODUCT),
    (Macrc, MACLO_MOVED),
    (Macrc, MACHI_CLEARED),
    (Mfspr, MACHI_NUMBER),
    (Mfspr, MACLO_NUMBER),
];

/// What must be met a tenth as often.
const LESS_OFTEN: &[Class] = &[
    (Mul, RAISED_IN_SLOT),
    (Mul, RAISED_TO_R0),
    (Mul, OV_ALONE),
    (Muli, RAISED_IN_SLOT),
    (Muli, RAISED_TO_R0),
    (Muli, OV_ALONE),
    (Mulu, OV_GOES),
    (Div, RAISED_IN_SLOT),
    (Div, RAISED_TO_R0),
    (Div, LEAST_UNDER_OVE),
    (Div, CUT),
    (Div, OV_GOES),
    (Divu, RAISED_IN_SLOT),
    (Divu, RAISED_TO_R0),
    (Divu, OV_GOES),
    (Maci, NEGATIVE),
    (Maci, CUT_PRODUCT),
    (Maci, WITH_FLAGS),
    (Mac, WITH_FLAGS),
    (Mac, IN_SLOT),
    (Msb, WITH_FLAGS),
    (Msb, IN_SLOT),
    (Macrc, TO_R0),
    (Macrc, IN_SLOT),
    (Mtspr, MACHI_NUMBER),
    (Mtspr, MACLO_NUMBER),
];

impl Seen {
    /// The factors, or the dividend and the divisor.
    fn operands(&self) -> (u32, u32) {
        let (core, insn) = (&self.before, self.insn);
        let immediate = matches!(insn.kind, Muli | Maci);
        (core.get(insn.a), if immediate { insn.imm } else { core.get(insn.b) })
    }
}

impl Products {
    pub fn note(&mut self, seen: &Seen) {
        match seen.insn.kind {
            Mul | Muli | Mulu => self.note_product(seen),
            Div | Divu => self.note_quotient(seen),
            Maci | Mac | Msb => self.note_accumulation(seen),
            Macrc => self.note_move(seen),
            Mfspr | Mtspr => self.note_special(seen),
            _ => {}
        }
    }

    fn add(&mut self, seen: &Seen, classes: &[(&'static str, bool)]) {
        for (class, _) in classes.iter().filter(|(_, met)| *met) {
            *self.met.entry((seen.insn.kind, *class)).or_default() += 1;
        }
    }

    /// Counts a step that raises if and only if `range`.
    fn add_raising(&mut self, seen: &Seen, range: bool) {
        let raised = seen.raised;
        self.otherwise += u32::from(raised != range);
        self.add(
            seen,
            &[
                (RAISED, raised),
                (RAISED_IN_SLOT, raised && seen.before.delay),
                (RAISED_TO_R0, raised && seen.insn.d == Reg::R0),
                (OV_GOES, seen.before.has(OV) && !seen.after.has(OV)),
            ],
        );
    }

    fn note_product(&mut self, seen: &Seen) {
        let (enabled, over) = (seen.before.has(OVE), seen.after.has(OV));
        let carry = seen.after.has(CY);
        self.add_raising(seen, enabled && over && seen.insn.kind != Mulu);
        self.add(
            seen,
            &[
                (OV_WITHOUT_OVE, over && !enabled),
                (OVE_WITHOUT_OV, enabled && !over),
                (CY_ALONE, carry && !over),
                (OV_ALONE, over && !carry),
                (CARRY, carry),
                (NO_CARRY, !carry),
            ],
        );
    }

    fn note_quotient(&mut self, seen: &Seen) {
        let (x, y) = seen.operands();
        let enabled = seen.before.has(OVE);
        self.add_raising(seen, enabled && y == 0);
        let least = (x, y) == (0x8000_0000, 0xffff_ffff);
        let negative = (x ^ y) >> 31 == 1;
        let inexact = (x as i32).checked_rem(y as i32).is_some_and(|rest| rest != 0);
        self.add(
            seen,
            &[
                (ZERO_WITHOUT_OVE, y == 0 && !enabled),
                (OTHER_DIVISOR, y != 0),
                (OTHER_UNDER_OVE, y != 0 && enabled),
                (LEAST_BY_MINUS_1, least),
                (LEAST_UNDER_OVE, least && enabled),
                (CUT, negative && inexact),
                (TOP_BITS, y != 0 && (x | y) >> 31 == 1),
            ],
        );
    }

    fn note_accumulation(&mut self, seen: &Seen) {
        let (x, y) = seen.operands();
        let product = x.wrapping_mul(y);
        let carried = match seen.insn.kind {
            Msb => seen.before.maclo < product,
            _ => seen.before.maclo.checked_add(product).is_none(),
        };
        let exact = i64::from(x as i32) * i64::from(y as i32);
        let flags = CY | OV | OVE;
        self.otherwise += u32::from(seen.raised);
        self.add(
            seen,
            &[
                (CARRIED, carried),
                (NOT_CARRIED, !carried),
                (NEGATIVE, product >> 31 == 1),
                (CUT_PRODUCT, exact != i64::from(product as i32)),
                (WITH_FLAGS, seen.before.sr & flags == flags),
                (IN_SLOT, seen.before.delay),
            ],
        );
    }

    fn note_move(&mut self, seen: &Seen) {
        let (high, low) = (seen.before.machi != 0, seen.before.maclo != 0);
        self.otherwise += u32::from(seen.raised);
        self.add(
            seen,
            &[
                (MACLO_MOVED, low),
                (MACHI_CLEARED, high),
                (TO_R0, seen.insn.d == Reg::R0 && high && low),
                (IN_SLOT, seen.before.delay),
            ],
        );
    }

    /// Reads of what is not 0 and writes that change something.
    fn note_special(&mut self, seen: &Seen) {
        let number = seen.before.get(seen.insn.a) | seen.insn.imm;
        let Seen { before, after, .. } = seen;
        let (high, low) = match seen.insn.kind {
            Mfspr => (before.machi != 0, before.maclo != 0),
            _ => (before.machi != after.machi, before.maclo != after.maclo),
        };
        self.add(
            seen,
            &[(MACHI_NUMBER, number == 0x2802 && high), (MACLO_NUMBER, number == 0x2801 && low)],
        );
    }

    /// Takes in what others counted.
    pub fn join(&mut self, other: Products) {
        join(&mut self.met, other.met);
        self.otherwise += other.otherwise;
    }

    /// Shows the counts. Stops if one is too small: then the cases would say
    /// too little about the note.
    pub fn expect(&self, what: &str, least: u32) {
        let rows = OFTEN.iter().map(|class| (class, least));
        for (class, least) in rows.chain(LESS_OFTEN.iter().map(|class| (class, least / 10))) {
            let count = self.met.get(class).copied().unwrap_or(0);
            let (kind, text) = class;
            show(&format!("{what}, {kind:?}, {text}: {count}"));
            assert!(count >= least, "{what}, {kind:?}, {text}: {count} of {least}");
        }
        assert_eq!(self.otherwise, 0, "{what}: raised otherwise than note 2 says");
    }
}
