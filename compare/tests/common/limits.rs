//! How often accesses meet what note 5 of document 02 tells apart.

use super::watch::{Access, Entry};
use super::{join, show};
use compare::cases::Case;
use compare::exec::Cause;
use compare::isa::Insn;
use compare::isa::Kind::{self, *};
use compare::state::{Core, DSX, F, IEE, OVE, SM, TEE};
use std::collections::BTreeMap;

/// What is counted, of one kind or of any.
type Class = (Option<Kind>, &'static str);

#[derive(Default)]
pub struct Limits {
    met: BTreeMap<Class, u32>,
    /// Of the case that is watched.
    limit: u32,
    bytes: u32,
    /// Its vector of bus errors.
    vector: u32,
    /// Accesses that did otherwise than the note says.
    otherwise: u32,
}

const REFUSED: &str = "refused";
const RIGHT_BELOW: &str = "refused right below the limit";
const AT: &str = "stored at the limit";
const PAST: &str = "stored past the limit";
const UNLIMITED: &str = "stored at no limit";
const MISALIGNED: &str = "misaligned below the limit";
const ACROSS: &str = "misaligned across the limit";
const OUTSIDE: &str = "outside memory under a limit";
const LINKED: &str = "refused, linked to the word";
const LINKED_ELSEWHERE: &str = "refused, linked to another word";
const UNLINKED: &str = "refused, not linked";
const WITH_F: &str = "refused with F";
const WITHOUT_F: &str = "refused without F";
const FAILED_AT: &str = "fails at the limit";
const FAILED_PAST: &str = "fails past the limit";
const READ_BELOW: &str = "below the limit";
const READ_RIGHT_BELOW: &str = "right below the limit";
const FETCH_FILLED: &str = "fetched below the limit, the entry filled";
const FETCH_EMPTY: &str = "fetched below the limit, the entry empty";
const IN_SLOT: &str = "refused in a slot";
const BY_ANOTHER: &str = "refused on another core than 0";
const OTHERS_LINK: &str = "refused, another core linked to the word";
const OWN_LINK: &str = "refused, the core linked to the word";
const OTHER_LINK: &str = "refused, the core linked to another word";
const FILLED: &str = "refused, the word's entry filled";
const EMPTY: &str = "refused, the word's entry empty";
const OWN_WORD: &str = "refused into its own word";
const OTHER_VALUE: &str = "refused, memory holding another value";
const SAME_VALUE: &str = "refused, memory holding the same value";
const ALL_READ_ONLY: &str = "refused, all of memory read-only";
const LEAST_LIMIT: &str = "refused at the limit 4";
const LATCHED: &str = "refused while a line waits";

/// The classes, each with its least number in 31,000 cases of up to 400 entries:
/// about half of what the 20,000 without linked cores give.
const LEAST: &[(Class, u32)] = &[
    ((Some(Sw), REFUSED), 9_700),
    ((Some(Sw), RIGHT_BELOW), 810),
    ((Some(Sw), AT), 500),
    ((Some(Sw), PAST), 8_500),
    ((Some(Sw), UNLIMITED), 18_000),
    ((Some(Sw), MISALIGNED), 540),
    ((Some(Sw), ACROSS), 61),
    ((Some(Sw), OUTSIDE), 2_400),
    ((Some(Sh), REFUSED), 6_700),
    ((Some(Sh), RIGHT_BELOW), 560),
    ((Some(Sh), AT), 330),
    ((Some(Sh), PAST), 4_500),
    ((Some(Sh), UNLIMITED), 9_900),
    ((Some(Sh), MISALIGNED), 110),
    ((Some(Sh), ACROSS), 20),
    ((Some(Sh), OUTSIDE), 1_300),
    ((Some(Sb), REFUSED), 6_600),
    ((Some(Sb), RIGHT_BELOW), 790),
    ((Some(Sb), AT), 570),
    ((Some(Sb), PAST), 4_800),
    ((Some(Sb), UNLIMITED), 10_000),
    ((Some(Sb), OUTSIDE), 2_100),
    ((Some(Swa), REFUSED), 20_000),
    ((Some(Swa), RIGHT_BELOW), 10_000),
    ((Some(Swa), AT), 1_800),
    ((Some(Swa), PAST), 2_000),
    ((Some(Swa), UNLIMITED), 6_800),
    ((Some(Swa), MISALIGNED), 580),
    ((Some(Swa), ACROSS), 90),
    ((Some(Swa), OUTSIDE), 1_800),
    ((Some(Swa), LINKED), 6_400),
    ((Some(Swa), LINKED_ELSEWHERE), 930),
    ((Some(Swa), UNLINKED), 13_000),
    ((Some(Swa), WITH_F), 7_500),
    ((Some(Swa), WITHOUT_F), 13_000),
    ((Some(Swa), FAILED_AT), 3_900),
    ((Some(Swa), FAILED_PAST), 5_500),
    ((Some(Lwa), READ_BELOW), 13_000),
    ((Some(Lwa), READ_RIGHT_BELOW), 6_300),
    ((Some(Lwz), READ_BELOW), 1_600),
    ((Some(Lwz), READ_RIGHT_BELOW), 120),
    ((Some(Lws), READ_BELOW), 1_600),
    ((Some(Lws), READ_RIGHT_BELOW), 74),
    ((Some(Lbz), READ_BELOW), 1_700),
    ((Some(Lbz), READ_RIGHT_BELOW), 75),
    ((Some(Lbs), READ_BELOW), 1_600),
    ((Some(Lbs), READ_RIGHT_BELOW), 66),
    ((Some(Lhz), READ_BELOW), 1_700),
    ((Some(Lhz), READ_RIGHT_BELOW), 86),
    ((Some(Lhs), READ_BELOW), 1_800),
    ((Some(Lhs), READ_RIGHT_BELOW), 91),
    ((Some(Cinvalidate), READ_BELOW), 500),
    ((Some(Cinvalidate), READ_RIGHT_BELOW), 81),
    ((Some(Cwriteback), READ_BELOW), 560),
    ((Some(Cwriteback), READ_RIGHT_BELOW), 26),
    ((Some(Cflush), READ_BELOW), 520),
    ((Some(Cflush), READ_RIGHT_BELOW), 28),
    ((None, FETCH_FILLED), 370_000),
    ((None, FETCH_EMPTY), 56_000),
    ((None, IN_SLOT), 3_700),
    ((None, BY_ANOTHER), 21_000),
    ((None, OTHERS_LINK), 1_500),
    ((None, OWN_LINK), 6_500),
    ((None, OTHER_LINK), 3_300),
    ((None, FILLED), 17_000),
    ((None, EMPTY), 26_000),
    ((None, OWN_WORD), 1_700),
    ((None, OTHER_VALUE), 43_000),
    ((None, SAME_VALUE), 410),
    ((None, ALL_READ_ONLY), 2_600),
    ((None, LEAST_LIMIT), 430),
    ((None, LATCHED), 20_000),
];

fn is_store(kind: Kind) -> bool {
    matches!(kind, Swa | Sw | Sb | Sh)
}

/// "words 4, halves 2"; p.* have one byte.
fn width(kind: Kind) -> u32 {
    match kind {
        Lwa | Lwz | Lws | Swa | Sw => 4,
        Lhz | Lhs | Sh => 2,
        _ => 1,
    }
}

/// One access as the note reads it.
struct Met<'a> {
    entry: &'a Entry,
    insn: Insn,
    access: &'a Access,
    width: u32,
    aligned: bool,
    outside: bool,
    /// Some byte of it is below the limit.
    below: bool,
}

impl Met<'_> {
    /// It is due to be refused.
    fn refused(&self) -> bool {
        is_store(self.insn.kind) && self.aligned && self.below
    }

    /// Whether the access raised what it must, and left what a refused one must.
    fn as_noted(&self, vector: u32) -> bool {
        let bus = self.aligned && (self.outside || self.refused());
        let due = match self.aligned {
            false => Some(Cause::Alignment),
            true => bus.then_some(Cause::Bus),
        };
        self.entry.raised == due && (!self.refused() || self.left_as_noted(vector))
    }

    /// "writes no memory and clears no other core's link"; the table's entry stays
    /// too, but for that of the instruction itself, which is fetched.
    fn left_as_noted(&self, vector: u32) -> bool {
        let Entry { who, before, after, .. } = self.entry;
        let (slot, address) = (before.delay, self.access.address);
        let taken = Core {
            pc: vector,
            delay: false,
            target: 0,
            epcr: if slot { before.pc.wrapping_sub(4) } else { before.pc },
            eear: address,
            esr: before.sr,
            sr: before.sr & !(TEE | IEE | OVE | DSX) | SM | if slot { DSX } else { 0 },
            link: false,
            link_address: 0,
            picsr: before.picsr | self.entry.lines & before.picmr,
            ..*before
        };
        let mut word = self.access.before;
        word.linked[*who] = false;
        word.filled |= address & !3 == before.pc;
        *after == taken && self.access.after == word
    }

    /// The word that the store would have left.
    fn written(&self) -> Option<u32> {
        let shift = 8 * (4 - self.width - self.access.address % 4);
        let mask = (u32::MAX >> (32 - 8 * self.width)) << shift;
        let value = self.entry.before.get(self.insn.b) << shift;
        self.access.before.value.map(|word| word & !mask | value & mask)
    }
}

impl Limits {
    /// Another case begins.
    pub fn start(&mut self, case: &Case) {
        (self.limit, self.bytes) = (case.limit, case.memory.len() as u32);
        self.vector = case.vectors[0];
    }

    fn add<const N: usize>(&mut self, kind: Option<Kind>, classes: [(&'static str, bool); N]) {
        for (class, _) in classes.into_iter().filter(|(_, met)| *met) {
            *self.met.entry((kind, class)).or_default() += 1;
        }
    }

    pub fn note(&mut self, entry: &Entry) {
        let (true, Some(insn)) = (entry.before.is_running(), entry.insn) else {
            return;
        };
        if entry.raised == Some(Cause::Interrupt) {
            return;
        }
        if entry.before.pc < self.limit {
            self.add(None, [(FETCH_FILLED, entry.held), (FETCH_EMPTY, !entry.held)]);
        }
        if let Some(access) = &entry.access {
            self.note_access(&self.met(entry, insn, access));
        }
    }

    fn met<'a>(&self, entry: &'a Entry, insn: Insn, access: &'a Access) -> Met<'a> {
        let (address, width) = (access.address, width(insn.kind));
        let mut bytes = (0..width).map(|byte| address.wrapping_add(byte));
        Met {
            entry,
            insn,
            access,
            width,
            aligned: address.is_multiple_of(width),
            outside: bytes.clone().any(|byte| byte >= self.bytes),
            below: bytes.any(|byte| byte < self.limit),
        }
    }

    fn note_access(&mut self, met: &Met) {
        self.otherwise += u32::from(!met.as_noted(self.vector));
        let kind = met.insn.kind;
        if !is_store(kind) {
            let (below, next) =
                (met.aligned && met.below, met.access.address.wrapping_add(met.width));
            let right_below = below && next == self.limit;
            return self.add(Some(kind), [(READ_BELOW, below), (READ_RIGHT_BELOW, right_below)]);
        }
        self.note_store(met);
        if kind == Swa {
            self.note_conditional_store(met);
        }
        if met.refused() {
            self.note_refused(met);
        }
    }

    fn note_store(&mut self, met: &Met) {
        let (limit, address) = (self.limit, met.access.address);
        let (refused, limited) = (met.refused(), self.limit != 0);
        let fails = met.insn.kind == Swa && !met.entry.after.has(F);
        let stored = met.entry.raised.is_none() && !fails;
        let across = met.below && address.wrapping_add(met.width) > limit;
        self.add(
            Some(met.insn.kind),
            [
                (REFUSED, refused),
                (RIGHT_BELOW, refused && address + met.width == limit),
                (AT, stored && limited && address == limit),
                (PAST, stored && limited && address > limit),
                (UNLIMITED, stored && !limited),
                (MISALIGNED, !met.aligned && met.below),
                (ACROSS, !met.aligned && across),
                (OUTSIDE, met.aligned && met.outside && limited),
            ],
        );
    }

    /// What is told apart of l.swa alone.
    fn note_conditional_store(&mut self, met: &Met) {
        let (entry, refused) = (met.entry, met.refused());
        let linked = met.access.before.linked[entry.who];
        let fails = entry.raised.is_none() && !entry.after.has(F) && self.limit != 0;
        self.add(
            Some(Swa),
            [
                (LINKED, refused && linked),
                (LINKED_ELSEWHERE, refused && !linked && entry.before.link),
                (UNLINKED, refused && !entry.before.link),
                (WITH_F, refused && entry.before.has(F)),
                (WITHOUT_F, refused && !entry.before.has(F)),
                (FAILED_AT, fails && met.access.address == self.limit),
                (FAILED_PAST, fails && met.access.address > self.limit),
            ],
        );
    }

    /// What a refused store finds.
    fn note_refused(&mut self, met: &Met) {
        let Met { entry, access, .. } = met;
        let Entry { who, before, after, .. } = entry;
        let (linked, word) = (access.before.linked, access.address & !3);
        let others = linked.iter().enumerate().any(|(core, link)| core != *who && *link);
        let same = met.written() == access.before.value;
        self.add(
            None,
            [
                (IN_SLOT, before.delay),
                (BY_ANOTHER, *who != 0),
                (OTHERS_LINK, others),
                (OWN_LINK, linked[*who]),
                (OTHER_LINK, before.link && !linked[*who]),
                (FILLED, access.before.filled),
                (EMPTY, !access.before.filled),
                (OWN_WORD, word == before.pc),
                (OTHER_VALUE, !same),
                (SAME_VALUE, same),
                (ALL_READ_ONLY, self.limit == self.bytes),
                (LEAST_LIMIT, self.limit == 4),
                (LATCHED, after.picsr != 0),
            ],
        );
    }

    /// Takes in what others counted.
    pub fn join(&mut self, other: Limits) {
        join(&mut self.met, other.met);
        self.otherwise += other.otherwise;
    }

    /// Shows the counts. Stops if one is smaller than so many times its least
    /// number: then the cases would say too little about the note.
    pub fn expect(&self, what: &str, times: u32) {
        let listed = |class: &Class| LEAST.iter().any(|(listed, _)| listed == class);
        assert!(self.met.keys().all(listed), "{what}: every class has its least number");
        let mut short = vec![];
        for ((kind, text), least) in LEAST {
            let (class, least) = ((*kind, *text), times * least);
            let count = self.met.get(&class).copied().unwrap_or(0);
            let kind = kind.map_or(String::new(), |kind| format!("{kind:?} "));
            show(&format!("{what}, limits, {kind}{text}: {count}"));
            if count < least {
                short.push(format!("{kind}{text}: {count} of {least}"));
            }
        }
        assert!(short.is_empty(), "{what}, limits: {short:#?}");
        assert_eq!(self.otherwise, 0, "{what}: accesses otherwise than note 5 says");
    }
}
