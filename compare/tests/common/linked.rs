//! How often entries meet what note 8 of document 02 tells apart.

use super::show;
use super::watch::{Entry, Linked};
use compare::cases::Case;
use compare::exec::Cause;
use compare::isa::Insn;
use compare::isa::Kind::{self, *};
use compare::state::{Core, Mode, CY, F, IEE, OV, OVE};
use std::collections::BTreeMap;

/// Classes that are counted together.
#[derive(Clone, Copy)]
enum Group {
    Fetch,
    OwnEntry,
    Other,
    Lead,
    Shared,
    Together,
    State,
    Raise,
    Beside,
    Jump,
    Own,
    Memory,
    ConditionalStore,
    Store,
}

const GROUPS: usize = Group::Store as usize + 1;
/// The most of them in a group.
const MOST: usize = 16;

#[derive(Default)]
pub struct Links {
    /// Each class and how often it was met.
    met: [[(&'static str, u32); MOST]; GROUPS],
    /// Cases, and those that have linked cores.
    cases: [u32; 2],
    /// Of the case that is watched.
    bytes: u32,
    limit: u32,
    /// The core that last wrote a word, and whether it was linked then.
    writers: BTreeMap<u32, (usize, bool)>,
    /// Entries that did otherwise than the note says.
    otherwise: u32,
}

/// What is counted, and the least number of it in 31,000 cases of up to 400
/// entries: about half of what they give.
const LEAST: &[(&str, u32)] = &[
    ("a linked core's word fetched by core 0", 6_100),
    ("a linked core's word fetched by another", 460),
    ("own entry", 91_000),
    ("own entry, a line high", 12_000),
    ("own entry, an interrupt latched", 3_900),
    ("own entry while core 0 is halted", 510),
    ("another running core's entry", 75_000),
    ("another running core's l.nop 1", 49),
    ("another running core raises", 11_000),
    ("another core's store clears a linked core's link", 61),
    ("core 0's entry while it is halted", 3_900),
    ("core 0 raises", 110_000),
    ("core 0 fetches outside memory", 33_000),
    ("core 0 raises bus", 28_000),
    ("core 0 raises alignment", 10_000),
    ("core 0 raises illegal", 5_800),
    ("core 0 raises range", 3_900),
    ("core 0 raises syscall", 1_000),
    ("core 0 raises trap", 2_700),
    ("core 0 takes an interrupt", 24_000),
    ("core 0 takes an interrupt that a linked core lets through", 11_000),
    ("core 0 raises in a slot", 8_200),
    ("core 0 raises, a linked core has a link", 69_000),
    ("shared by one linked core", 310_000),
    ("shared by two", 190_000),
    ("shared by three", 66_000),
    ("shared, the entry filled", 520_000),
    ("shared, the entry empty", 73_000),
    ("shared, in a slot", 51_000),
    ("core 0 stores into the running word", 690),
    ("several raise at once", 240),
    ("all that are linked raise", 870),
    ("with an interrupt latched", 39_000),
    ("with a line high that it lets through", 120_000),
    ("from another PC", 140_000),
    ("with delay where core 0 has none", 13_000),
    ("without delay where core 0 has it", 460),
    ("a jump with delay on its own sheet", 1_500),
    ("raises alignment", 360),
    ("raises bus outside memory", 340),
    ("raises bus below the limit", 160),
    ("raises range by a sum", 550),
    ("raises range by a product", 270),
    ("raises range by a division", 250),
    ("raises on a load", 390),
    ("raises on a store", 370),
    ("raises on l.swa", 100),
    ("raises on p.*", 7),
    ("raises in a slot", 140),
    ("raises, a higher one goes on", 460),
    ("raises, a lower one goes on", 510),
    ("raises, its link stays", 1_000),
    ("raises, its link cleared by core 0", 61),
    ("raises, its link cleared by a lower one", 24),
    ("raises, its link cleared by a higher one", 20),
    ("raises range where rD would change", 750),
    ("raises range where a flag would change", 960),
    ("raises range without OVE on core 0", 870),
    ("raises with other places than core 0's", 110),
    ("l.bf by another F", 6_300),
    ("l.bnf by another F", 7_900),
    ("l.jr to another rB", 1_900),
    ("l.jr, its rB no target", 570),
    ("l.jalr to another rB", 1_500),
    ("l.jalr, its rB no target", 480),
    ("l.jal", 10_000),
    ("l.jal from another PC", 720),
    ("l.jalr from another PC", 660),
    ("l.rfe", 160_000),
    ("l.rfe, its EPCR another", 160_000),
    ("l.rfe, its ESR not its SR", 160_000),
    ("l.rfe with a link", 96_000),
    ("l.nop 1", 450),
    ("l.nop 1 in a slot", 49),
    ("l.cmov by another F", 2_800),
    ("a sum with another CY", 2_200),
    ("a flag set otherwise", 3_100),
    ("out of range without OVE, core 0 having it", 390),
    ("its own number read", 14_000),
    ("the count read", 990),
    ("its own special register read", 88_000),
    ("its own SR written", 940),
    ("its own PICSR written", 570),
    ("another special register written", 96_000),
    ("its own accumulator", 12_000),
    ("its own accumulator moved", 720),
    ("another result", 240_000),
    ("a load from another address", 16_000),
    ("a load of what another linked core wrote", 950),
    ("a load of what core 0 wrote", 3_300),
    ("l.lwa", 24_000),
    ("l.lwa of another word", 9_600),
    ("l.swa stores", 2_200),
    ("l.swa fails", 16_000),
    ("l.swa fails, its link lost to core 0 in the step", 3_000),
    ("l.swa fails, its link lost to a lower one in the step", 120),
    ("l.swa stores where core 0's fails", 610),
    ("l.swa fails where core 0's stores", 3_300),
    ("l.swa stores where core 0's does", 1_800),
    ("stores", 31_000),
    ("stores where core 0 does, another value", 2_100),
    ("stores where a lower one does", 4_200),
    ("empties a filled entry", 4_000),
    ("stores into the running word", 670),
    ("stores into the running word, core 0 not", 76),
    ("stores into the word to run next", 340),
    ("clears core 0's link", 330),
    ("clears a running core's link", 66),
    ("clears a linked core's link", 540),
    ("clears a halted core's link", 27),
];

/// Why a linked core would raise.
#[derive(Clone, Copy, PartialEq)]
enum Why {
    Misaligned,
    Outside,
    Below,
    Sum,
    Product,
    Division,
}

fn is_store(kind: Kind) -> bool {
    matches!(kind, Swa | Sw | Sb | Sh)
}

fn is_load(kind: Kind) -> bool {
    matches!(kind, Lwa | Lwz | Lws | Lbz | Lbs | Lhz | Lhs)
}

fn is_jump(kind: Kind) -> bool {
    matches!(kind, J | Jal | Jr | Jalr | Bf | Bnf)
}

/// "words 4, halves 2"; p.* have one byte.
fn width(kind: Kind) -> u32 {
    match kind {
        Lwa | Lwz | Lws | Swa | Sw => 4,
        Lhz | Lhs | Sh => 2,
        _ => 1,
    }
}

/// What a sum, a difference or a signed product exactly is, and its low 32 bits.
fn exact(core: &Core, insn: Insn) -> Option<(i64, u32)> {
    let signed = |word: u32| i64::from(word as i32);
    let (x, y, i) = (core.get(insn.a), core.get(insn.b), insn.imm);
    let carry = u32::from(core.has(CY));
    Some(match insn.kind {
        Add => (signed(x) + signed(y), x.wrapping_add(y)),
        Addc => (signed(x) + signed(y) + i64::from(carry), x.wrapping_add(y).wrapping_add(carry)),
        Sub => (signed(x) - signed(y), x.wrapping_sub(y)),
        Addi => (signed(x) + signed(i), x.wrapping_add(i)),
        Addic => (signed(x) + signed(i) + i64::from(carry), x.wrapping_add(i).wrapping_add(carry)),
        Mul => (signed(x) * signed(y), x.wrapping_mul(y)),
        Muli => (signed(x) * signed(i), x.wrapping_mul(i)),
        _ => return None,
    })
}

/// Whether it does not fit, or the divisor is 0: with OVE that raises range.
fn is_out_of_range(core: &Core, insn: Insn) -> bool {
    match insn.kind {
        Div | Divu => core.get(insn.b) == 0,
        _ => exact(core, insn).is_some_and(|(exact, low)| exact != i64::from(low as i32)),
    }
}

/// One linked core that executes what core 0 fetched.
struct Met<'a> {
    entry: &'a Entry,
    insn: Insn,
    one: &'a Linked,
    why: Option<Why>,
}

impl Met<'_> {
    fn kind(&self) -> Kind {
        self.insn.kind
    }

    /// Whether a value was another on its core than on core 0.
    fn differs<T: PartialEq>(&self, of: impl Fn(&Core) -> T) -> bool {
        of(&self.one.before) != of(&self.entry.before)
    }

    /// Whether one of these cores wrote a word in the step.
    fn writes(&self, word: u32, of: impl Fn(usize) -> bool) -> bool {
        let by_linked = |other: &Linked| of(other.who) && other.stored == Some(word);
        of(0) && self.entry.stored == Some(word) || self.entry.linked.iter().any(by_linked)
    }

    /// Whether one of them wrote the word that its link is to.
    fn link_is_cleared(&self, of: impl Fn(usize) -> bool) -> bool {
        let before = &self.one.before;
        before.link && self.writes(before.link_address, of)
    }

    /// Whether the core was left as the note says, as far as that is not the
    /// instruction's own matter.
    fn as_noted(&self) -> bool {
        let Linked { who, before, after, .. } = self.one;
        let lead = &self.entry.after;
        let cleared = self.link_is_cleared(|other| other != *who);
        if self.why.is_some() {
            let mut left = Core { mode: Mode::Halted, ..*before };
            if cleared {
                left.clear_link();
            }
            return *after == left && self.one.stored.is_none();
        }
        let halts = self.kind() == Nop && self.insn.imm == 1;
        let mode = if halts { Mode::Halted } else { Mode::Linked };
        let places = |core: &Core| (core.pc, core.delay, core.target);
        places(after) == places(lead) && after.mode == mode && self.own_are_noted(cleared)
    }

    /// Of a core that goes on: what an instruction of its kind may not change, and r9.
    fn own_are_noted(&self, cleared: bool) -> bool {
        let Linked { before, after, .. } = self.one;
        let kind = self.kind();
        let link = matches!(kind, Lwa | Swa) || self.one.stored.is_some();
        let kept = match kind {
            Mtspr => return true,
            Jal | Jalr => {
                let mut regs = before.regs;
                regs[9] = self.entry.before.pc.wrapping_add(8);
                after.regs == regs && after.sr == before.sr
            }
            J | Jr | Bf | Bnf | Rfe | Nop => after.regs == before.regs && after.sr == before.sr,
            _ => {
                let others = (1..32).filter(|&number| number != self.insn.d.index());
                others.into_iter().all(|number| after.regs[number] == before.regs[number])
            }
        };
        let special = |core: &Core| (core.epcr, core.eear, core.esr, core.picmr, core.picsr);
        let link_kept = link || after.link == (before.link && !cleared);
        kept && special(after) == special(before) && link_kept
    }
}

impl Links {
    /// Another case begins.
    pub fn start(&mut self, case: &Case) {
        (self.bytes, self.limit) = (case.memory.len() as u32, case.limit);
        self.writers.clear();
        let linked = (1..case.cores()).any(|core| compare::linked::is_linked(case, core));
        self.cases[0] += 1;
        self.cases[1] += u32::from(linked);
    }

    /// By places, as names would have to be looked for at every entry.
    fn add<const N: usize>(&mut self, group: Group, classes: [(&'static str, bool); N]) {
        const { assert!(N <= MOST) };
        for (count, (class, met)) in self.met[group as usize].iter_mut().zip(classes) {
            *count = (class, count.1 + u32::from(met));
        }
    }

    pub fn note(&mut self, entry: &Entry) {
        if entry.linked.is_empty() {
            return;
        }
        self.note_fetch(entry);
        let fetched = entry.who == 0 && entry.before.is_running() && entry.raised.is_none();
        match entry.insn.filter(|_| fetched) {
            Some(insn) => self.note_shared(entry, insn),
            None => self.note_alone(entry),
        }
        self.remember(entry);
    }

    /// Why a core would raise, by its own registers alone.
    fn why(&self, insn: Insn, one: &Linked) -> Option<Why> {
        let (core, kind) = (&one.before, insn.kind);
        if let Some(access) = &one.access {
            let (address, width) = (access.address, width(kind));
            let last = u64::from(address) + u64::from(width);
            return match () {
                _ if !address.is_multiple_of(width) => Some(Why::Misaligned),
                _ if last > u64::from(self.bytes) => Some(Why::Outside),
                _ if is_store(kind) && address < self.limit => Some(Why::Below),
                _ => None,
            };
        }
        (core.has(OVE) && is_out_of_range(core, insn)).then_some(match kind {
            Div | Divu => Why::Division,
            Mul | Muli => Why::Product,
            _ => Why::Sum,
        })
    }

    /// A fetch, whosever it is, of a word that a linked core wrote.
    fn note_fetch(&mut self, entry: &Entry) {
        let fetched = entry.before.is_running() && entry.insn.is_some();
        let written = matches!(self.writers.get(&entry.before.pc), Some((_, true)));
        self.add(
            Group::Fetch,
            [
                ("a linked core's word fetched by core 0", fetched && written && entry.who == 0),
                ("a linked core's word fetched by another", fetched && written && entry.who != 0),
            ],
        );
    }

    /// An entry at which linked cores do nothing.
    fn note_alone(&mut self, entry: &Entry) {
        let kept = |one: &Linked| {
            let mut left = one.before;
            if left.link && entry.stored == Some(left.link_address) {
                left.clear_link();
            }
            one.after == left && one.stored.is_none()
        };
        self.otherwise += u32::from(!entry.linked.iter().all(kept));
        let lines = |one: &Linked| entry.lines & one.before.picmr & !one.before.picsr != 0;
        if let Some(own) = entry.linked.iter().find(|one| one.who == entry.who) {
            let due = own.before.picsr != 0 && own.before.has(IEE) && !own.before.delay;
            self.add(
                Group::OwnEntry,
                [
                    ("own entry", true),
                    ("own entry, a line high", lines(own)),
                    ("own entry, an interrupt latched", due),
                    ("own entry while core 0 is halted", entry.modes[0] == Mode::Halted),
                ],
            );
        } else if entry.who != 0 {
            self.note_other(entry);
        } else {
            self.note_lead_raises(entry);
        }
    }

    /// An entry of a core that is neither core 0 nor linked.
    fn note_other(&mut self, entry: &Entry) {
        let lost = |one: &Linked| one.before.link && !one.after.link;
        let halts = entry.before.is_running() && !entry.after.is_running();
        self.add(
            Group::Other,
            [
                ("another running core's entry", entry.before.is_running()),
                ("another running core's l.nop 1", halts),
                ("another running core raises", entry.raised.is_some()),
                ("another core's store clears a linked core's link", entry.linked.iter().any(lost)),
            ],
        );
    }

    /// Core 0 raises, or is halted.
    fn note_lead_raises(&mut self, entry: &Entry) {
        let raised = entry.raised;
        let lines = |one: &Linked| entry.lines & one.before.picmr & !one.before.picsr != 0;
        let with_link = |one: &Linked| one.before.link;
        self.add(
            Group::Lead,
            [
                ("core 0's entry while it is halted", !entry.before.is_running()),
                ("core 0 raises", raised.is_some()),
                (
                    "core 0 fetches outside memory",
                    raised == Some(Cause::Bus) && entry.insn.is_none(),
                ),
                ("core 0 raises bus", raised == Some(Cause::Bus) && entry.insn.is_some()),
                ("core 0 raises alignment", raised == Some(Cause::Alignment)),
                ("core 0 raises illegal", raised == Some(Cause::Illegal)),
                ("core 0 raises range", raised == Some(Cause::Range)),
                ("core 0 raises syscall", raised == Some(Cause::Syscall)),
                ("core 0 raises trap", raised == Some(Cause::Trap)),
                ("core 0 takes an interrupt", raised == Some(Cause::Interrupt)),
                (
                    "core 0 takes an interrupt that a linked core lets through",
                    raised == Some(Cause::Interrupt) && entry.linked.iter().any(lines),
                ),
                ("core 0 raises in a slot", raised.is_some() && entry.before.delay),
                (
                    "core 0 raises, a linked core has a link",
                    raised.is_some() && entry.linked.iter().any(with_link),
                ),
            ],
        );
    }

    /// A fetch that linked cores share.
    fn note_shared(&mut self, entry: &Entry, insn: Insn) {
        let count = entry.linked.len();
        let own_word = entry.stored == Some(entry.before.pc);
        self.add(
            Group::Shared,
            [
                ("shared by one linked core", count == 1),
                ("shared by two", count == 2),
                ("shared by three", count == 3),
                ("shared, the entry filled", entry.held),
                ("shared, the entry empty", !entry.held),
                ("shared, in a slot", entry.before.delay),
                ("core 0 stores into the running word", own_word),
            ],
        );
        let raising = |one: &&Linked| self.why(insn, one).is_some();
        let raised = entry.linked.iter().filter(raising).count();
        self.add(
            Group::Together,
            [("several raise at once", raised > 1), ("all that are linked raise", raised == count)],
        );
        for one in &entry.linked {
            let met = Met { entry, insn, one, why: self.why(insn, one) };
            self.otherwise += u32::from(!met.as_noted());
            self.note_state(&met);
            if met.why.is_some() {
                self.note_raise(&met);
            } else {
                self.note_jump(&met);
                self.note_own(&met);
                self.note_memory(&met);
            }
        }
    }

    /// What the core was like.
    fn note_state(&mut self, met: &Met) {
        let (own, lead) = (&met.one.before, &met.entry.before);
        let due = own.picsr != 0 && own.has(IEE) && !lead.delay;
        let lines = met.entry.lines & own.picmr & !own.picsr != 0;
        self.add(
            Group::State,
            [
                ("with an interrupt latched", due),
                ("with a line high that it lets through", lines),
                ("from another PC", own.pc != lead.pc),
                ("with delay where core 0 has none", own.delay && !lead.delay),
                ("without delay where core 0 has it", !own.delay && lead.delay),
                ("a jump with delay on its own sheet", own.delay && is_jump(met.kind())),
            ],
        );
    }

    fn note_raise(&mut self, met: &Met) {
        let Met { entry, one, insn, .. } = *met;
        let (own, who, kind) = (&one.before, one.who, insn.kind);
        let goes_on = |other: &Linked| other.after.is_linked();
        let higher = entry.linked.iter().any(|other| other.who > who && goes_on(other));
        let lower = entry.linked.iter().any(|other| other.who < who && goes_on(other));
        let range = matches!(met.why, Some(Why::Sum | Why::Product | Why::Division));
        let low = exact(own, insn).map(|(_, low)| low);
        let changes = low.is_some_and(|low| insn.d.index() != 0 && own.get(insn.d) != low);
        let kept = own.link && one.after.link;
        self.add(
            Group::Raise,
            [
                ("raises alignment", met.why == Some(Why::Misaligned)),
                ("raises bus outside memory", met.why == Some(Why::Outside)),
                ("raises bus below the limit", met.why == Some(Why::Below)),
                ("raises range by a sum", met.why == Some(Why::Sum)),
                ("raises range by a product", met.why == Some(Why::Product)),
                ("raises range by a division", met.why == Some(Why::Division)),
                ("raises on a load", is_load(kind)),
                ("raises on a store", is_store(kind) && kind != Swa),
                ("raises on l.swa", kind == Swa),
                ("raises on p.*", matches!(kind, Cinvalidate | Cwriteback | Cflush)),
            ],
        );
        self.add(
            Group::Beside,
            [
                ("raises in a slot", entry.before.delay),
                ("raises, a higher one goes on", higher),
                ("raises, a lower one goes on", lower),
                ("raises, its link stays", kept),
                ("raises, its link cleared by core 0", met.link_is_cleared(|other| other == 0)),
                (
                    "raises, its link cleared by a lower one",
                    met.link_is_cleared(|other| other != 0 && other < who),
                ),
                (
                    "raises, its link cleared by a higher one",
                    met.link_is_cleared(|other| other > who),
                ),
                ("raises range where rD would change", range && changes),
                ("raises range where a flag would change", range && !own.has(OV)),
                ("raises range without OVE on core 0", range && !entry.before.has(OVE)),
                ("raises with other places than core 0's", own.pc != entry.before.pc),
            ],
        );
    }

    /// Jumps, branches, l.rfe and l.nop 1.
    fn note_jump(&mut self, met: &Met) {
        let (own, insn, kind) = (&met.one.before, met.insn, met.kind());
        let other_flag = met.differs(|core| core.has(F));
        let goal = own.get(insn.b);
        let other_goal = met.differs(|core| core.get(insn.b));
        let odd = !goal.is_multiple_of(4);
        let halts = kind == Nop && insn.imm == 1;
        self.add(
            Group::Jump,
            [
                ("l.bf by another F", kind == Bf && other_flag),
                ("l.bnf by another F", kind == Bnf && other_flag),
                ("l.jr to another rB", kind == Jr && other_goal && !odd),
                ("l.jr, its rB no target", kind == Jr && odd),
                ("l.jalr to another rB", kind == Jalr && other_goal && !odd),
                ("l.jalr, its rB no target", kind == Jalr && odd),
                ("l.jal", kind == Jal),
                ("l.jal from another PC", kind == Jal && met.differs(|core| core.pc)),
                ("l.jalr from another PC", kind == Jalr && met.differs(|core| core.pc)),
                ("l.rfe", kind == Rfe),
                ("l.rfe, its EPCR another", kind == Rfe && met.differs(|core| core.epcr)),
                ("l.rfe, its ESR not its SR", kind == Rfe && own.esr != own.sr),
                ("l.rfe with a link", kind == Rfe && own.link),
                ("l.nop 1", halts),
                ("l.nop 1 in a slot", halts && met.entry.before.delay),
            ],
        );
    }

    /// What is done with registers that are the core's own.
    fn note_own(&mut self, met: &Met) {
        let (own, insn, kind) = (&met.one.before, met.insn, met.kind());
        let (after, lead) = (&met.one.after, &met.entry.after);
        let other_result = after.get(insn.d) != lead.get(insn.d);
        let number = own.get(insn.a) | insn.imm;
        let read = kind == Mfspr && insn.d.index() != 0;
        let wrote = kind == Mtspr;
        let sets = (Sfeqi..=Sflesi).contains(&kind) || (Sfeq..=Sfles).contains(&kind);
        let carry = matches!(kind, Addc | Addic) && met.differs(|core| core.has(CY));
        let gathers = matches!(kind, Mac | Maci | Msb);
        let over = is_out_of_range(own, insn) && !own.has(OVE) && met.entry.before.has(OVE);
        self.add(
            Group::Own,
            [
                ("l.cmov by another F", kind == Cmov && met.differs(|core| core.has(F))),
                ("a sum with another CY", carry),
                ("a flag set otherwise", sets && after.has(F) != lead.has(F)),
                ("out of range without OVE, core 0 having it", over),
                ("its own number read", read && number == 128),
                ("the count read", read && number == 129),
                ("its own special register read", read && number != 128 && other_result),
                ("its own SR written", wrote && number == 17 && after.sr != own.sr),
                ("its own PICSR written", wrote && number == 0x4802 && after.picsr != own.picsr),
                ("another special register written", wrote && ![17, 0x4802].contains(&number)),
                ("its own accumulator", gathers && after.accumulator() != lead.accumulator()),
                ("its own accumulator moved", kind == Macrc && other_result),
                ("another result", insn.d.index() != 0 && other_result),
            ],
        );
    }

    /// Loads, stores and links.
    fn note_memory(&mut self, met: &Met) {
        let Some(access) = &met.one.access else {
            return;
        };
        let (kind, who) = (met.kind(), met.one.who);
        let word = access.address & !3;
        let lead_at = met.entry.access.as_ref().map(|access| access.address);
        let writer = self.writers.get(&word).copied();
        let of_another = matches!(writer, Some((core, true)) if core != who);
        self.add(
            Group::Memory,
            [
                ("a load from another address", is_load(kind) && lead_at != Some(access.address)),
                ("a load of what another linked core wrote", is_load(kind) && of_another),
                ("a load of what core 0 wrote", is_load(kind) && writer == Some((0, false))),
                ("l.lwa", kind == Lwa),
                ("l.lwa of another word", kind == Lwa && lead_at != Some(access.address)),
            ],
        );
        if kind == Swa {
            self.note_conditional_store(met, word);
        }
        if met.one.stored.is_some() {
            self.note_store(met, word);
        }
    }

    fn note_conditional_store(&mut self, met: &Met, word: u32) {
        let (own, who, stored) = (&met.one.before, met.one.who, met.one.stored.is_some());
        let lead_stored = met.entry.stored.is_some();
        let lost = !stored && own.link && own.link_address == word;
        let to_lead = lost && met.writes(word, |other| other == 0);
        let to_lower = lost && met.writes(word, |other| other != 0 && other < who);
        self.add(
            Group::ConditionalStore,
            [
                ("l.swa stores", stored),
                ("l.swa fails", !stored),
                ("l.swa fails, its link lost to core 0 in the step", to_lead),
                ("l.swa fails, its link lost to a lower one in the step", to_lower && !to_lead),
                ("l.swa stores where core 0's fails", stored && !lead_stored),
                ("l.swa fails where core 0's stores", !stored && lead_stored),
                ("l.swa stores where core 0's does", stored && lead_stored),
            ],
        );
    }

    fn note_store(&mut self, met: &Met, word: u32) {
        let Met { entry, one, .. } = *met;
        let who = one.who;
        let access = one.access.as_ref().expect("a store has one");
        let same = |core: usize| met.writes(word, |other| other == core);
        let value = |core: &Core| core.get(met.insn.b);
        let cleared = |mode: Mode| {
            let cores = access.before.linked.iter().zip(&entry.modes).enumerate().skip(1);
            let mut lost = cores.filter(|(core, (linked, _))| *core != who && **linked);
            lost.any(|(_, (_, &found))| found == mode)
        };
        let own_word = word == entry.before.pc;
        let lower = entry.linked.iter().any(|other| other.who < who && same(other.who));
        self.add(
            Group::Store,
            [
                ("stores", true),
                ("stores where core 0 does, another value", same(0) && met.differs(value)),
                ("stores where a lower one does", lower),
                ("empties a filled entry", access.before.filled && !own_word),
                ("stores into the running word", own_word),
                ("stores into the running word, core 0 not", own_word && !same(0)),
                ("stores into the word to run next", word == entry.after.pc),
                ("clears core 0's link", access.before.linked[0] && !same(0)),
                ("clears a running core's link", cleared(Mode::Running)),
                ("clears a linked core's link", cleared(Mode::Linked)),
                ("clears a halted core's link", cleared(Mode::Halted)),
            ],
        );
    }

    /// Notes who wrote what.
    fn remember(&mut self, entry: &Entry) {
        if let Some(word) = entry.stored {
            self.writers.insert(word, (entry.who, false));
        }
        for one in &entry.linked {
            if let Some(word) = one.stored {
                self.writers.insert(word, (one.who, true));
            }
        }
    }

    /// Takes in what others counted.
    pub fn join(&mut self, other: Links) {
        for ((class, count), (named, more)) in
            self.met.iter_mut().flatten().zip(other.met.iter().flatten())
        {
            // Unnamed until it is met.
            if !named.is_empty() {
                (*class, *count) = (named, *count + more);
            }
        }
        for (count, more) in self.cases.iter_mut().zip(other.cases) {
            *count += more;
        }
        self.otherwise += other.otherwise;
    }

    /// Shows the counts. Stops if one is smaller than so many times its least
    /// number, or too few cases have linked cores: then they would say too little
    /// about the note.
    pub fn expect(&self, what: &str, times: u32) {
        let [all, linked] = self.cases;
        show(&format!("{what}, linked cores: {linked} of {all} cases"));
        let counts: BTreeMap<&str, u32> =
            self.met.iter().flatten().copied().filter(|(_, count)| *count != 0).collect();
        let listed = |class: &&str| LEAST.iter().any(|(listed, _)| listed == class);
        let unlisted: Vec<_> = counts.iter().filter(|(class, _)| !listed(class)).collect();
        assert!(unlisted.is_empty(), "{what}: no least number: {unlisted:#?}");
        let mut short = vec![];
        for (class, least) in LEAST {
            let (count, least) = (counts.get(class).copied().unwrap_or(0), times * least);
            show(&format!("{what}, linked cores, {class}: {count}"));
            if count < least {
                short.push(format!("{class}: {count} of {least}"));
            }
        }
        assert!(short.is_empty(), "{what}, linked cores: {short:#?}");
        assert!((all.div_ceil(3)..all * 36 / 100).contains(&linked), "{what}: {linked} of {all}");
        assert_eq!(self.otherwise, 0, "{what}: linked cores otherwise than note 8 says");
    }
}
