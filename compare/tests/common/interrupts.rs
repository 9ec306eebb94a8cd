//! How often entries meet what note 4 of document 02 tells apart.

use super::watch::Entry;
use super::{join, show};
use compare::cases::Case;
use compare::exec::Cause;
use compare::isa::Insn;
use compare::isa::Kind::{self, *};
use compare::state::{Core, Mode, DSX, F, IEE, OVE, SM, TEE};
use std::collections::BTreeMap;

const PICMR: u32 = 0x4800;
const PICSR: u32 = 0x4802;

/// What made an interrupt possible that was not before.
#[derive(Clone, Copy, Default, PartialEq)]
enum Last {
    #[default]
    Other,
    /// The slot is over.
    Slot,
    /// l.rfe made IEE 1.
    Return,
    /// l.mtspr made IEE 1.
    Write,
}

/// What came before on a core.
#[derive(Clone, Copy, Default)]
struct Past {
    last: Last,
    /// The word of a link that an interrupt cleared.
    lost: Option<u32>,
    /// PICSR lost a bit since the last interrupt.
    acknowledged: bool,
}

#[derive(Default)]
pub struct Interrupts {
    met: BTreeMap<&'static str, u32>,
    past: [Past; 4],
    /// The interrupts' vector of the case that is watched.
    vector: u32,
    /// Entries that did otherwise than the note says.
    otherwise: u32,
}

/// What is counted, and the least number of it in 31,000 cases of up to 400
/// entries: about half of what the 20,000 without linked cores give.
const LEAST: &[(&str, u32)] = &[
    ("halted core, a line high", 30_000),
    ("all lines low, PICSR 0", 1_000_000),
    ("a masked line alone high", 150_000),
    ("a masked line high beside another", 100_000),
    ("line 0 or 1 latched", 40_000),
    ("another line latched", 70_000),
    ("a line high, latched already", 200_000),
    ("taken", 70_000),
    ("taken as the line rises", 14_000),
    ("taken with the line low again", 28_000),
    ("taken for a line masked since", 700),
    ("taken for several lines", 40_000),
    ("taken, the entry filled", 35_000),
    ("taken, the entry empty", 30_000),
    ("taken with PC outside memory", 4_500),
    ("taken right after a slot", 1_800),
    ("taken right after l.rfe", 50_000),
    ("taken right after l.mtspr to SR", 800),
    ("taken again at once, the line still high", 24_000),
    ("taken with a link", 2_800),
    ("taken with DSX", 35_000),
    ("taken with OVE", 60_000),
    ("taken with TEE", 35_000),
    ("taken without SM", 35_000),
    ("taken with F", 33_000),
    ("taken with EEAR not 0", 70_000),
    ("taken by another core than 0", 35_000),
    ("taken where another core stands", 2_800),
    ("taken in place of a store", 9_000),
    ("taken in place of a jump", 11_000),
    ("taken in place of l.rfe", 3_500),
    ("taken in place of l.nop 1", 180),
    ("taken in place of another exception", 1_200),
    ("waits for IEE", 900_000),
    ("waits for the end of a slot", 2_400),
    ("waits while another exception is taken", 70_000),
    ("waits while a slot raises", 380),
    ("waits on a core that halts", 650),
    ("l.swa fails after an interrupt", 260),
    ("PICMR read", 3_500),
    ("PICSR read", 16_000),
    ("PICSR read, latched by that entry", 2_500),
    ("PICMR changed", 4_800),
    ("PICMR written without bits 0 and 1", 10_000),
    ("PICMR masks a latched line", 700),
    ("PICSR cleared whole", 38_000),
    ("PICSR cleared in part", 8_000),
    ("PICSR written with other bits", 17_000),
    ("PICSR cleared, latched by that entry", 10_000),
    ("PICSR cleared in a slot under IEE", 180),
];

/// One entry of a running core, as the note reads it.
struct Met<'a> {
    entry: &'a Entry,
    /// The bits that PICSR gains.
    gained: u32,
    /// PICSR after that.
    latched: u32,
    taken: bool,
}

impl Met<'_> {
    fn of(entry: &Entry) -> Met<'_> {
        let let_through = entry.lines & entry.before.picmr;
        Met {
            entry,
            gained: let_through & !entry.before.picsr,
            latched: let_through | entry.before.picsr,
            taken: entry.raised == Some(Cause::Interrupt),
        }
    }

    fn kind(&self) -> Option<Kind> {
        self.entry.insn.map(|insn| insn.kind)
    }

    /// What stands at PC halts its core.
    fn halts(&self) -> bool {
        self.entry.insn.is_some_and(|insn| insn.kind == Nop && insn.imm == 1)
    }

    /// Whether the entry did what the note says, as far as it tells whether an
    /// interrupt is taken and what that leaves.
    fn as_noted(&self, vector: u32) -> bool {
        let Entry { before, after, .. } = self.entry;
        let due = self.latched != 0 && before.has(IEE) && !before.delay;
        let taken = Core {
            pc: vector,
            epcr: before.pc,
            esr: before.sr,
            sr: before.sr & !(TEE | IEE | OVE | DSX) | SM,
            link: false,
            link_address: 0,
            picsr: self.latched,
            ..*before
        };
        self.taken == due && (!due || *after == taken)
    }
}

impl Interrupts {
    /// Another case begins.
    pub fn start(&mut self, case: &Case) {
        (self.past, self.vector) = (Default::default(), case.vectors[6]);
    }

    fn add<const N: usize>(&mut self, classes: [(&'static str, bool); N]) {
        for (class, _) in classes.into_iter().filter(|(_, met)| *met) {
            *self.met.entry(class).or_default() += 1;
        }
    }

    pub fn note(&mut self, entry: &Entry) {
        let met = Met::of(entry);
        if !entry.before.is_running() {
            let halted = entry.before.mode == Mode::Halted;
            self.add([("halted core, a line high", halted && met.gained != 0)]);
            self.otherwise += u32::from(entry.after != entry.before);
            return;
        }
        self.otherwise += u32::from(!met.as_noted(self.vector));
        self.note_lines(&met);
        if met.taken {
            self.note_taken(&met);
            self.note_place(&met);
        } else {
            self.note_waiting(&met);
            self.note_instruction(&met);
        }
        self.remember(&met);
    }

    fn note_lines(&mut self, met: &Met) {
        let (lines, before) = (met.entry.lines, &met.entry.before);
        let (masked, open) = (lines & !before.picmr != 0, lines & before.picmr != 0);
        self.add([
            ("all lines low, PICSR 0", lines == 0 && before.picsr == 0),
            ("a masked line alone high", masked && !open),
            ("a masked line high beside another", masked && open),
            ("line 0 or 1 latched", met.gained & 3 != 0),
            ("another line latched", met.gained & !3 != 0),
            ("a line high, latched already", lines & before.picsr != 0),
        ]);
    }

    /// How an interrupt came about, and what its core was like.
    fn note_taken(&mut self, met: &Met) {
        let Met { entry, latched, .. } = *met;
        let (before, past) = (&entry.before, self.past[entry.who]);
        let after = |last| past.last == last && before.picsr != 0;
        let again = past.last == Last::Return && past.acknowledged;
        self.add([
            ("taken", true),
            ("taken as the line rises", before.picsr == 0),
            ("taken with the line low again", entry.lines == 0),
            ("taken for a line masked since", latched & before.picmr == 0),
            ("taken for several lines", latched.count_ones() > 1),
            ("taken right after a slot", after(Last::Slot)),
            ("taken right after l.rfe", after(Last::Return)),
            ("taken right after l.mtspr to SR", after(Last::Write)),
            ("taken again at once, the line still high", again && entry.lines != 0),
            ("taken with a link", before.link),
            ("taken with DSX", before.has(DSX)),
            ("taken with OVE", before.has(OVE)),
            ("taken with TEE", before.has(TEE)),
            ("taken without SM", !before.has(SM)),
            ("taken with F", before.has(F)),
            ("taken with EEAR not 0", before.eear != 0),
        ]);
    }

    /// Where an interrupt was taken.
    fn note_place(&mut self, met: &Met) {
        let (entry, kind) = (met.entry, met.kind());
        let inside = entry.insn.is_some();
        let raising = matches!(kind, Some(Sys | Trap | Illegal));
        self.add([
            ("taken, the entry filled", entry.held),
            ("taken, the entry empty", inside && !entry.held),
            ("taken with PC outside memory", !inside),
            ("taken by another core than 0", entry.who != 0),
            ("taken where another core stands", entry.shared),
            ("taken in place of a store", matches!(kind, Some(Sw | Sb | Sh | Swa))),
            ("taken in place of a jump", matches!(kind, Some(J | Jal | Jr | Jalr | Bf | Bnf))),
            ("taken in place of l.rfe", kind == Some(Rfe)),
            ("taken in place of l.nop 1", met.halts()),
            ("taken in place of another exception", raising),
        ]);
    }

    /// What is latched and not taken.
    fn note_waiting(&mut self, met: &Met) {
        let entry = met.entry;
        let (before, waits) = (&entry.before, met.latched != 0);
        let raised = waits && entry.raised.is_some();
        self.add([
            ("waits for IEE", waits && !before.has(IEE)),
            ("waits for the end of a slot", waits && before.has(IEE) && before.delay),
            ("waits while another exception is taken", raised),
            ("waits while a slot raises", raised && before.delay && before.has(IEE)),
            ("waits on a core that halts", waits && !entry.after.is_running()),
        ]);
    }

    fn note_instruction(&mut self, met: &Met) {
        let entry = met.entry;
        match entry.insn.filter(|_| entry.raised.is_none()) {
            Some(insn) if insn.kind == Mfspr => self.note_read(met, insn),
            Some(insn) if insn.kind == Mtspr => self.note_write(met, insn),
            Some(insn) if insn.kind == Swa => {
                let address = entry.before.get(insn.a).wrapping_add(insn.imm);
                let failed = self.past[entry.who].lost == Some(address) && !entry.after.has(F);
                self.add([("l.swa fails after an interrupt", failed)]);
            }
            _ => {}
        }
    }

    fn note_read(&mut self, met: &Met, insn: Insn) {
        let number = met.entry.before.get(insn.a) | insn.imm;
        let of_status = number == PICSR;
        self.add([
            ("PICMR read", number == PICMR && met.entry.before.picmr != 3),
            ("PICSR read", of_status && met.latched != 0),
            ("PICSR read, latched by that entry", of_status && met.gained != 0),
        ]);
    }

    fn note_write(&mut self, met: &Met, insn: Insn) {
        let Met { entry, gained, latched, .. } = *met;
        let (before, after) = (&entry.before, &entry.after);
        let (number, value) = (before.get(insn.a) | insn.imm, before.get(insn.b));
        let (mask, status) = (number == PICMR, number == PICSR);
        let cleared = latched & !value;
        let in_slot = before.delay && before.has(IEE);
        self.add([
            ("PICMR changed", mask && after.picmr != before.picmr),
            ("PICMR written without bits 0 and 1", mask && value & 3 != 3),
            ("PICMR masks a latched line", mask && latched & before.picmr & !value & !3 != 0),
            ("PICSR cleared whole", status && latched != 0 && latched == cleared),
            ("PICSR cleared in part", status && cleared != 0 && latched != cleared),
            ("PICSR written with other bits", status && value & !latched != 0),
            ("PICSR cleared, latched by that entry", status && gained & !value != 0),
            ("PICSR cleared in a slot under IEE", status && cleared != 0 && in_slot),
        ]);
    }

    /// Notes what later entries of the core ask for.
    fn remember(&mut self, met: &Met) {
        let Entry { who, before, after, raised, .. } = met.entry;
        let past = &mut self.past[*who];
        let enabled = !before.has(IEE) && after.has(IEE);
        past.last = match met.kind() {
            _ if raised.is_some() => Last::Other,
            Some(Rfe) if enabled => Last::Return,
            Some(Mtspr) if enabled => Last::Write,
            _ if before.delay => Last::Slot,
            _ => Last::Other,
        };
        past.acknowledged = !met.taken && (past.acknowledged || met.latched & !after.picsr != 0);
        past.lost = match met.kind() {
            _ if met.taken && before.link => Some(before.link_address),
            _ if met.taken => past.lost,
            _ if raised.is_some() => None,
            Some(Lwa | Swa) => None,
            _ => past.lost,
        };
    }

    /// Takes in what others counted.
    pub fn join(&mut self, other: Interrupts) {
        join(&mut self.met, other.met);
        self.otherwise += other.otherwise;
    }

    /// Shows the counts. Stops if one is smaller than so many times its least
    /// number: then the cases would say too little about the note.
    pub fn expect(&self, what: &str, times: u32) {
        let listed = |class: &&str| LEAST.iter().any(|(listed, _)| listed == class);
        assert!(self.met.keys().all(listed), "{what}: every class has its least number");
        let mut short = vec![];
        for (class, least) in LEAST {
            let (count, least) = (self.met.get(class).copied().unwrap_or(0), times * least);
            show(&format!("{what}, interrupts, {class}: {count}"));
            if count < least {
                short.push(format!("{class}: {count} of {least}"));
            }
        }
        assert!(short.is_empty(), "{what}, interrupts: {short:#?}");
        assert_eq!(self.otherwise, 0, "{what}: interrupts otherwise than note 4 says");
    }
}
