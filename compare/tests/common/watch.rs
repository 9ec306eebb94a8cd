//! The steps of a case's run, for those who count them.

use super::interrupts::Interrupts;
use super::limits::Limits;
use super::linked::Links;
use super::products::Products;
use super::sums::Sums;
use super::vectors::Exceptions;
use compare::cases::Case;
use compare::exec::{self, Board, Cause, Step};
use compare::isa::Kind::{Cflush, Cinvalidate, Lhs, Lwa, Sh, Swa};
use compare::isa::{self, Insn};
use compare::runs;
use compare::state::{Core, Mode, SHEET_WORDS};
use compare::vectors::Vectors;

/// One instruction with its core before and after it.
pub struct Seen {
    pub insn: Insn,
    pub before: Core,
    pub after: Core,
    pub raised: bool,
}

/// One entry of the schedule, of a running core or a halted one.
pub struct Entry {
    pub who: usize,
    pub lines: u32,
    pub before: Core,
    pub after: Core,
    /// What stands at PC; nothing outside memory.
    pub insn: Option<Insn>,
    /// The table has an entry for it.
    pub held: bool,
    /// Another core stands at the same place.
    pub shared: bool,
    pub raised: Option<Cause>,
    /// What the instruction, if it is fetched, reaches.
    pub access: Option<Access>,
    /// The word that it wrote.
    pub stored: Option<u32>,
    /// The linked cores, whosever entry it is.
    pub linked: Vec<Linked>,
    /// What each core's mode was before it.
    pub modes: [Mode; 4],
}

/// A linked core before and after an entry.
pub struct Linked {
    pub who: usize,
    pub before: Core,
    pub after: Core,
    /// What the entry's instruction reaches on it.
    pub access: Option<Access>,
    pub stored: Option<u32>,
}

/// What a step may change of a word.
#[derive(Clone, Copy, PartialEq)]
pub struct Word {
    /// Nothing outside memory.
    pub value: Option<u32>,
    /// Whether each core's link is to it.
    pub linked: [bool; 4],
    /// The table has an entry for it.
    pub filled: bool,
}

/// An access, with the word it is to before and after it.
pub struct Access {
    pub address: u32,
    pub before: Word,
    pub after: Word,
}

/// The address that an instruction accesses, if it is a load, a store or p.*.
fn goal(core: &Core, insn: Insn) -> Option<u32> {
    let families = [Lwa..=Lhs, Swa..=Sh, Cinvalidate..=Cflush];
    let access = families.iter().any(|family| family.contains(&insn.kind));
    access.then(|| core.get(insn.a).wrapping_add(insn.imm))
}

/// What notes 1, 2, 4, 5, 6 and 8 of document 02 tell apart.
#[derive(Default)]
pub struct Counts {
    sums: Sums,
    products: Products,
    interrupts: Interrupts,
    limits: Limits,
    exceptions: Exceptions,
    links: Links,
}

/// What a run is on.
struct Running {
    memory: Vec<u8>,
    cores: Vec<Core>,
    table: Vec<u64>,
    limit: u32,
    vectors: Vectors,
}

impl Running {
    fn start(case: &Case) -> Running {
        Running {
            memory: case.memory.clone(),
            cores: case.sheets.chunks(SHEET_WORDS).map(Core::from_sheet).collect(),
            table: case.table.clone(),
            limit: case.limit,
            vectors: Vectors::of_list(&case.vectors).expect("a good list"),
        }
    }

    /// The word that has the byte at an address.
    fn word(&self, address: u32) -> Word {
        let address = address & !3;
        let link = |core: &Core| core.link && core.link_address == address;
        let mut linked = [false; 4];
        linked.iter_mut().zip(&self.cores).for_each(|(linked, core)| *linked = link(core));
        Word { value: exec::fetch(&self.memory, address), linked, filled: self.held(address) }
    }

    /// Whether the table has an entry for the word at an address.
    fn held(&self, address: u32) -> bool {
        self.table.get(address as usize / 4).is_some_and(|&entry| entry != 0)
    }

    fn step(&mut self, who: usize, lines: u32) -> Step {
        let (limit, vectors) = (self.limit, self.vectors);
        let interrupt = exec::interrupt(&mut self.cores[who], &vectors, lines);
        interrupt.unwrap_or_else(|| {
            let board = &mut Board { memory: &mut self.memory, limit, vectors };
            runs::fast_step(board, &mut self.cores, who, &mut self.table).0
        })
    }

    /// The next entry of the schedule.
    fn take(&mut self, who: usize, lines: u32) -> Entry {
        let before = self.cores[who];
        let insn = exec::fetch(&self.memory, before.pc).map(isa::decode_insn);
        let same = |(number, core): (usize, &Core)| number != who && core.pc == before.pc;
        let shared = self.cores.iter().enumerate().any(same);
        let held = self.held(before.pc);
        let found = self.find(who, insn);
        let linked: Vec<_> = self.linked(insn).collect();
        let mut modes = [Mode::Halted; 4];
        modes.iter_mut().zip(&self.cores).for_each(|(mode, core)| *mode = core.mode);
        let step = before.is_running().then(|| self.step(who, lines));
        Entry {
            who,
            lines,
            before,
            after: self.cores[who],
            insn,
            held,
            shared,
            raised: step.and_then(|step| step.raised),
            access: self.access(found),
            stored: step.and_then(|step| step.stored),
            linked: linked.into_iter().map(|then| self.leave(then, step)).collect(),
            modes,
        }
    }

    /// The address that an instruction reaches on a core, and the word there.
    fn find(&self, who: usize, insn: Option<Insn>) -> Option<(u32, Word)> {
        let address = insn.and_then(|insn| goal(&self.cores[who], insn))?;
        Some((address, self.word(address)))
    }

    /// The access of which this was found before it.
    fn access(&self, found: Option<(u32, Word)>) -> Option<Access> {
        found.map(|(address, before)| Access { address, before, after: self.word(address) })
    }

    /// The linked cores as they are, and what an instruction reaches on them.
    fn linked(&self, insn: Option<Insn>) -> impl Iterator<Item = Then> + '_ {
        let linked = self.cores.iter().enumerate().filter(|(_, core)| core.is_linked());
        linked.map(move |(who, core)| Then { who, core: *core, found: self.find(who, insn) })
    }

    /// One of them after the step.
    fn leave(&self, then: Then, step: Option<Step>) -> Linked {
        let Then { who, core, found } = then;
        Linked {
            who,
            before: core,
            after: self.cores[who],
            access: self.access(found),
            stored: step.and_then(|step| step.by_linked[who - 1]),
        }
    }
}

/// A linked core before an entry, and what it reaches.
struct Then {
    who: usize,
    core: Core,
    found: Option<(u32, Word)>,
}

impl Counts {
    /// Counts the steps of a case's run.
    pub fn watch(&mut self, case: &Case) {
        let mut running = Running::start(case);
        self.interrupts.start(case);
        self.limits.start(case);
        self.exceptions.start(case);
        self.links.start(case);
        for (&who, &lines) in case.schedule.iter().zip(&case.levels) {
            let entry = running.take(usize::from(who), lines);
            self.interrupts.note(&entry);
            self.limits.note(&entry);
            self.exceptions.note(&entry);
            self.links.note(&entry);
            let Entry { before, after, raised, .. } = entry;
            let fetched = before.is_running() && raised != Some(Cause::Interrupt);
            if let Some(insn) = entry.insn.filter(|_| fetched) {
                let seen = Seen { insn, before, after, raised: raised.is_some() };
                self.sums.note(&seen);
                self.products.note(&seen);
            }
        }
    }

    /// These and others together.
    pub fn joined(mut self, other: Counts) -> Counts {
        self.sums.join(other.sums);
        self.products.join(other.products);
        self.interrupts.join(other.interrupts);
        self.limits.join(other.limits);
        self.exceptions.join(other.exceptions);
        self.links.join(other.links);
        self
    }

    /// Shows the counts, and stops if one of a note is too small; those of notes 4
    /// to 6 and 8 are held to so many times their least numbers.
    pub fn expect(&self, what: &str, of_sums: u32, of_products: u32, times: u32) {
        self.sums.expect(what, of_sums);
        self.products.expect(what, of_products);
        self.interrupts.expect(what, times);
        self.limits.expect(what, times);
        self.exceptions.expect(what, times);
        self.links.expect(what, times);
    }
}
