//! Engines that are wrong in what note 8 of document 02 says of linked cores. What is
//! right in them is put together another way than in this engine's own step.

use super::wrong_step::{read_sheets, write_sheets};
use compare::battery::Pair;
use compare::cases;
use compare::check::{Codec, Engine, BY_CACHE, BY_HISTORY};
use compare::dump;
use compare::exec::{self, Board, Cause, Step};
use compare::isa::{self, Insn, Kind};
use compare::linked;
use compare::rng::Rng;
use compare::runs::{self, Answer, Lent};
use compare::state::{Core, Mode};
use compare::vectors::Vectors;

/// An entry of a running core, which linked ones may follow.
pub struct Lead {
    pub who: usize,
    /// What it fetched; nothing at an interrupt or outside memory.
    pub insn: Option<Insn>,
    /// What stands where it would fetch; nothing outside memory.
    pub word: Option<Insn>,
    pub before: Core,
    pub after: Core,
    pub raised: Option<Cause>,
    pub stored: Option<u32>,
    pub reused: bool,
    /// It is the fast run.
    pub fast: bool,
    pub lines: u32,
}

/// A linked core that has executed what core 0 fetched, for a rule to spoil.
pub struct Follow<'a> {
    pub lead: &'a Lead,
    pub insn: Insn,
    pub who: usize,
    /// Before the entry, and before its own turn in it.
    pub start: Core,
    pub before: Core,
    /// What an ordinary core would be after it, and what this one is.
    pub ordinary: Core,
    pub after: Core,
    pub raised: Option<Cause>,
    pub stored: Option<u32>,
    pub memory: &'a mut [u8],
    /// The cores, this one not yet as it is after it.
    pub cores: &'a mut [Core],
}

impl Follow<'_> {
    /// Where its own store would be.
    pub fn address(&self) -> u32 {
        self.before.get(self.insn.a).wrapping_add(self.insn.imm)
    }

    pub fn is(&self, kinds: &[Kind]) -> bool {
        kinds.contains(&self.insn.kind)
    }

    /// It halts and is else as it was.
    pub fn drop_out(&mut self) {
        self.after = Core { mode: Mode::Halted, ..self.before };
    }
}

/// The rules one by one; each is right unless it is put otherwise.
pub struct WrongLinked {
    pub name: &'static str,
    /// Whether linked cores execute a fetch.
    pub shares: fn(&Lead) -> bool,
    /// What they do at any other entry of a running core.
    pub unshared: fn(&mut Core, &Lead),
    /// They execute before core 0 does.
    pub first: bool,
    pub order: fn(&mut Vec<usize>),
    /// The form that they execute, given what was fetched and what memory holds there
    /// then.
    pub form: fn(&Lead, Insn, Insn) -> Insn,
    /// What a core begins with, given it as it was before the entry.
    pub begin: fn(&mut Core, &Lead, &Core),
    /// It executes jumps as an ordinary core would.
    pub jumps: bool,
    pub limit: fn(u32) -> u32,
    /// Whether another core keeps a link to the word that it writes.
    pub keeps: fn(usize, &Core) -> bool,
    /// What it is left with.
    pub end: fn(&mut Follow),
    /// Whether the ones after it do not execute.
    pub stops: fn(&Follow) -> bool,
    /// The word whose entry is emptied.
    pub empties: fn(&Follow) -> Option<u32>,
    pub count: fn(&mut Answer, &Follow),
    /// What comes after all of it.
    pub after: fn(&mut [Core], &Lead),
    /// What a linked core's own entry does, and whether it then runs as a running
    /// core's; given core 0.
    pub own_entry: fn(&mut Core, &Core, u32) -> bool,
    /// How often that is counted.
    pub own_count: u32,
    pub idle: Idle,
}

/// What a halted core 0's entry does.
#[derive(PartialEq)]
pub enum Idle {
    Nothing,
    /// Linked cores run on, each by itself.
    RunOn,
    /// It leads them all the same.
    LeadOn,
}

/// Where a core is.
pub fn put_places(core: &mut Core, from: &Core) {
    (core.pc, core.delay, core.target) = (from.pc, from.delay, from.target);
}

pub const RIGHT: WrongLinked = WrongLinked {
    name: "right",
    shares: |lead| lead.who == 0 && lead.insn.is_some() && lead.raised.is_none(),
    unshared: |_, _| {},
    first: false,
    order: |_| {},
    form: |_, fetched, _| fetched,
    begin: |core, lead, _| put_places(core, &lead.before),
    jumps: false,
    limit: |limit| limit,
    keeps: |_, _| false,
    end: |_| {},
    stops: |_| false,
    empties: |follow| follow.stored,
    count: |_, _| {},
    after: |_, _| {},
    own_entry: |_, _, _| false,
    own_count: 0,
    idle: Idle::Nothing,
};

/// What an engine runs on.
struct Running<'a> {
    board: Board<'a>,
    cores: Vec<Core>,
    table: Option<&'a mut [u64]>,
    answer: Answer,
}

/// What is left of a jump on a linked core, which core 0 has taken: nothing or r9.
fn jump(core: &mut Core, lead: &Lead, insn: Insn) -> bool {
    if matches!(insn.kind, Kind::Jal | Kind::Jalr) {
        core.regs[9] = lead.before.pc.wrapping_add(8);
    }
    use Kind::*;
    matches!(insn.kind, J | Jal | Jr | Jalr | Bf | Bnf | Rfe)
}

impl Running<'_> {
    /// The entry of one core alone.
    fn lead(&mut self, who: usize, lines: u32) -> Lead {
        let linked: Vec<usize> =
            (0..self.cores.len()).filter(|&core| self.is_linked(core)).collect();
        let before = self.cores[who];
        let word = exec::fetch(self.board.memory, before.pc).map(isa::decode_insn);
        // Linked cores that are halted for the moment execute nothing.
        linked.iter().for_each(|&core| self.cores[core].mode = Mode::Halted);
        let (step, reused) = self.step(who, lines);
        linked.iter().for_each(|&core| self.cores[core].mode = Mode::Linked);
        let insn = word.filter(|_| step.raised != Some(Cause::Interrupt));
        let (after, fast) = (self.cores[who], self.table.is_some());
        let (raised, stored) = (step.raised, step.stored);
        Lead { who, insn, word, before, after, raised, stored, reused, fast, lines }
    }

    fn is_linked(&self, core: usize) -> bool {
        self.cores[core].is_linked()
    }

    fn step(&mut self, who: usize, lines: u32) -> (Step, bool) {
        let Running { board, cores, table, .. } = self;
        if let Some(step) = exec::interrupt(&mut cores[who], &board.vectors, lines) {
            return (step, false);
        }
        match table.as_deref_mut() {
            None => (runs::plain_step(board, cores, who), false),
            Some(table) => runs::fast_step(board, cores, who, table),
        }
    }
}

impl WrongLinked {
    /// An entry of a running core.
    fn entry(&self, running: &mut Running, who: usize, lines: u32) {
        let start = running.cores.clone();
        let mut linked: Vec<usize> =
            (1..start.len()).filter(|&core| running.is_linked(core)).collect();
        let kept = (self.first && !linked.is_empty()).then(|| {
            (running.board.memory.to_vec(), running.table.as_deref().map(<[u64]>::to_vec))
        });
        let lead = running.lead(who, lines);
        running.answer.executed += 1;
        running.answer.raised += u32::from(lead.raised.is_some());
        running.answer.reused += u32::from(lead.reused);
        if !(self.shares)(&lead) {
            linked.iter().for_each(|&core| (self.unshared)(&mut running.cores[core], &lead));
            return (self.after)(&mut running.cores, &lead);
        }
        if let Some((memory, table)) = &kept {
            // All over again, with the linked cores first.
            running.board.memory.copy_from_slice(memory);
            running.cores.copy_from_slice(&start);
            if let (Some(now), Some(then)) = (running.table.as_deref_mut(), table) {
                now.copy_from_slice(then);
            }
        }
        (self.order)(&mut linked);
        for who in linked {
            if self.follow(running, &lead, who, &start[who]) {
                break;
            }
        }
        if kept.is_some() {
            running.lead(who, lines);
        }
        (self.after)(&mut running.cores, &lead);
    }

    /// One linked core; whether those after it do not execute.
    fn follow(&self, running: &mut Running, lead: &Lead, who: usize, start: &Core) -> bool {
        let Running { board, cores, table, answer } = running;
        let fetched = lead.word.expect("something to share");
        let now = exec::fetch(board.memory, lead.before.pc).map(isa::decode_insn);
        let insn = (self.form)(lead, fetched, now.unwrap_or(fetched));
        let (all, before, limit) = (cores.clone(), cores[who], board.limit);
        (self.begin)(&mut cores[who], lead, start);
        board.limit = (self.limit)(limit);
        let jumped = !self.jumps && jump(&mut cores[who], lead, insn);
        let step = match jumped {
            true => Step::default(),
            false => exec::execute_alone(cores, who, board, insn),
        };
        board.limit = limit;
        for (number, core) in all.iter().enumerate() {
            if number != who && (self.keeps)(number, core) {
                (cores[number].link, cores[number].link_address) = (core.link, core.link_address);
            }
        }
        let ordinary = cores[who];
        let mut after = ordinary;
        if step.raised.is_some() {
            after = Core { mode: Mode::Halted, ..before };
        } else if !self.jumps {
            put_places(&mut after, &lead.after);
        }
        let (raised, stored, memory) = (step.raised, step.stored, &mut *board.memory);
        let mut follow = Follow {
            lead,
            insn,
            who,
            start: *start,
            before,
            ordinary,
            after,
            raised,
            stored,
            memory,
            cores,
        };
        (self.end)(&mut follow);
        let after = follow.after;
        follow.cores[who] = after;
        (self.count)(answer, &follow);
        if let (Some(table), Some(word)) = (table.as_deref_mut(), (self.empties)(&follow)) {
            if let Some(entry) = table.get_mut(word as usize / 4) {
                *entry = 0;
            }
        }
        (self.stops)(&follow)
    }

    /// An entry of a linked core.
    fn own(&self, running: &mut Running, who: usize, lines: u32) {
        let lead = running.cores[0];
        running.answer.executed += self.own_count;
        if (self.own_entry)(&mut running.cores[who], &lead, lines) {
            let own = running.lead(who, lines);
            running.answer.raised += self.own_count * u32::from(own.raised.is_some());
            running.answer.reused += self.own_count * u32::from(own.reused);
        }
    }

    /// An entry of core 0 while it is halted.
    fn idle(&self, running: &mut Running, lines: u32) {
        let linked: Vec<usize> =
            (1..running.cores.len()).filter(|&core| running.is_linked(core)).collect();
        match self.idle {
            Idle::RunOn => {
                for core in linked {
                    running.lead(core, lines);
                }
            }
            Idle::LeadOn if !linked.is_empty() => {
                self.entry(running, 0, lines);
                running.cores[0].mode = Mode::Halted;
            }
            _ => {}
        }
    }

    /// The fast run, or without a table the plain one.
    fn run(&self, lent: &mut Lent, fast: bool) -> u64 {
        let Lent { memory, sheets, schedule, levels, limit, vectors, table } = lent.again();
        let vectors = Vectors::of_list(vectors).expect("a good list");
        let mut running = Running {
            board: Board { memory, limit, vectors },
            cores: read_sheets(sheets),
            table: fast.then_some(table),
            answer: Answer::default(),
        };
        for (&who, &lines) in schedule.iter().zip(levels) {
            let who = usize::from(who);
            match running.cores[who].mode {
                Mode::Running => self.entry(&mut running, who, lines),
                Mode::Halted if who == 0 => self.idle(&mut running, lines),
                Mode::Halted => {}
                Mode::Linked => self.own(&mut running, who, lines),
            }
        }
        write_sheets(&running.cores, sheets);
        running.answer.pack()
    }
}

impl Codec for WrongLinked {
    fn name(&self) -> &str {
        self.name
    }
    fn decode(&self, word: u32) -> u64 {
        BY_CACHE.decode(word)
    }
    fn encode(&self, entry: u64) -> u64 {
        BY_CACHE.encode(entry)
    }
}

impl Engine for WrongLinked {
    fn plain_run(&self, lent: &mut Lent) -> u64 {
        self.run(lent, false)
    }
    fn fast_run(&self, lent: &mut Lent) -> u64 {
        self.run(lent, true)
    }
}

/// How many of the battery's accepted cases these engines are asked at most.
const SEEDS: u64 = 4_000;

/// The battery's accepted cases stop the engine, and the dumped case does so again.
/// Cases without linked cores are left out: there it is right.
pub fn assert_stopped(engine: &dyn Engine) -> u64 {
    let pair = Pair { one: &BY_HISTORY, other: engine };
    for seed in 0..SEEDS {
        let case = cases::accepted_case(&mut Rng::new(seed), 200);
        if !(1..case.cores()).any(|core| linked::is_linked(&case, core)) {
            continue;
        }
        if let Err(text) = pair.case(&case, 0) {
            let again = dump::read_case(&text).expect("a case that can be run again");
            assert!(pair.case(&again, 0).is_err(), "{}: from its dump", engine.name());
            return seed;
        }
    }
    panic!("{}: not stopped by {SEEDS} cases", engine.name());
}
