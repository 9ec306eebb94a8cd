//! The plain run, the fast run in two wordings, and what turns them back.

use crate::exec::{self, Board, Step};
use crate::isa::{self, Insn};
use crate::state::{self, Core, SHEET_WORDS};
use crate::vectors::Vectors;

/// Most entries of a schedule.
pub const SCHEDULE_MOST: usize = 65_536;
pub const MEMORY_LEAST: usize = 4_096;
pub const MEMORY_MOST: usize = 1_048_576;
pub const CORES_MOST: usize = 4;

/// What a run is lent; a plain run leaves the table aside.
pub struct Lent<'a> {
    pub memory: &'a mut [u8],
    pub sheets: &'a mut [u32],
    pub schedule: &'a [u8],
    pub levels: &'a [u32],
    pub limit: u32,
    pub vectors: &'a [u32],
    pub table: &'a mut [u64],
}

impl Lent<'_> {
    /// The same for another run, or for one with something else in its place.
    pub fn again(&mut self) -> Lent<'_> {
        Lent {
            memory: self.memory,
            sheets: self.sheets,
            schedule: self.schedule,
            levels: self.levels,
            limit: self.limit,
            vectors: self.vectors,
            table: self.table,
        }
    }
}

/// What a run hands back: the refusal's number (0: it ran) and the counts.
#[derive(Clone, Copy, Debug, PartialEq, Eq, Default)]
pub struct Answer {
    pub refusal: u8,
    pub executed: u32,
    pub raised: u32,
    pub reused: u32,
}

impl Answer {
    /// "counts are then 0"
    pub fn refused(refusal: u8) -> Answer {
        Answer { refusal, ..Answer::default() }
    }

    /// Bits 63-60 the refusal, 59-40 reused, 39-20 raised, 19-0 executed.
    pub fn pack(self) -> u64 {
        u64::from(self.refusal) << 60
            | u64::from(self.reused) << 40
            | u64::from(self.raised) << 20
            | u64::from(self.executed)
    }

    /// The answer that `pack` makes this number of.
    pub fn unpack(packed: u64) -> Answer {
        let count = |place: u32| (packed >> place & 0xf_ffff) as u32;
        Answer {
            refusal: (packed >> 60) as u8,
            executed: count(0),
            raised: count(20),
            reused: count(40),
        }
    }

    fn note(&mut self, step: Step) {
        self.raised += u32::from(step.raised.is_some());
    }
}

/// The number of cores, if the sheets are 46 words for each of 1 to 4.
pub fn core_count(sheets: &[u32]) -> Option<usize> {
    let cores = sheets.len() / SHEET_WORDS;
    let whole = sheets.len().is_multiple_of(SHEET_WORDS);
    (whole && (1..=CORES_MOST).contains(&cores)).then_some(cores)
}

/// Whether memory has a length it may have.
pub fn memory_is_good(memory: &[u8]) -> bool {
    (MEMORY_LEAST..=MEMORY_MOST).contains(&memory.len()) && memory.len().is_multiple_of(4)
}

/// 02, note 5, has 12 for "a limit that is no multiple of 4 or exceeds memory".
pub fn limit_is_good(memory: &[u8], limit: u32) -> bool {
    limit.is_multiple_of(4) && limit as usize <= memory.len()
}

/// The first of refusals 1 to 5 and 11 to 13 that is met, or 0. 02, notes 4 to 6, have
/// 11 "after 5", 12 "after 11" and 13 "after 12".
pub fn plain_refusal(lent: &Lent) -> u8 {
    if !memory_is_good(lent.memory) {
        return 1;
    }
    let Some(cores) = core_count(lent.sheets) else {
        return 2;
    };
    let mut sheets = lent.sheets.chunks(SHEET_WORDS).enumerate();
    if !sheets.all(|(core, sheet)| state::sheet_is_good(core, sheet)) {
        return 3;
    }
    if lent.schedule.len() > SCHEDULE_MOST {
        return 4;
    }
    if lent.schedule.iter().any(|&entry| usize::from(entry) >= cores) {
        return 5;
    }
    if lent.levels.len() != lent.schedule.len() {
        return 11;
    }
    if !limit_is_good(lent.memory, lent.limit) {
        return 12;
    }
    if Vectors::of_list(lent.vectors).is_none() {
        return 13;
    }
    0
}

/// The first of refusals 1 to 5, 11 to 13, 6 and 7 that is met, or 0.
pub fn fast_refusal(lent: &Lent) -> u8 {
    let plain = plain_refusal(lent);
    if plain != 0 {
        return plain;
    }
    if lent.table.len() != lent.memory.len() / 4 {
        return 6;
    }
    let is_form =
        |(entry, word): (&u64, &[u8])| *entry == 0 || *entry == isa::decode(word_of(word));
    if lent.table.iter().zip(lent.memory.chunks_exact(4)).all(is_form) {
        0
    } else {
        7
    }
}

/// Four bytes as a word, "high byte first".
fn word_of(bytes: &[u8]) -> u32 {
    u32::from_be_bytes([bytes[0], bytes[1], bytes[2], bytes[3]])
}

/// The cores on sheets that are good; those past the count stay unused.
fn read_sheets(sheets: &[u32]) -> [Core; CORES_MOST] {
    let mut cores = [Core::default(); CORES_MOST];
    for (core, sheet) in cores.iter_mut().zip(sheets.chunks(SHEET_WORDS)) {
        *core = Core::from_sheet(sheet);
    }
    cores
}

fn write_sheets(cores: &[Core], sheets: &mut [u32]) {
    for (core, sheet) in cores.iter().zip(sheets.chunks_mut(SHEET_WORDS)) {
        core.to_sheet(sheet);
    }
}

/// The board of a run that nothing refuses, and its table.
fn board<'a>(lent: &'a mut Lent) -> (Board<'a>, &'a mut [u64]) {
    let vectors = Vectors::of_list(lent.vectors).expect("a list that 13 lets pass");
    (Board { memory: lent.memory, limit: lent.limit, vectors }, lent.table)
}

/// The plain run: fetches, decodes and executes every entry afresh.
pub fn plain_run(lent: &mut Lent) -> Answer {
    let refusal = plain_refusal(lent);
    if refusal != 0 {
        return Answer::refused(refusal);
    }
    let mut all = read_sheets(lent.sheets);
    let cores = &mut all[..lent.sheets.len() / SHEET_WORDS];
    let (schedule, levels) = (lent.schedule, lent.levels);
    let (board, _) = &mut board(lent);
    let mut answer = Answer::default();
    for (&entry, &lines) in schedule.iter().zip(levels) {
        let who = usize::from(entry);
        if cores[who].is_running() {
            answer.executed += 1;
            let interrupt = exec::interrupt(&mut cores[who], &board.vectors, lines);
            answer.note(interrupt.unwrap_or_else(|| plain_step(board, cores, who)));
        }
    }
    write_sheets(cores, lent.sheets);
    answer
}

/// "PC outside memory is a bus error, else the word that memory then holds
/// there is fetched, decoded and executed."
pub fn plain_step(board: &mut Board, cores: &mut [Core], who: usize) -> Step {
    match exec::fetch(board.memory, cores[who].pc) {
        None => exec::fetch_fault(&mut cores[who], &board.vectors),
        Some(word) => exec::execute(cores, who, board, isa::decode_insn(word)),
    }
}

/// The fast run as "Fast run" words it: the table's entries are executed. An
/// interrupt fetches nothing, so it neither counts as reused nor fills an entry.
pub fn fast_run(lent: &mut Lent) -> Answer {
    let refusal = fast_refusal(lent);
    if refusal != 0 {
        return Answer::refused(refusal);
    }
    let mut all = read_sheets(lent.sheets);
    let cores = &mut all[..lent.sheets.len() / SHEET_WORDS];
    let (schedule, levels) = (lent.schedule, lent.levels);
    let (board, table) = &mut board(lent);
    let mut answer = Answer::default();
    for (&entry, &lines) in schedule.iter().zip(levels) {
        let who = usize::from(entry);
        if cores[who].is_running() {
            answer.executed += 1;
            let (step, reused) = match exec::interrupt(&mut cores[who], &board.vectors, lines) {
                Some(interrupt) => (interrupt, false),
                None => fast_step(board, cores, who, table),
            };
            answer.note(step);
            answer.reused += u32::from(reused);
        }
    }
    write_sheets(cores, lent.sheets);
    answer
}

/// The step under the fast run, and whether it counts as reused. It "executes
/// a filled entry as it stands and not its word".
#[inline]
pub fn fast_step(
    board: &mut Board,
    cores: &mut [Core],
    who: usize,
    table: &mut [u64],
) -> (Step, bool) {
    let pc = cores[who].pc;
    let Some(entry) = table.get_mut(pc as usize / 4) else {
        return (exec::fetch_fault(&mut cores[who], &board.vectors), false);
    };
    let reused = *entry != 0;
    if !reused {
        *entry = isa::decode(word_of(&board.memory[pc as usize..pc as usize + 4]));
    }
    let step = exec::execute(cores, who, board, Insn::from_entry(*entry));
    for word in step.written() {
        table[word as usize / 4] = 0;
    }
    (step, reused)
}

/// The fast run as "History" words it: a plain run beside which it is noted
/// what words are held; the table is written from that at the end. An interrupt
/// is no fetch and makes no word held.
pub fn fast_run_by_history(lent: &mut Lent) -> Answer {
    let refusal = fast_refusal(lent);
    if refusal != 0 {
        return Answer::refused(refusal);
    }
    let mut held: Vec<bool> = lent.table.iter().map(|&entry| entry != 0).collect();
    let mut all = read_sheets(lent.sheets);
    let cores = &mut all[..lent.sheets.len() / SHEET_WORDS];
    let (schedule, levels) = (lent.schedule, lent.levels);
    let (board, table) = &mut board(lent);
    let mut answer = Answer::default();
    for (&entry, &lines) in schedule.iter().zip(levels) {
        let who = usize::from(entry);
        if cores[who].is_running() {
            answer.executed += 1;
            let interrupt = exec::interrupt(&mut cores[who], &board.vectors, lines);
            let step = interrupt.unwrap_or_else(|| {
                answer.reused += u32::from(hold(&mut held, cores[who].pc));
                plain_step(board, cores, who)
            });
            answer.note(step);
            for word in step.written() {
                held[word as usize / 4] = false;
            }
        }
    }
    write_table(board.memory, &held, table);
    write_sheets(cores, lent.sheets);
    answer
}

/// "A fetch makes its word held"; returns whether it was held just before.
fn hold(held: &mut [bool], pc: u32) -> bool {
    match held.get_mut(pc as usize / 4) {
        None => false,
        Some(flag) => std::mem::replace(flag, true),
    }
}

/// "a held word's entry is the form of what memory now holds there, any
/// other 0"
fn write_table(memory: &[u8], held: &[bool], table: &mut [u64]) {
    for (index, entry) in table.iter_mut().enumerate() {
        let word = word_of(&memory[4 * index..4 * index + 4]);
        *entry = if held[index] { isa::decode(word) } else { 0 };
    }
}
