//! Random cases for the runs: accepted ones, and ones broken in known places.

use crate::isa::{self, Insn, Kind};
use crate::levels::levels;
use crate::limits;
use crate::linked;
use crate::lists;
use crate::programs;
use crate::rng::Rng;
use crate::runs::{self, Lent, MEMORY_MOST, SCHEDULE_MOST};
use crate::state::{allowed_sr, place, IEE, OVE, SHEET_WORDS, SR_BITS, SR_RESET, UNMASKABLE};
use crate::vectors::OLD;

/// Everything that a fast run is lent; a plain run leaves the table aside.
#[derive(Clone, Debug, PartialEq, Eq, Default)]
pub struct Case {
    pub memory: Vec<u8>,
    pub sheets: Vec<u32>,
    pub schedule: Vec<u8>,
    pub levels: Vec<u32>,
    pub limit: u32,
    pub vectors: Vec<u32>,
    pub table: Vec<u64>,
}

impl Case {
    /// A copy of what a run is lent.
    pub fn of(lent: &Lent) -> Case {
        Case {
            memory: lent.memory.to_vec(),
            sheets: lent.sheets.to_vec(),
            schedule: lent.schedule.to_vec(),
            levels: lent.levels.to_vec(),
            limit: lent.limit,
            vectors: lent.vectors.to_vec(),
            table: lent.table.to_vec(),
        }
    }

    /// Lends it to a run.
    pub fn lent(&mut self) -> Lent<'_> {
        Lent {
            memory: &mut self.memory,
            sheets: &mut self.sheets,
            schedule: &self.schedule,
            levels: &self.levels,
            limit: self.limit,
            vectors: &self.vectors,
            table: &mut self.table,
        }
    }

    /// The refusal that its fast run meets, or 0.
    pub fn refusal(&self) -> u8 {
        runs::fast_refusal(&self.clone().lent())
    }

    pub fn word(&self, index: usize) -> u32 {
        let bytes = &self.memory[4 * index..4 * index + 4];
        u32::from_be_bytes([bytes[0], bytes[1], bytes[2], bytes[3]])
    }

    pub fn set_word(&mut self, index: usize, word: u32) {
        self.memory[4 * index..4 * index + 4].copy_from_slice(&word.to_be_bytes());
    }

    /// Another word, if it is in memory, and its form in the table, if that has one.
    pub fn overwrite(&mut self, index: usize, word: u32) {
        if index >= self.memory.len() / 4 {
            return;
        }
        self.set_word(index, word);
        if let Some(entry) = self.table.get_mut(index).filter(|entry| **entry != 0) {
            *entry = isa::decode(word);
        }
    }

    pub fn cores(&self) -> usize {
        self.sheets.len() / SHEET_WORDS
    }

    /// Another schedule, with all lines low.
    pub fn set_schedule(&mut self, schedule: Vec<u8>) {
        self.levels = vec![0; schedule.len()];
        self.schedule = schedule;
    }

    /// Another schedule, with random levels.
    pub fn throw_schedule(&mut self, rng: &mut Rng, entries_most: usize) {
        let mut farther_aside = rng.farther_aside();
        self.schedule = schedule(rng, self.cores(), entries_most);
        linked::lead(&mut farther_aside, self);
        self.throw_levels(rng);
    }

    fn throw_levels(&mut self, rng: &mut Rng) {
        let core = rng.below(self.cores());
        let mask = self.sheets[core * SHEET_WORDS + place::PICMR];
        self.levels = levels(rng, self.schedule.len(), mask);
    }
}

/// A case that no refusal is met by, with at most so many entries.
pub fn accepted_case(rng: &mut Rng, entries_most: usize) -> Case {
    let (mut aside, mut far_aside) = (rng.aside(), rng.far_aside());
    let mut farther_aside = rng.farther_aside();
    let bytes = match rng.below(24) {
        0 => 4 * rng.between(1_024, 4_096),
        1 => 4_100,
        _ => 4_096,
    };
    let mut case = Case { memory: vec![0; bytes], vectors: OLD.to_vec(), ..Case::default() };
    fill_memory(rng, &mut case);
    let cores = rng.between(1, 4);
    case.sheets = accepted_sheets(rng, cores, bytes as u32);
    for core in 0..cores {
        let (slot, words) = (programs::interruptible_slot, programs::interruptible_words);
        plant(rng, &mut case, core, 3, slot, words);
        plant_self_store(rng, &mut case, core);
    }
    limits::throw(&mut aside, &mut case);
    lists::throw(&mut far_aside, &mut case);
    linked::throw(&mut farther_aside, &mut case);
    case.throw_schedule(rng, entries_most);
    case.table = accepted_table(rng, &case);
    case
}

/// An accepted case with a schedule of the greatest length.
pub fn long_case(rng: &mut Rng) -> Case {
    let mut case = accepted_case(rng, 0);
    let cores = case.cores();
    case.schedule = (0..SCHEDULE_MOST).map(|_| rng.below(cores) as u8).collect();
    linked::lead(&mut rng.farther_aside(), &mut case);
    case.throw_levels(rng);
    case
}

/// An accepted case with the largest memory, the small one's words repeated in
/// it, and a core that runs into its end.
pub fn large_case(rng: &mut Rng) -> Case {
    let mut case = accepted_case(rng, 2_000);
    let words = case.memory.len() / 4;
    case.memory.resize(MEMORY_MOST, 0);
    case.table.resize(MEMORY_MOST / 4, 0);
    for index in words..MEMORY_MOST / 4 {
        let word = case.word(index % words);
        case.set_word(index, word);
    }
    case.sheets[place::PC] = MEMORY_MOST as u32 - 64;
    case.limit = limits::good(&mut rng.aside(), &case);
    lists::throw(&mut rng.far_aside(), &mut case);
    case
}

/// Programs everywhere; handlers at the vectors and counting loops, if the
/// dice say so.
fn fill_memory(rng: &mut Rng, case: &mut Case) {
    let words = case.memory.len() / 4;
    for index in 0..words {
        let word = programs::program_word(rng);
        case.set_word(index, word);
    }
    if !rng.one_in(4) {
        for vector in [0x200, 0x600, 0x700, 0xb00, 0xc00, 0xe00] {
            let skip = rng.pick(&[4, 4, 8, 12]);
            let skip = if vector == 0xc00 { 0 } else { skip };
            set_words(case, vector / 4, &programs::skipping_handler(skip));
        }
    }
    if !rng.one_in(8) {
        set_words(case, 0x800 / 4, &programs::interrupt_handler(rng));
    }
    for _ in 0..rng.pick(&[0, 4, 24]) {
        let index = rng.below(words - 8);
        set_words(case, index, &programs::counting_loop());
    }
}

fn set_words(case: &mut Case, index: usize, words: &[u32]) {
    for (offset, &word) in words.iter().enumerate() {
        case.set_word(index + offset, word);
    }
}

/// Sheets that keep every rule. Cores often start at one place and share the
/// word that r1 points to.
pub fn accepted_sheets(rng: &mut Rng, cores: usize, bytes: u32) -> Vec<u32> {
    let shared_start = 4 * rng.below(bytes as usize / 4) as u32;
    let shared_word = near(rng, shared_start, bytes);
    let mut sheets = Vec::new();
    for _ in 0..cores {
        let mut sheet = accepted_sheet(rng, bytes);
        if rng.one_in(2) {
            sheet[place::PC] = shared_start;
        }
        if !rng.one_in(4) {
            sheet[1] = shared_word;
        }
        // r2 points near the code that runs, so that stores hit it.
        sheet[2] = near(rng, sheet[place::PC], bytes);
        sheets.extend_from_slice(&sheet);
    }
    sheets
}

/// Puts words near where a core starts, once in `rare` times; if it starts in a
/// slot, half the time those for one.
pub fn plant(
    rng: &mut Rng,
    case: &mut Case,
    core: usize,
    rare: usize,
    slot: fn(&mut Rng) -> Vec<u32>,
    words: fn(&mut Rng) -> Vec<u32>,
) {
    let sheet = &case.sheets[core * SHEET_WORDS..];
    let (first, in_slot) = (sheet[place::PC] as usize / 4, sheet[place::DELAY] == 1);
    if 4 * first + 64 > case.memory.len() {
        return;
    }
    if in_slot && rng.one_in(2) {
        set_words(case, first, &slot(rng));
    } else if rng.one_in(rare) {
        set_words(case, first + rng.below(6), &words(rng));
    }
}

/// Puts a store into its own word near where a core starts, now and then.
fn plant_self_store(rng: &mut Rng, case: &mut Case, core: usize) {
    let sheet = &case.sheets[core * SHEET_WORDS..];
    let own = sheet[place::PC].wrapping_add(4 * rng.below(6) as u32);
    let imm = own.wrapping_sub(sheet[2]);
    if (own as usize) < case.memory.len() && rng.one_in(3) {
        let (kind, value) = (rng.pick(&[Kind::Sw, Kind::Sb, Kind::Sh]), rng.between(5, 8));
        let word = programs::assemble(rng, Insn::new(kind, 0, 2, value as u8, imm));
        case.set_word(own as usize / 4, word);
    }
}

/// An address of a word within some words of another, as a rule in memory.
fn near(rng: &mut Rng, address: u32, bytes: u32) -> u32 {
    let away = (rng.between(0, 32) as u32).wrapping_sub(8).wrapping_mul(4);
    let address = address.wrapping_add(away);
    if address < bytes || rng.one_in(16) {
        address
    } else {
        (address % bytes) & !3
    }
}

fn accepted_sheet(rng: &mut Rng, bytes: u32) -> [u32; SHEET_WORDS] {
    let mut sheet = [0; SHEET_WORDS];
    for (number, register) in sheet.iter_mut().enumerate().take(32).skip(1) {
        *register = match number {
            1..=4 | 9 => address(rng, bytes),
            5..=8 => programs::program_word(rng),
            10 | 11 => rng.pick(&[0x7fff_ffff, 0x8000_0000, 0xc000_0000, 0x4000_0000]),
            16..=19 => rng.border_word(),
            20..=27 => factor(rng, number),
            _ => rng.edge_word(),
        };
    }
    sheet[place::PC] = address(rng, bytes);
    if rng.one_in(5) {
        sheet[place::DELAY] = 1;
        sheet[place::TARGET] = address(rng, bytes);
    }
    sheet[place::SR] = status(rng);
    sheet[place::EPCR] = address(rng, bytes);
    sheet[place::EEAR] = rng.edge_word();
    sheet[place::ESR] = status(rng);
    if rng.one_in(3) {
        sheet[place::LINK] = 1;
        sheet[place::LINK_ADDRESS] = if rng.one_in(2) { sheet[1] } else { address(rng, bytes) };
    }
    sheet[place::MODE] = if rng.one_in(12) { 0 } else { 3 };
    let accumulator = accumulator(rng);
    sheet[place::MACHI] = (accumulator >> 32) as u32;
    sheet[place::MACLO] = accumulator as u32;
    sheet[place::PICMR] = mask(rng);
    sheet[place::PICSR] = if rng.one_in(5) { mask(rng) & rng.edge_word() } else { 0 };
    sheet
}

/// PICMR: as at reset, with one line more, all, or any.
fn mask(rng: &mut Rng) -> u32 {
    let (one, any) = (1 << rng.below(32), rng.next_u32());
    rng.pick(&[0, one, u32::MAX, any, any]) | UNMASKABLE
}

/// MACHI and MACLO, often near where MACLO, the sign or all of them turn over.
fn accumulator(rng: &mut Rng) -> u64 {
    let (high, low) = (rng.edge_word(), rng.edge_word());
    let border = rng.pick(&[0, 1 << 32, 1 << 63, u64::MAX << 32]);
    if rng.one_in(2) {
        border.wrapping_add(low as i32 as u64)
    } else {
        u64::from(high) << 32 | u64::from(low)
    }
}

/// What one of r20 to r27 holds: r20, r21 and r22 mostly the numbers that
/// divisions treat apart.
fn factor(rng: &mut Rng, number: usize) -> u32 {
    match number {
        20 if !rng.one_in(8) => 0x8000_0000,
        21 if !rng.one_in(8) => 0xffff_ffff,
        22 if !rng.one_in(8) => 0,
        _ => rng.factor_word(),
    }
}

/// A multiple of 4, mostly in memory, sometimes at its end or outside.
fn address(rng: &mut Rng, bytes: u32) -> u32 {
    match rng.below(32) {
        0 => rng.pick(&[bytes, bytes + 4, 0xffff_fffc, 0xffff_fff8, 0x8000_0000]),
        1 => rng.pick(&[0, bytes - 4, bytes - 8]),
        2 => rng.next_u32() & !3,
        _ => 4 * rng.below(bytes as usize / 4) as u32,
    }
}

/// SR or ESR: as at reset or any, mostly with OVE and often with IEE, for every
/// exception clears them.
fn status(rng: &mut Rng) -> u32 {
    match rng.below(4) {
        0 => SR_RESET,
        1 => allowed_sr(rng.next_u32()),
        2 => allowed_sr(rng.next_u32() | OVE),
        _ => allowed_sr(rng.next_u32() | OVE | IEE),
    }
}

/// A schedule: bursts, turns about, or thrown dice.
pub fn schedule(rng: &mut Rng, cores: usize, entries_most: usize) -> Vec<u8> {
    let entries = rng.between(0, entries_most);
    let mut schedule = Vec::with_capacity(entries);
    let manner = rng.below(3);
    let mut core = rng.below(cores);
    for _ in 0..entries {
        core = match manner {
            0 => (core + 1) % cores,
            1 if rng.one_in(10) => rng.below(cores),
            1 => core,
            _ => rng.below(cores),
        };
        schedule.push(core as u8);
    }
    schedule
}

/// A table in which a share of the words' entries is filled.
fn accepted_table(rng: &mut Rng, case: &Case) -> Vec<u64> {
    let sparse = rng.pick(&[0, 0, 1, 2, 16]);
    let words = case.memory.len() / 4;
    let mut fill = |index: usize| match sparse {
        0 => 0,
        share if rng.one_in(share) => isa::decode(case.word(index)),
        _ => 0,
    };
    (0..words).map(&mut fill).collect()
}

/// The refusals of the runs as they are tested: 01's "1 to 7 in this order", 11
/// "after 5", 12 "after 11" and 13 "after 12".
pub const ORDER: [u8; 10] = [1, 2, 3, 4, 5, 11, 12, 13, 6, 7];
/// Those that `break_by` chooses from: 12 and 13 come from streams of their own.
const DRAWN: [u8; 8] = [1, 2, 3, 4, 5, 11, 6, 7];

/// The one of two refusals that is tested first.
fn earlier(one: u8, other: u8) -> u8 {
    let met = |refusal: &&u8| **refusal == one || **refusal == other;
    *ORDER.iter().find(met).expect("a refusal of the runs")
}

/// A case broken in one to four places and the refusal it must meet.
pub fn broken_case(rng: &mut Rng) -> (Case, u8) {
    let mut case = accepted_case(rng, 40);
    let mut far_aside = rng.far_aside();
    if far_aside.one_in(8) {
        case.vectors = lists::wrong(&mut far_aside, &case.vectors);
        return (case, 13);
    }
    let (mut case, refusal) = break_but_for_the_list(rng, case);
    if !far_aside.one_in(4) {
        return (case, refusal);
    }
    case.vectors = lists::wrong(&mut far_aside, &case.vectors);
    (case, earlier(refusal, 13))
}

/// Breaks a case in one to three places, its vectors not being one of them.
fn break_but_for_the_list(rng: &mut Rng, mut case: Case) -> (Case, u8) {
    let mut aside = rng.aside();
    if aside.one_in(8) {
        case.limit = limits::wrong(&mut aside, &case);
        return (case, 12);
    }
    let (mut case, refusal) = break_otherwise(rng, case);
    if !aside.one_in(4) {
        return (case, refusal);
    }
    case.limit = limits::wrong(&mut aside, &case);
    (case, earlier(refusal, 12))
}

/// Breaks a case in one or two places, its limit and its vectors not being among them.
fn break_otherwise(rng: &mut Rng, mut case: Case) -> (Case, u8) {
    let first = break_by(rng, &mut case, 0);
    if rng.one_in(2) {
        return (case, first);
    }
    let second = break_by(rng, &mut case, first);
    (case, earlier(first, second))
}

/// Breaks a case so that it meets some refusal other than `not`.
fn break_by(rng: &mut Rng, case: &mut Case, not: u8) -> u8 {
    let mut refusal = rng.pick(&DRAWN);
    // A table or sheets of another length have no places to break again.
    if refusal == not || (not <= 2 && not != 0) || not == 6 {
        refusal = if not == 5 { 3 } else { 5 };
    }
    match refusal {
        1 => break_memory(rng, case),
        2 => break_sheet_count(rng, case),
        3 => break_some_sheet(rng, case),
        4 => {
            let entries = if rng.one_in(2) { 65_537 } else { rng.between(65_537, 70_000) };
            case.schedule.resize(entries, 0);
            case.levels.resize(entries, 0);
        }
        5 => break_schedule(rng, case),
        6 => break_table_length(rng, case),
        11 => break_levels(rng, case),
        _ => break_table(rng, case),
    }
    refusal
}

fn break_memory(rng: &mut Rng, case: &mut Case) {
    let bytes = case.memory.len();
    let wrong = match rng.below(24) {
        0 => 0,
        1 => 4,
        2 => 1_048_580,
        3 => 1_048_577,
        4..=8 => 4_092,
        9..=12 => 4_095,
        _ => bytes + rng.between(1, 3),
    };
    case.memory.resize(wrong, 0);
}

fn break_sheet_count(rng: &mut Rng, case: &mut Case) {
    let words = case.sheets.len();
    let wrong = match rng.below(9) {
        0 => 0,
        1 => 5 * SHEET_WORDS,
        2 => words - 1,
        3 => 4 * SHEET_WORDS + rng.between(1, 200),
        // Sheets as they were before notes 2 and 4 of document 02.
        4 | 5 => 42 * case.cores(),
        6 => 44 * case.cores(),
        _ => words + rng.between(1, SHEET_WORDS - 1),
    };
    case.sheets.resize(wrong, 0);
}

fn break_schedule(rng: &mut Rng, case: &mut Case) {
    let cores = case.cores().min(4);
    let wrong = if rng.one_in(2) { cores } else { rng.between(cores, 255) };
    let index = rng.between(0, case.schedule.len());
    case.schedule.insert(index, wrong as u8);
    // A level goes with it, unless the list is a broken one already.
    case.levels.insert(index.min(case.levels.len()), 0);
}

/// As many levels as something else has, or one too few or too many.
fn break_levels(rng: &mut Rng, case: &mut Case) {
    let entries = case.schedule.len();
    let near = [entries.wrapping_sub(1), entries + 1, 0, entries / 4, 4 * entries];
    let far = [case.cores() * entries, case.memory.len(), case.table.len(), SCHEDULE_MOST];
    let wrong = if rng.one_in(4) { rng.pick(&far) } else { rng.pick(&near) };
    let wrong = if wrong == entries || wrong > MEMORY_MOST { entries + 1 } else { wrong };
    case.levels.resize(wrong, 0);
}

fn break_table_length(rng: &mut Rng, case: &mut Case) {
    let entries = case.table.len();
    let wrong = rng.pick(&[0, entries - 1, entries + 1, 2 * entries, 4 * entries]);
    case.table.resize(wrong, 0);
}

/// Fills one entry with something that is not its word's form.
fn break_table(rng: &mut Rng, case: &mut Case) {
    let words = case.table.len().min(case.memory.len() / 4);
    let some = rng.below(words);
    let index = rng.pick(&[0, words - 1, some]);
    let form = isa::decode(case.word(index));
    let wrong = match rng.below(4) {
        0 => 1 << 56,
        1 => programs::any_entry(rng),
        2 => isa::decode(programs::any_word(rng)),
        _ => form ^ 1 << rng.below(64),
    };
    // Neither the form nor empty.
    case.table[index] = if wrong == form || wrong == 0 { form ^ 1 } else { wrong };
}

/// Breaks one rule on one sheet.
fn break_some_sheet(rng: &mut Rng, case: &mut Case) {
    let core = rng.below(case.cores());
    let sheet = &mut case.sheets[core * SHEET_WORDS..(core + 1) * SHEET_WORDS];
    let odd = rng.between(1, 3) as u32;
    let not_small = rng.pick(&[2, 3, 4, 0x100, 0xffff_ffff]);
    match rng.below(14) {
        0 => sheet[0] = rng.next_u32() | 1,
        1 => sheet[place::PC] |= odd,
        2 => sheet[place::EPCR] |= odd,
        3 => (sheet[place::DELAY], sheet[place::TARGET]) = (1, 0x100 | odd),
        4 => (sheet[place::DELAY], sheet[place::TARGET]) = (0, 4 * odd),
        5 => sheet[place::DELAY] = not_small,
        6 => sheet[rng.pick(&[place::SR, place::ESR])] ^= status_bit_not_allowed(rng),
        7 => sheet[rng.pick(&[place::SR, place::ESR])] &= !0x8000,
        8 => sheet[place::LINK] = not_small,
        9 => (sheet[place::LINK], sheet[place::LINK_ADDRESS]) = (0, 4 * odd),
        10 => (sheet[place::LINK], sheet[place::LINK_ADDRESS]) = (1, 0x100 | odd),
        11 | 12 => sheet[place::PICMR] &= !odd,
        _ => {
            // 1 is core 0's alone to be turned back.
            let one = if core == 0 { 1 } else { 0x101 };
            sheet[place::MODE] = rng.pick(&[one, one, one, 2, 2, 4, 7, 0x103, 0xffff_ffff]);
        }
    }
}

/// A bit that is 0 on a good sheet, or bit 15, which is 1.
fn status_bit_not_allowed(rng: &mut Rng) -> u32 {
    loop {
        let bit = 1 << rng.below(32);
        if bit & SR_BITS == 0 {
            return bit;
        }
    }
}
