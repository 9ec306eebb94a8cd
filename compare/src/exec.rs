//! One instruction on one core ("One instruction").

use crate::isa::{Insn, Kind, Reg};
use crate::state::{self, Core, Mode, CY, DSX, F, IEE, OV, OVE, SM, TEE, UNMASKABLE};
use crate::vectors::Vectors;

/// Why an instruction did not complete, in the order of the list of vectors.
#[derive(Clone, Copy, Debug, PartialEq, Eq, PartialOrd, Ord, Hash)]
pub enum Cause {
    Bus,
    Alignment,
    Illegal,
    Range,
    Syscall,
    Trap,
    Interrupt,
}

/// An exception and, where its cause says so, the value EEAR takes.
#[derive(Clone, Copy, Debug, PartialEq, Eq)]
pub struct Exception {
    pub cause: Cause,
    pub failing: Option<u32>,
}

/// What one entry of a running core did, as far as the runs must know.
#[derive(Clone, Copy, Debug, PartialEq, Eq, Default)]
pub struct Step {
    pub raised: Option<Cause>,
    /// The address of the word that a store wrote.
    pub stored: Option<u32>,
    /// The same of cores 1 to 3, if they are linked and this is core 0's entry.
    pub by_linked: [Option<u32>; 3],
}

impl Step {
    /// An entry that took an exception.
    fn raising(cause: Cause) -> Step {
        Step { raised: Some(cause), ..Step::default() }
    }

    /// The words that were written, in their order.
    pub fn written(&self) -> impl Iterator<Item = u32> {
        [self.stored].into_iter().chain(self.by_linked).flatten()
    }
}

/// The board as instructions meet it: they read all of its memory and write none
/// of its start (02, note 5), and its handlers are where its vectors say (note 6).
pub struct Board<'a> {
    pub memory: &'a mut [u8],
    /// The length of the read-only start, a multiple of 4.
    pub limit: u32,
    pub vectors: Vectors,
}

/// Where a completed instruction goes on.
enum Flow {
    Next,
    /// After the slot to this address.
    Jump(u32),
    Return,
    Halt,
    /// As Next, and the word at this address was written.
    Stored(u32),
}

type Outcome = Result<Flow, Exception>;

impl Cause {
    /// An exception that keeps EEAR.
    fn plain(self) -> Exception {
        Exception { cause: self, failing: None }
    }

    fn at(self, address: u32) -> Exception {
        Exception { cause: self, failing: Some(address) }
    }
}

/// The word at an address that is a multiple of 4, or nothing outside memory.
#[inline]
pub fn fetch(memory: &[u8], address: u32) -> Option<u32> {
    let bytes = memory.get(address as usize..)?.first_chunk()?;
    Some(u32::from_be_bytes(*bytes))
}

/// "A fetch outside memory is a bus error."
pub fn fetch_fault(core: &mut Core, vectors: &Vectors) -> Step {
    let exception = Cause::Bus.at(core.pc);
    take(core, vectors, exception);
    Step::raising(Cause::Bus)
}

/// 02, note 4: what an entry of a running core does with its lines before its
/// fetch, and the step that takes an interrupt "in place of a fetch", if it does.
#[inline]
pub fn interrupt(core: &mut Core, vectors: &Vectors, lines: u32) -> Option<Step> {
    latch(core, lines);
    // "PICSR is then not 0, IEE is 1 and no delay slot is pending"
    let taken = core.picsr != 0 && core.has(IEE) && !core.delay;
    taken.then(|| {
        take(core, vectors, Cause::Interrupt.plain());
        Step::raising(Cause::Interrupt)
    })
}

/// "PICSR first gains the bits of lines and PICMR together."
#[inline]
pub fn latch(core: &mut Core, lines: u32) {
    core.picsr |= lines & core.picmr;
}

/// Runs one decoded instruction that core `who`, which is in mode 3, fetched: on that
/// core and, if it is core 0, on the linked ones. It is put into each run's loop,
/// which spares a third of a step's work.
#[inline(always)]
pub fn execute(cores: &mut [Core], who: usize, board: &mut Board, insn: Insn) -> Step {
    let fetched = Fetched { insn, pc: cores[who].pc, delay: cores[who].delay };
    let mut step = execute_alone(cores, who, board, insn);
    // 02, note 8: "If core 0 raises, no linked core executes that fetch".
    if who == 0 && step.raised.is_none() && cores.iter().any(Core::is_linked) {
        step.by_linked = execute_linked(cores, board, fetched);
    }
    step
}

/// The same on that core alone.
#[inline(always)]
pub fn execute_alone(cores: &mut [Core], who: usize, board: &mut Board, insn: Insn) -> Step {
    let count = cores.len() as u32;
    let core = &mut cores[who];
    match operate(core, (who as u32, count), board, insn) {
        Err(exception) => {
            take(core, &board.vectors, exception);
            Step::raising(exception.cause)
        }
        Ok(Flow::Stored(word)) => {
            advance(core);
            clear_links(cores, word);
            Step { stored: Some(word), ..Step::default() }
        }
        Ok(flow) => {
            go_on(core, flow);
            Step::default()
        }
    }
}

/// What core 0 fetched, and where it then was.
#[derive(Clone, Copy)]
struct Fetched {
    insn: Insn,
    pc: u32,
    delay: bool,
}

/// 02, note 8: what core 0 fetched and has completed is executed "by every linked
/// core in rising order". Returns the words that cores 1 to 3 wrote.
fn execute_linked(cores: &mut [Core], board: &mut Board, fetched: Fetched) -> [Option<u32>; 3] {
    let mut stored = [None; 3];
    for who in 1..cores.len() {
        if cores[who].is_linked() {
            stored[who - 1] = follow(cores, who, board, fetched);
        }
    }
    stored
}

/// One of them, and the word that it wrote.
fn follow(cores: &mut [Core], who: usize, board: &mut Board, fetched: Fetched) -> Option<u32> {
    let identity = (who as u32, cores.len() as u32);
    let (lead, before) = (cores[0], cores[who]);
    let core = &mut cores[who];
    (core.pc, core.delay) = (fetched.pc, fetched.delay);
    let Ok(flow) = operate_linked(core, identity, board, fetched.insn) else {
        // "goes to mode 0 ... and writes nothing else that step"
        *core = Core { mode: Mode::Halted, ..before };
        return None;
    };
    (core.pc, core.delay, core.target) = (lead.pc, lead.delay, lead.target);
    match flow {
        Flow::Halt => core.mode = Mode::Halted,
        Flow::Stored(word) => {
            clear_links(cores, word);
            return Some(word);
        }
        // Where to go on is core 0's to say; l.rfe has no other effect.
        Flow::Next | Flow::Jump(_) | Flow::Return => {}
    }
    None
}

/// An instruction on a linked core. Of jumps and branches, which core 0 has tested,
/// only r9 is left: "core 0's link value".
fn operate_linked(core: &mut Core, identity: (u32, u32), board: &mut Board, insn: Insn) -> Outcome {
    match insn.kind {
        Kind::J | Kind::Bnf | Kind::Bf | Kind::Jr | Kind::Rfe => Ok(Flow::Next),
        Kind::Jal | Kind::Jalr => {
            core.set(Reg::R9, core.pc.wrapping_add(8));
            Ok(Flow::Next)
        }
        _ => operate(core, identity, board, insn),
    }
}

/// Sorts an instruction to the function for its family.
#[inline(always)]
fn operate(core: &mut Core, identity: (u32, u32), board: &mut Board, insn: Insn) -> Outcome {
    use Kind::*;
    match insn.kind {
        Illegal => Err(illegal(core)),
        J | Jal | Bnf | Bf | Jr | Jalr | Rfe | Sys => control(core, insn),
        Trap => Err(Cause::Trap.plain()),
        Nop if insn.imm == 1 => Ok(Flow::Halt),
        Nop | Msync | Psync | Csync => Ok(Flow::Next),
        Lwa | Lwz | Lws | Lbz | Lbs | Lhz | Lhs => load(core, board.memory, insn),
        Swa | Sw | Sb | Sh => store(core, board, insn),
        Cinvalidate | Cwriteback | Cflush => touch(core, board.memory, insn),
        Add | Addc | Sub | Addi | Addic => sum(core, insn),
        Mfspr => Ok(read_special(core, identity, insn)),
        Mtspr => Ok(write_special(core, insn)),
        Sfeqi | Sfnei | Sfgtui | Sfgeui | Sfltui | Sfleui | Sfgtsi | Sfgesi | Sfltsi | Sflesi => {
            Ok(set_flag(core, insn, insn.imm))
        }
        Sfeq | Sfne | Sfgtu | Sfgeu | Sfltu | Sfleu | Sfgts | Sfges | Sflts | Sfles => {
            Ok(set_flag(core, insn, core.get(insn.b)))
        }
        Movhi | Andi | Ori | Xori | Slli | Srli | Srai | Rori => Ok(with_immediate(core, insn)),
        And | Or | Xor | Sll | Srl | Sra | Ror | Cmov => Ok(with_registers(core, insn)),
        Exths | Extbs | Exthz | Extbz | Extws | Extwz | Ff1 | Fl1 => Ok(on_one(core, insn)),
        Mul | Muli | Mulu => product(core, insn),
        Div | Divu => quotient(core, insn),
        Maci | Mac | Msb => Ok(accumulate(core, insn)),
        Macrc => Ok(move_and_clear(core, insn)),
    }
}

/// EEAR takes the illegal instruction's own address.
fn illegal(core: &Core) -> Exception {
    Cause::Illegal.at(core.pc)
}

/// Jumps, branches, l.rfe and l.sys.
fn control(core: &mut Core, insn: Insn) -> Outcome {
    // "in a slot is illegal, before any other check on it"
    if core.delay {
        return Err(illegal(core));
    }
    let near = core.pc.wrapping_add(insn.imm);
    let after_slot = core.pc.wrapping_add(8);
    match insn.kind {
        Kind::Rfe => Ok(Flow::Return),
        Kind::Sys => Err(Cause::Syscall.plain()),
        Kind::Bf => Ok(Flow::Jump(if core.has(F) { near } else { after_slot })),
        Kind::Bnf => Ok(Flow::Jump(if core.has(F) { after_slot } else { near })),
        Kind::Jal => {
            core.set(Reg::R9, after_slot);
            Ok(Flow::Jump(near))
        }
        Kind::Jr | Kind::Jalr => jump_to_register(core, insn),
        _ => Ok(Flow::Jump(near)),
    }
}

/// "raise alignment at the jump and write no link"
fn jump_to_register(core: &mut Core, insn: Insn) -> Outcome {
    let goal = core.get(insn.b);
    if !goal.is_multiple_of(4) {
        return Err(Cause::Alignment.at(goal));
    }
    if insn.kind == Kind::Jalr {
        core.set(Reg::R9, core.pc.wrapping_add(8));
    }
    Ok(Flow::Jump(goal))
}

/// The address of an access of `width` bytes: "alignment first (words 4,
/// halves 2), then bus error if any byte is outside".
#[inline]
fn reach(core: &Core, memory: &[u8], insn: Insn, width: usize) -> Result<usize, Exception> {
    let address = core.get(insn.a).wrapping_add(insn.imm);
    let place = address as usize;
    if !place.is_multiple_of(width) {
        return Err(Cause::Alignment.at(address));
    }
    if place + width > memory.len() {
        return Err(Cause::Bus.at(address));
    }
    Ok(place)
}

/// The address of a store: "reaching below" the limit "raises bus error after
/// alignment". As both are multiples of its width, a store that has a byte below
/// the limit starts below it.
#[inline]
fn reach_to_write(
    core: &Core,
    board: &Board,
    insn: Insn,
    width: usize,
) -> Result<usize, Exception> {
    let at = reach(core, board.memory, insn, width)?;
    if at < board.limit as usize {
        return Err(Cause::Bus.at(at as u32));
    }
    Ok(at)
}

#[inline]
fn load(core: &mut Core, memory: &[u8], insn: Insn) -> Outcome {
    let value = match insn.kind {
        Kind::Lbz => u32::from(memory[reach(core, memory, insn, 1)?]),
        Kind::Lbs => memory[reach(core, memory, insn, 1)?] as i8 as u32,
        Kind::Lhz => u32::from(half_at(memory, reach(core, memory, insn, 2)?)),
        Kind::Lhs => half_at(memory, reach(core, memory, insn, 2)?) as i16 as u32,
        _ => {
            let at = reach(core, memory, insn, 4)?;
            if insn.kind == Kind::Lwa {
                core.link = true;
                core.link_address = at as u32;
            }
            word_at(memory, at)
        }
    };
    core.set(insn.d, value);
    Ok(Flow::Next)
}

/// "high byte first"; the place is one that `reach` gave.
fn half_at(memory: &[u8], at: usize) -> u16 {
    u16::from_be_bytes([memory[at], memory[at + 1]])
}

fn word_at(memory: &[u8], at: usize) -> u32 {
    u32::from_be_bytes([memory[at], memory[at + 1], memory[at + 2], memory[at + 3]])
}

#[inline]
fn store(core: &mut Core, board: &mut Board, insn: Insn) -> Outcome {
    let value = core.get(insn.b);
    let at = match insn.kind {
        Kind::Sb => {
            let at = reach_to_write(core, board, insn, 1)?;
            board.memory[at] = value as u8;
            at
        }
        Kind::Sh => {
            let at = reach_to_write(core, board, insn, 2)?;
            board.memory[at..at + 2].copy_from_slice(&(value as u16).to_be_bytes());
            at
        }
        _ => {
            let at = reach_to_write(core, board, insn, 4)?;
            // The link is tested after the limit, and not where that raises.
            if insn.kind == Kind::Swa && !use_link(core, at as u32) {
                return Ok(Flow::Next);
            }
            board.memory[at..at + 4].copy_from_slice(&value.to_be_bytes());
            at
        }
    };
    Ok(Flow::Stored(at as u32 & !3))
}

/// What l.swa does besides storing: F tells whether the link is to its word,
/// and "it clears its own link either way".
fn use_link(core: &mut Core, address: u32) -> bool {
    let linked = core.link && core.link_address == address;
    core.put(F, linked);
    core.clear_link();
    linked
}

/// "p.* tests its one byte and does no more."
fn touch(core: &Core, memory: &[u8], insn: Insn) -> Outcome {
    reach(core, memory, insn, 1)?;
    Ok(Flow::Next)
}

/// "Any store clears every core's link to the word it touches."
#[inline]
fn clear_links(cores: &mut [Core], word: u32) {
    for core in cores {
        if core.link && core.link_address == word {
            core.clear_link();
        }
    }
}

/// Sums and differences, with CY and OV worked out beside the low 32 bits.
#[inline]
fn sum(core: &mut Core, insn: Insn) -> Outcome {
    let immediate = matches!(insn.kind, Kind::Addi | Kind::Addic);
    let x = core.get(insn.a);
    let y = if immediate { insn.imm } else { core.get(insn.b) };
    let with_carry = matches!(insn.kind, Kind::Addc | Kind::Addic);
    let carry = u32::from(with_carry && core.has(CY));
    let (low, exact, carried) = if insn.kind == Kind::Sub {
        (x.wrapping_sub(y), signed(x) - signed(y), x < y)
    } else {
        let wide = u64::from(x) + u64::from(y) + u64::from(carry);
        let exact = signed(x) + signed(y) + i64::from(carry);
        (wide as u32, exact, wide >> 32 != 0)
    };
    let overflow = exact != signed(low);
    core.set(insn.d, low);
    core.put(CY, carried);
    core.put(OV, overflow);
    // "raise range after rD and flags are written"; 02, note 1: "l.addi and
    // l.addic raise range on OV with OVE, ... as l.add does".
    if overflow && core.has(OVE) {
        return Err(Cause::Range.plain());
    }
    Ok(Flow::Next)
}

/// The second factor or the divisor.
#[inline]
fn second(core: &Core, insn: Insn) -> u32 {
    match insn.kind {
        Kind::Muli | Kind::Maci => insn.imm,
        _ => core.get(insn.b),
    }
}

/// Products: CY is the unsigned product's, whether the kind is signed or not;
/// OV the signed one's, and 0 for l.mulu, so that l.mulu never raises.
#[inline]
fn product(core: &mut Core, insn: Insn) -> Outcome {
    let (x, y) = (core.get(insn.a), second(core, insn));
    let wide = u64::from(x) * u64::from(y);
    let low = wide as u32;
    let overflow = insn.kind != Kind::Mulu && signed(x) * signed(y) != signed(low);
    core.set(insn.d, low);
    core.put(CY, wide >> 32 != 0);
    core.put(OV, overflow);
    if overflow && core.has(OVE) {
        return Err(Cause::Range.plain());
    }
    Ok(Flow::Next)
}

/// "A zero divisor sets CY, keeps rD and raises range under OVE; other divisors
/// clear CY." OV is 0 either way.
#[inline]
fn quotient(core: &mut Core, insn: Insn) -> Outcome {
    let (x, y) = (core.get(insn.a), second(core, insn));
    core.put(CY, y == 0);
    core.put(OV, false);
    if y != 0 {
        // The wide quotient of 80000000 by ffffffff is 80000000 once cut.
        let value = if insn.kind == Kind::Div { (signed(x) / signed(y)) as u32 } else { x / y };
        core.set(insn.d, value);
    } else if core.has(OVE) {
        return Err(Cause::Range.plain());
    }
    Ok(Flow::Next)
}

/// "truncate the product to 32 bits, sign-extend it and add it to, or for msb
/// subtract it from, MACHI and MACLO, modulo 2^64, and keep the flags"
#[inline]
fn accumulate(core: &mut Core, insn: Insn) -> Flow {
    let product = core.get(insn.a).wrapping_mul(second(core, insn));
    let term = signed(product) as u64;
    let sum = match insn.kind {
        Kind::Msb => core.accumulator().wrapping_sub(term),
        _ => core.accumulator().wrapping_add(term),
    };
    core.set_accumulator(sum);
    Flow::Next
}

/// "macrc moves MACLO to rD and clears both."
fn move_and_clear(core: &mut Core, insn: Insn) -> Flow {
    core.set(insn.d, core.maclo);
    core.set_accumulator(0);
    Flow::Next
}

/// A word read as a signed number, wide enough for exact sums and products.
fn signed(word: u32) -> i64 {
    i64::from(word as i32)
}

/// Whether a set-flag kind, of either form, holds of two words.
#[inline]
fn holds(kind: Kind, x: u32, y: u32) -> bool {
    use Kind::*;
    match kind {
        Sfeq | Sfeqi => x == y,
        Sfne | Sfnei => x != y,
        Sfgtu | Sfgtui => x > y,
        Sfgeu | Sfgeui => x >= y,
        Sfltu | Sfltui => x < y,
        Sfleu | Sfleui => x <= y,
        Sfgts | Sfgtsi => x as i32 > y as i32,
        Sfges | Sfgesi => x as i32 >= y as i32,
        Sflts | Sfltsi => (x as i32) < y as i32,
        _ => x as i32 <= y as i32,
    }
}

#[inline]
fn set_flag(core: &mut Core, insn: Insn, y: u32) -> Flow {
    let flag = holds(insn.kind, core.get(insn.a), y);
    core.put(F, flag);
    Flow::Next
}

#[inline]
fn with_immediate(core: &mut Core, insn: Insn) -> Flow {
    let x = core.get(insn.a);
    let imm = insn.imm;
    let value = match insn.kind {
        Kind::Movhi => imm << 16,
        Kind::Andi => x & imm,
        Kind::Ori => x | imm,
        Kind::Xori => x ^ imm,
        shift => shifted(shift, x, imm),
    };
    core.set(insn.d, value);
    Flow::Next
}

#[inline]
fn with_registers(core: &mut Core, insn: Insn) -> Flow {
    let x = core.get(insn.a);
    let y = core.get(insn.b);
    let value = match insn.kind {
        Kind::And => x & y,
        Kind::Or => x | y,
        Kind::Xor => x ^ y,
        Kind::Cmov => {
            if core.has(F) {
                x
            } else {
                y
            }
        }
        shift => shifted(shift, x, y),
    };
    core.set(insn.d, value);
    Flow::Next
}

/// "Shifts use the low five bits".
#[inline]
fn shifted(kind: Kind, x: u32, amount: u32) -> u32 {
    let amount = amount & 31;
    match kind {
        Kind::Sll | Kind::Slli => x << amount,
        Kind::Srl | Kind::Srli => x >> amount,
        Kind::Sra | Kind::Srai => ((x as i32) >> amount) as u32,
        _ => x.rotate_right(amount),
    }
}

/// Extensions and bit places, which read rA alone.
#[inline]
fn on_one(core: &mut Core, insn: Insn) -> Flow {
    let x = core.get(insn.a);
    let value = match insn.kind {
        Kind::Exths => x as i16 as u32,
        Kind::Extbs => x as i8 as u32,
        Kind::Exthz => x & 0xffff,
        Kind::Extbz => x & 0xff,
        // "bit 0 being place 1; 0 gives 0"
        Kind::Ff1 if x == 0 => 0,
        Kind::Ff1 => x.trailing_zeros() + 1,
        Kind::Fl1 => 32 - x.leading_zeros(),
        // Words are all there is to extend: l.extws and l.extwz copy.
        _ => x,
    };
    core.set(insn.d, value);
    Flow::Next
}

/// 02, note 2, of MACHI and MACLO: "their SPRs are 2802 and 2801 hexadecimal".
const SPR_MACHI: u32 = 0x2802;
const SPR_MACLO: u32 = 0x2801;
/// 02, note 4: "PICMR is SPR 4800 hexadecimal", "PICSR is 4802".
const SPR_PICMR: u32 = 0x4800;
const SPR_PICSR: u32 = 0x4802;

/// "Others read 0".
fn read_special(core: &mut Core, identity: (u32, u32), insn: Insn) -> Flow {
    let value = match core.get(insn.a) | insn.imm {
        17 => core.sr,
        32 => core.epcr,
        48 => core.eear,
        64 => core.esr,
        128 => identity.0,
        129 => identity.1,
        SPR_MACLO => core.maclo,
        SPR_MACHI => core.machi,
        SPR_PICMR => core.picmr,
        SPR_PICSR => core.picsr,
        _ => 0,
    };
    core.set(insn.d, value);
    Flow::Next
}

/// "Bits that SR or ESR may not have, and EPCR's low two, are dropped". A write to
/// PICSR "keeps the bits set in it and in the value".
fn write_special(core: &mut Core, insn: Insn) -> Flow {
    let value = core.get(insn.b);
    match core.get(insn.a) | insn.imm {
        17 => core.sr = state::allowed_sr(value),
        32 => core.epcr = value & !3,
        48 => core.eear = value,
        64 => core.esr = state::allowed_sr(value),
        SPR_MACLO => core.maclo = value,
        SPR_MACHI => core.machi = value,
        SPR_PICMR => core.picmr = value | UNMASKABLE,
        SPR_PICSR => core.picsr &= value,
        _ => {}
    }
    Flow::Next
}

/// "goes to PC + 4, or in a slot to the target, clearing delay and target"
#[inline]
pub fn advance(core: &mut Core) {
    core.pc = if core.delay { core.target } else { core.pc.wrapping_add(4) };
    core.delay = false;
    core.target = 0;
}

#[inline]
fn go_on(core: &mut Core, flow: Flow) {
    match flow {
        Flow::Next | Flow::Stored(_) => advance(core),
        Flow::Jump(goal) => {
            core.pc = core.pc.wrapping_add(4);
            core.delay = true;
            core.target = goal;
        }
        Flow::Return => {
            core.pc = core.epcr;
            core.sr = core.esr;
        }
        // "advances, then halts its core"
        Flow::Halt => {
            advance(core);
            core.mode = Mode::Halted;
        }
    }
}

/// Takes an exception: the paragraph "Vectors", "read with" the run's list (02,
/// note 6).
pub fn take(core: &mut Core, vectors: &Vectors, exception: Exception) {
    let slot = core.delay;
    core.epcr = match exception.cause {
        Cause::Syscall => core.pc.wrapping_add(4),
        _ if slot => core.pc.wrapping_sub(4),
        _ => core.pc,
    };
    if let Some(address) = exception.failing {
        core.eear = address;
    }
    core.esr = core.sr;
    core.sr = core.sr & !(TEE | IEE | OVE) | SM;
    core.put(DSX, slot);
    core.delay = false;
    core.target = 0;
    core.clear_link();
    core.pc = vectors.of(exception.cause);
}
