//! Random words and programs.
//!
//! Programs keep to some habits, so that they run for long before they end in
//! nothing but exceptions: r1-r4 are addresses, r4 often the limit, r5-r8 hold
//! words that are instructions, r10-r15 hold numbers at edges, r16-r19 border
//! words, r20-r27 factors: r20 as a rule 80000000, r21 ffffffff and r22 0.

use crate::isa::{self, Insn, Kind, KINDS, TABLE};
use crate::rng::Rng;
use crate::state::{IEE, OVE, SR_RESET};

/// The special registers of 01.
const OF_01: [u32; 6] = [17, 32, 48, 64, 128, 129];
/// MACLO and MACHI; PICMR and PICSR.
const OF_02: [u32; 4] = [0x2801, 0x2802, PICMR, PICSR];
const PICMR: u32 = 0x4800;
const PICSR: u32 = 0x4802;

/// A word of a kind, with random fields and random reserved bits.
pub fn word_of_kind(rng: &mut Rng, kind: Kind) -> u32 {
    let row = &TABLE[kind as usize - 1];
    let mut free = rng.next_u32();
    if rng.one_in(4) {
        // Immediates at the edges of sixteen bits.
        free = free & 0xffff_0000 | rng.edge_word() & 0xffff;
    }
    row.value | free & !row.mask
}

/// A word mostly of a kind taken from all 88 alike, else just random.
pub fn any_word(rng: &mut Rng) -> u32 {
    if rng.one_in(12) {
        return rng.next_u32();
    }
    let kind = TABLE[rng.below(KINDS)].kind;
    word_of_kind(rng, kind)
}

/// Words through every top half and, under every opcode, through all of bits
/// 10-0; the other bits are random.
pub fn systematic_words(rng: &mut Rng) -> Vec<u32> {
    let mut words = Vec::new();
    for half in 0..=0xffff {
        words.push(half << 16);
        words.push(half << 16 | rng.next_u32() & 0xffff);
    }
    for opcode in 0..64 {
        for low in 0..=0x07ff {
            words.push(opcode << 26 | rng.next_u32() & 0x03ff_f800 | low);
        }
    }
    words
}

/// The lowest bit of D, A and B in a word, and in an entry.
const FIELDS: [(u32, u32); 3] = [(21, 42), (16, 37), (11, 32)];

/// Words of every kind with every value at each place of a register's number,
/// the other free bits being all 0, all 1 or random.
pub fn field_words(rng: &mut Rng) -> Vec<u32> {
    let mut words = Vec::new();
    for row in &TABLE {
        for (place, _) in FIELDS {
            for value in 0..32 {
                for rest in [0, u32::MAX, rng.next_u32()] {
                    let free = rest & !(31 << place) | value << place;
                    words.push(row.value | free & !row.mask);
                }
            }
        }
    }
    words
}

/// Entries of every kind with every value of D, A and B, whether the kind has
/// the field or not, and with every value of bits 55-47, which are above D.
pub fn field_entries(rng: &mut Rng) -> Vec<u64> {
    let mut entries = Vec::new();
    for row in &TABLE {
        for free in [0, u32::MAX, rng.next_u32()] {
            let entry = isa::decode(row.value | free & !row.mask);
            for (_, place) in FIELDS {
                entries.extend((0..32).map(|value| entry & !(31 << place) | value << place));
            }
            entries.extend((0..512).map(|above| entry | above << 47));
        }
    }
    entries
}

/// An entry mostly near one that some word decodes to.
pub fn any_entry(rng: &mut Rng) -> u64 {
    let entry = isa::decode(any_word(rng));
    match rng.below(6) {
        0 | 1 => entry,
        2 => entry ^ 1 << rng.below(64),
        3 => entry ^ 1 << rng.below(64) ^ 1 << rng.below(64),
        4 => entry & 0x00ff_ffff_ffff_ffff | (rng.below(256) as u64) << 56,
        _ => rng.next_u64() >> rng.below(64),
    }
}

/// The word of a form, now and then with random reserved bits. A form that no
/// word has gives the encoder's illegal word.
pub fn assemble(rng: &mut Rng, insn: Insn) -> u32 {
    let word = isa::encode(insn.entry());
    if word == isa::NO_WORD {
        return isa::ILLEGAL_WORD;
    }
    let noise = if rng.one_in(4) { rng.next_u32() & isa::reserved_bits(insn.kind) } else { 0 };
    word as u32 | noise
}

/// A register that holds an address, as a rule.
fn pointer(rng: &mut Rng) -> u8 {
    if rng.one_in(24) {
        rng.below(32) as u8
    } else {
        rng.between(1, 4) as u8
    }
}

fn source(rng: &mut Rng) -> u8 {
    rng.below(16) as u8
}

/// A register to write: seldom one that holds an address.
fn target(rng: &mut Rng) -> u8 {
    match rng.below(16) {
        0 => rng.between(1, 4) as u8,
        1 => 0,
        2 => rng.between(9, 31) as u8,
        3..=7 => rng.between(5, 8) as u8,
        _ => rng.between(10, 15) as u8,
    }
}

/// An offset for an access of some width, seldom a bad one.
fn offset(rng: &mut Rng, width: usize) -> u32 {
    let near = (rng.between(0, 24) as u32).wrapping_sub(10);
    match rng.below(24) {
        0 => near,
        1 => rng.next_u32() as u16 as i16 as u32,
        _ => near.wrapping_mul(width as u32),
    }
}

fn pick_kind(rng: &mut Rng, first: Kind, last: Kind) -> Kind {
    TABLE[rng.between(first as usize, last as usize) - 1].kind
}

pub(crate) fn insn(kind: Kind, d: u8, a: u8, b: u8, imm: u32) -> Insn {
    Insn::new(kind, d, a, b, imm)
}

fn arithmetic(rng: &mut Rng) -> Insn {
    let d = target(rng);
    let (mut a, mut b) = (source(rng), source(rng));
    let kind = match rng.below(8) {
        0..=2 => pick_kind(rng, Kind::Addi, Kind::Xori),
        3 => pick_kind(rng, Kind::Slli, Kind::Rori),
        4 => Kind::Movhi,
        5 => {
            // Sums of numbers at edges, for the sake of the range exception.
            (a, b) = (rng.between(10, 15) as u8, rng.between(10, 15) as u8);
            pick_kind(rng, Kind::Add, Kind::Sub)
        }
        _ => pick_kind(rng, Kind::Add, Kind::Fl1),
    };
    trim(insn(kind, d, a, b, rng.edge_word()))
}

/// A sum of a border word and an immediate, for the sake of the range exception.
fn border_sum(rng: &mut Rng) -> Insn {
    let kind = pick_kind(rng, Kind::Addi, Kind::Addic);
    let (d, a) = (target(rng), rng.between(16, 19) as u8);
    trim(insn(kind, d, a, 0, rng.edge_word()))
}

/// A register that holds a factor, as a rule.
fn factor(rng: &mut Rng) -> u8 {
    if rng.one_in(16) {
        rng.below(32) as u8
    } else {
        rng.between(20, 27) as u8
    }
}

/// Products, quotients and what works on MACHI and MACLO, mostly on factors.
fn product(rng: &mut Rng) -> Insn {
    let kind = match rng.below(26) {
        0..=3 => Kind::Mul,
        4..=8 => Kind::Muli,
        9 | 10 => Kind::Mulu,
        11..=17 => return quotient(rng),
        18 | 19 => Kind::Mac,
        20 | 21 => Kind::Msb,
        22 | 23 => Kind::Maci,
        _ => Kind::Macrc,
    };
    let d = result(rng, if kind == Kind::Macrc { 3 } else { 12 });
    let imm = match rng.below(3) {
        0 => rng.factor_word(),
        1 => rng.pick(&[2, 3, 0x7fff, 0xffff_8000]),
        _ => rng.next_u32(),
    };
    trim(insn(kind, d, factor(rng), factor(rng), imm))
}

/// A register to write, once in so many times surely r0.
fn result(rng: &mut Rng, times: usize) -> u8 {
    if rng.one_in(times) {
        0
    } else {
        target(rng)
    }
}

/// A division: by 0 and of 80000000 by ffffffff more often than dice would.
fn quotient(rng: &mut Rng) -> Insn {
    let kind = rng.pick(&[Kind::Div, Kind::Divu]);
    let (kind, a, b) = match rng.below(8) {
        0 | 1 => (kind, factor(rng), 0),
        2 => (kind, factor(rng), 22),
        3 => (rng.pick(&[Kind::Div, Kind::Div, Kind::Divu]), 20, 21),
        _ => (kind, factor(rng), factor(rng)),
    };
    insn(kind, result(rng, 12), a, b, 0)
}

fn comparison(rng: &mut Rng) -> Insn {
    let kind = if rng.one_in(2) {
        pick_kind(rng, Kind::Sfeqi, Kind::Sflesi)
    } else {
        pick_kind(rng, Kind::Sfeq, Kind::Sfles)
    };
    trim(insn(kind, 0, source(rng), source(rng), rng.edge_word()))
}

/// Clears the fields that a kind does not use and fits its immediate.
pub(crate) fn trim(insn: Insn) -> Insn {
    TABLE[insn.kind as usize - 1].layout.fit(insn)
}

fn control(rng: &mut Rng) -> Insn {
    let near = (rng.between(0, 20) as u32).wrapping_sub(9).wrapping_mul(4);
    match rng.below(12) {
        0 => insn(Kind::Jr, 0, 0, pointer(rng), 0),
        1 => insn(Kind::Jr, 0, 0, 9, 0),
        2 => insn(Kind::Jalr, 0, 0, pointer(rng), 0),
        3 => insn(Kind::Jal, 0, 0, 0, near),
        4 => insn(Kind::J, 0, 0, 0, near),
        5..=8 => insn(Kind::Bf, 0, 0, 0, near),
        _ => insn(Kind::Bnf, 0, 0, 0, near),
    }
}

fn load(rng: &mut Rng) -> Insn {
    let kind = pick_kind(rng, Kind::Lwz, Kind::Lhs);
    insn(kind, target(rng), pointer(rng), 0, offset(rng, width(kind)))
}

fn store(rng: &mut Rng) -> Insn {
    let kind = rng.pick(&[Kind::Sw, Kind::Sw, Kind::Sb, Kind::Sh]);
    let value = if rng.one_in(3) { source(rng) } else { rng.between(5, 8) as u8 };
    insn(kind, 0, pointer(rng), value, offset(rng, width(kind)))
}

/// l.lwa and l.swa, mostly on the word r1 points to.
fn atomic(rng: &mut Rng) -> Insn {
    let at = if rng.one_in(8) { pointer(rng) } else { 1 };
    let imm = if rng.one_in(4) { offset(rng, 4) } else { 0 };
    if rng.one_in(2) {
        insn(Kind::Lwa, target(rng), at, 0, imm)
    } else {
        insn(Kind::Swa, 0, at, source(rng), imm)
    }
}

fn special(rng: &mut Rng) -> Insn {
    let number = match rng.below(12) {
        0 => rng.next_u32() & 0xffff,
        1 => rng.below(200) as u32,
        2 | 3 => rng.pick(&[0x2800, 0x2803, 0x4801, 0x4801, 0x4803]),
        4..=6 => rng.pick(&OF_01),
        _ => rng.pick(&OF_02),
    };
    let base = if rng.one_in(10) { source(rng) } else { 0 };
    if rng.one_in(2) {
        insn(Kind::Mfspr, target(rng), base, 0, number)
    } else {
        insn(Kind::Mtspr, 0, base, source(rng), number)
    }
}

fn quiet(rng: &mut Rng) -> Insn {
    match rng.below(8) {
        0 => insn(pick_kind(rng, Kind::Msync, Kind::Csync), 0, 0, 0, 0),
        1 | 2 => {
            let kind = pick_kind(rng, Kind::Cinvalidate, Kind::Cflush);
            insn(kind, 0, pointer(rng), 0, offset(rng, 1))
        }
        3 => insn(Kind::Nop, 0, 0, 0, 1),
        _ => insn(Kind::Nop, 0, 0, 0, rng.pick(&[0, 0, 2, 0x8001, 0xffff])),
    }
}

fn system(rng: &mut Rng) -> Insn {
    let kind = rng.pick(&[Kind::Sys, Kind::Trap, Kind::Rfe]);
    trim(insn(kind, 0, 0, 0, rng.below(4) as u32))
}

/// A word of a program.
pub fn program_word(rng: &mut Rng) -> u32 {
    let form = match rng.below(100) {
        0..=13 => arithmetic(rng),
        14..=21 => border_sum(rng),
        22..=39 => product(rng),
        40..=46 => comparison(rng),
        47..=59 => control(rng),
        60..=66 => load(rng),
        67..=76 => store(rng),
        77..=83 => atomic(rng),
        84..=91 => special(rng),
        92..=95 => quiet(rng),
        96..=97 => system(rng),
        _ => return any_word(rng),
    };
    assemble(rng, form)
}

/// A loop that adds 1 to the word r1 points to by l.lwa and l.swa, and tries
/// again when another core was faster.
pub fn counting_loop() -> [u32; 5] {
    let forms = [
        insn(Kind::Lwa, 5, 1, 0, 0),
        insn(Kind::Addi, 5, 5, 0, 1),
        insn(Kind::Swa, 0, 1, 5, 0),
        insn(Kind::Bnf, 0, 0, 0, 0u32.wrapping_sub(12)),
        insn(Kind::Nop, 0, 0, 0, 0),
    ];
    forms.map(|form| isa::encode(form.entry()) as u32)
}

/// The start of a program on cores just reset: r16 and r17 get border words,
/// r20 to r23 factors and SR gets OVE, so that the sum and the products after
/// it may raise.
pub fn trapping_start(rng: &mut Rng) -> [u32; 10] {
    let forms = [
        insn(Kind::Movhi, 16, 0, 0, 0x8000),
        insn(Kind::Addi, 17, 16, 0, u32::MAX),
        insn(Kind::Movhi, 20, 0, 0, 0x8000),
        insn(Kind::Xori, 21, 0, 0, u32::MAX),
        insn(Kind::Ori, 23, 0, 0, 0xb505),
        insn(Kind::Ori, 10, 0, 0, SR_RESET | OVE),
        insn(Kind::Mtspr, 0, 0, 10, 17),
        product(rng),
        border_sum(rng),
        product(rng),
    ];
    forms.map(|form| isa::encode(form.entry()) as u32)
}

/// The start of a program that puts SR and ESR, as they are then, in r28 and r29.
pub fn looking_start() -> Vec<u32> {
    words(&[insn(Kind::Mfspr, 28, 0, 0, 17), insn(Kind::Mfspr, 29, 0, 0, 64)])
}

/// A handler for interrupts. It clears what is latched, or what it read of it, or
/// the lowest line alone; or it masks lines first; or it does nothing, so that the
/// next interrupt comes at once.
pub fn interrupt_handler(rng: &mut Rng) -> Vec<u32> {
    let (read, back) = (insn(Kind::Mfspr, 30, 0, 0, PICSR), insn(Kind::Rfe, 0, 0, 0, 0));
    match rng.below(12) {
        0..=5 => words(&[write(PICSR, 0), back]),
        6 | 7 => words(&[read, insn(Kind::Xori, 30, 30, 0, u32::MAX), write(PICSR, 30), back]),
        8 | 9 => words(&[read, insn(Kind::Addi, 30, 30, 0, u32::MAX), write(PICSR, 30), back]),
        10 => words(&[write(PICMR, source(rng)), write(PICSR, 0), back]),
        _ => words(&[back]),
    }
}

fn write(special: u32, value: u8) -> Insn {
    insn(Kind::Mtspr, 0, 0, value, special)
}

pub(crate) fn words(forms: &[Insn]) -> Vec<u32> {
    forms.iter().map(|form| isa::encode(form.entry()) as u32).collect()
}

/// Words that a line may rise in: a jump and a slot that clears PICSR or raises, a
/// new mask and then IEE, or the counting loop.
pub fn interruptible_words(rng: &mut Rng) -> Vec<u32> {
    match rng.below(3) {
        0 => [words(&[insn(Kind::J, 0, 0, 0, 8)]), interruptible_slot(rng)].concat(),
        1 => words(&[
            write(PICMR, source(rng)),
            insn(Kind::Mfspr, 31, 0, 0, 17),
            insn(Kind::Ori, 31, 31, 0, IEE),
            write(17, 31),
        ]),
        _ => counting_loop().to_vec(),
    }
}

/// The slot of these.
pub fn interruptible_slot(rng: &mut Rng) -> Vec<u32> {
    let trap = insn(Kind::Trap, 0, 0, 0, 0);
    words(&[rng.pick(&[write(PICSR, 0), write(PICSR, 6), trap])])
}

/// An access to bytes around those that r4 points to, often right before them or
/// the first of them, seldom a misaligned one.
fn access(rng: &mut Rng, kind: Kind) -> Insn {
    let width = width(kind) as u32;
    let around = (rng.between(0, 11) as u32).wrapping_sub(8);
    let imm = match rng.below(8) {
        0..=2 => 0u32.wrapping_sub(width),
        3 | 4 => 0,
        5 => around,
        _ => around & !(width - 1),
    };
    let (d, b) = (rng.between(10, 15) as u8, rng.between(5, 8) as u8);
    trim(insn(kind, d, 4, b, imm))
}

/// How many bytes an access of some kind has.
fn width(kind: Kind) -> usize {
    match kind {
        Kind::Lwa | Kind::Lwz | Kind::Lws | Kind::Swa | Kind::Sw => 4,
        Kind::Lhz | Kind::Lhs | Kind::Sh => 2,
        _ => 1,
    }
}

/// A store around there.
fn probing_store(rng: &mut Rng) -> Insn {
    let kind = rng.pick(&[Kind::Sw, Kind::Sb, Kind::Sb, Kind::Sh, Kind::Swa, Kind::Swa]);
    access(rng, kind)
}

/// A load or p.* around there.
fn probing_read(rng: &mut Rng) -> Insn {
    let (load, other) =
        (pick_kind(rng, Kind::Lwa, Kind::Lhs), pick_kind(rng, Kind::Cinvalidate, Kind::Cflush));
    let kind = rng.pick(&[load, load, other]);
    access(rng, kind)
}

/// Words that probe the memory around r4: stores, one of them in a slot, l.swa after
/// l.lwa of the same word or of another, and reads.
pub fn probe(rng: &mut Rng) -> Vec<u32> {
    let (link, other) = (access(rng, Kind::Lwa), access(rng, Kind::Swa));
    match rng.below(4) {
        0 => words(&[insn(Kind::J, 0, 0, 0, 8), probing_store(rng)]),
        1 => words(&[link, insn(Kind::Swa, 0, 4, 5, link.imm)]),
        2 => words(&[link, other]),
        _ => words(&[probing_store(rng), probing_read(rng), probing_store(rng)]),
    }
}

/// The slot of these.
pub fn probe_slot(rng: &mut Rng) -> Vec<u32> {
    words(&[probing_store(rng)])
}

/// A handler that goes on `skip` bytes after the instruction that raised.
pub fn skipping_handler(skip: u32) -> [u32; 4] {
    let forms = [
        insn(Kind::Mfspr, 31, 0, 0, 32),
        insn(Kind::Addi, 31, 31, 0, skip),
        insn(Kind::Mtspr, 0, 0, 31, 32),
        insn(Kind::Rfe, 0, 0, 0, 0),
    ];
    forms.map(|form| isa::encode(form.entry()) as u32)
}
