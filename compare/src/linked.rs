//! Linked cores of random cases (02, note 8), and words that make them and core 0
//! part: by their numbers, their flags, their pointers and their links.

use crate::cases::Case;
use crate::isa::{Insn, Kind};
use crate::programs::{self, insn, words};
use crate::rng::Rng;
use crate::state::{place, Mode, CY, F, OV, OVE, SHEET_WORDS};

/// The special registers that such words use.
const EPCR: u32 = 32;
const NUMBER: u32 = 128;

/// The register for a core's own number, and one for what is made of it. Programs read
/// both, and write them now and then.
const OWN: u8 = 11;
const MADE: u8 = 12;

/// Makes cores linked in more than a third of all cases, which is five in eleven of those
/// that have the cores for it, and mostly has core 0 run and all of them on the same code.
pub fn throw(rng: &mut Rng, case: &mut Case) {
    let cores = case.cores();
    if cores < 2 || rng.below(11) >= 5 {
        return;
    }
    let sure = rng.between(1, cores - 1);
    for core in 1..cores {
        if core == sure || !rng.one_in(3) {
            link(rng, case, core);
        } else {
            watch(rng, case, core);
        }
    }
    if !rng.one_in(24) {
        case.sheets[place::MODE] = Mode::Running.number();
    }
    plant(rng, case);
}

/// Whether a core is linked.
pub fn is_linked(case: &Case, core: usize) -> bool {
    case.sheets[core * SHEET_WORDS + place::MODE] == Mode::Linked.number()
}

/// Gives core 0 most of the entries of linked cores, which do nothing.
pub fn lead(rng: &mut Rng, case: &mut Case) {
    for index in 0..case.schedule.len() {
        if is_linked(case, usize::from(case.schedule[index])) && !rng.one_in(5) {
            case.schedule[index] = 0;
        }
    }
}

/// Makes a core linked. As a rule it is like core 0 in most things, so that it does not
/// raise where core 0 goes on, or seldom.
fn link(rng: &mut Rng, case: &mut Case, core: usize) {
    let lead = case.sheets[..SHEET_WORDS].to_vec();
    let bytes = case.memory.len() as u32;
    let sheet = &mut case.sheets[core * SHEET_WORDS..(core + 1) * SHEET_WORDS];
    sheet[place::MODE] = Mode::Linked.number();
    let own = sheet.to_vec();
    if !rng.one_in(12) {
        sheet[1..32].copy_from_slice(&lead[1..32]);
        for _ in 0..rng.pick(&[0, 1, 2, 4, 8]) {
            let register = rng.between(1, 31);
            sheet[register] = match register {
                1..=4 => pointer(rng, lead[register], bytes),
                _ => own[register],
            };
        }
        // Each core a word further on, as in 000's example.
        if rng.one_in(4) {
            for (register, &value) in sheet.iter_mut().zip(&lead).take(5).skip(1) {
                *register = value.wrapping_add(4 * core as u32);
            }
        }
        sheet[place::SR] = status(rng, lead[place::SR]);
    }
    if rng.one_in(2) {
        sheet[place::PC..=place::TARGET].copy_from_slice(&lead[place::PC..=place::TARGET]);
    }
    if rng.one_in(3) {
        (sheet[place::LINK], sheet[place::LINK_ADDRESS]) = (1, lead[1] & !3);
    }
}

/// Gives a core that is not linked a link to where linked ones may store, and the word
/// that they race for.
fn watch(rng: &mut Rng, case: &mut Case, core: usize) {
    let near = case.sheets[rng.pick(&[1, 1, 2])].wrapping_add(4 * rng.below(4) as u32);
    let shared = case.sheets[1];
    let sheet = &mut case.sheets[core * SHEET_WORDS..(core + 1) * SHEET_WORDS];
    (sheet[place::LINK], sheet[place::LINK_ADDRESS]) = (1, near & !3);
    sheet[1] = shared.wrapping_add(4 * rng.pick(&[0, 0, 1, 2]));
    let start = sheet[place::PC] as usize / 4 + rng.below(8);
    if rng.one_in(2) {
        let words = words(&[insn(Kind::Lwa, 13, 1, 0, 0), insn(Kind::Nop, 0, 0, 0, 0)]);
        put(case, start, &words);
    }
}

/// A pointer near core 0's, seldom one that raises.
fn pointer(rng: &mut Rng, lead: u32, bytes: u32) -> u32 {
    let near = (rng.between(0, 16) as u32).wrapping_sub(8);
    match rng.below(12) {
        0 => lead.wrapping_add(near),
        1 => rng.pick(&[bytes - 4, bytes, lead | 1]),
        _ => lead.wrapping_add(near.wrapping_mul(4)),
    }
}

/// SR with other flags than core 0's, and seldom with OVE where core 0 has none.
fn status(rng: &mut Rng, lead: u32) -> u32 {
    let flags = rng.next_u32() & (F | CY | OV);
    let status = lead & !(F | CY | OV) | flags;
    match rng.below(6) {
        0 => status | OVE,
        1 | 2 => status & !OVE,
        _ => status,
    }
}

/// Puts such words near where core 0 starts and goes on after a slot, and all over
/// memory.
fn plant(rng: &mut Rng, case: &mut Case) {
    let starts = [case.sheets[place::PC], case.sheets[place::TARGET]];
    for _ in 0..rng.between(0, 6) {
        let start = rng.pick(&starts) as usize / 4 + rng.below(32);
        put(case, start, &parting(rng));
    }
    for _ in 0..rng.pick(&[0, 8, 24, 24]) {
        let start = rng.below(case.memory.len() / 4);
        put(case, start, &parting(rng));
    }
}

fn put(case: &mut Case, start: usize, words: &[u32]) {
    for (offset, &word) in words.iter().enumerate() {
        case.overwrite(start + offset, word);
    }
}

/// Words after which the cores have parted.
fn parting(rng: &mut Rng) -> Vec<u32> {
    let parted = match rng.below(22) {
        0 | 1 => bands(rng),
        2 | 3 => own_code(rng),
        4 | 5 => own_flag(rng),
        6..=8 => race(rng),
        9 | 10 => own_target(rng),
        11 => own_return(rng),
        12 => own_special(rng),
        13 => out_of_range(rng),
        14 => by_nothing(rng),
        15 => unreachable(rng),
        16 | 17 => unlinked(rng),
        18 | 19 => cleared(rng),
        _ => refused(rng),
    };
    [words(&[insn(Kind::Mfspr, OWN, 0, 0, NUMBER)]), words(&parted)].concat()
}

/// rD is rA, for every core so many bytes further on.
fn spread(d: u8, a: u8, shift: u32) -> [Insn; 2] {
    [insn(Kind::Slli, MADE, OWN, 0, shift), insn(Kind::Add, d, a, MADE, 0)]
}

fn store(rng: &mut Rng, at: u8) -> Insn {
    let kind = rng.pick(&[Kind::Sw, Kind::Sw, Kind::Sh, Kind::Sb]);
    let value = rng.between(5, 8) as u8;
    insn(kind, 0, at, value, 4 * rng.below(6) as u32)
}

/// F, on one core other than on the rest.
fn one_apart(rng: &mut Rng) -> Insn {
    let kind = rng.pick(&[Kind::Sfeqi, Kind::Sfnei, Kind::Sfgtui, Kind::Sfltui]);
    insn(kind, 0, OWN, 0, rng.between(0, 3) as u32)
}

/// Each core stores in a place of its own, or two of them in one, and reads there and
/// at a neighbour's.
fn bands(rng: &mut Rng) -> Vec<Insn> {
    let at = rng.pick(&[MADE, MADE, 2, 3]);
    let mut forms = spread(at, rng.between(1, 3) as u8, rng.pick(&[2, 2, 2, 1, 0])).to_vec();
    let kind = rng.pick(&[Kind::Sw, Kind::Sb]);
    forms.push(insn(kind, 0, at, rng.pick(&[OWN, 5, 6]), 0));
    let aside = rng.pick(&[0, 0u32.wrapping_sub(4), 4]);
    forms.push(insn(rng.pick(&[Kind::Lwz, Kind::Lbz]), 13, at, 0, aside));
    forms
}

/// They store into code that is about to run, or runs.
fn own_code(rng: &mut Rng) -> Vec<Insn> {
    let jump = insn(Kind::Jal, 0, 0, 0, 8);
    let mut forms = vec![jump, insn(Kind::Nop, 0, 0, 0, 0)];
    // r9 is the address of the next word.
    forms.extend(spread(MADE, 9, rng.pick(&[2, 2, 5])));
    let kind = rng.pick(&[Kind::Sw, Kind::Sw, Kind::Sb]);
    let place = rng.pick(&[0, 4, 8, 8, 8, 12, 16]);
    forms.push(insn(kind, 0, MADE, rng.between(5, 8) as u8, place));
    forms
}

/// A branch or l.cmov by flags that differ.
fn own_flag(rng: &mut Rng) -> Vec<Insn> {
    let branch = rng.pick(&[Kind::Bf, Kind::Bnf]);
    let goal = 4 * rng.between(2, 4) as u32;
    let (jump, chosen) = (insn(branch, 0, 0, 0, goal), insn(Kind::Cmov, 13, 5, OWN, 0));
    if rng.one_in(3) {
        vec![one_apart(rng), chosen]
    } else {
        let store = store(rng, 2);
        vec![one_apart(rng), jump, rng.pick(&[chosen, store])]
    }
}

/// l.lwa and l.swa of one word by all, of one by each, or by two and two; now and then
/// not all of them have the link.
fn race(rng: &mut Rng) -> Vec<Insn> {
    let mut forms = vec![];
    let at = rng.pick(&[1, MADE, MADE]);
    if at == MADE {
        forms.push(insn(Kind::Srli, OWN, OWN, 0, rng.pick(&[0, 1])));
        forms.extend(spread(MADE, 1, 2));
    }
    forms.push(insn(Kind::Lwa, 13, at, 0, 0));
    if rng.one_in(3) {
        // Some linked cores' or core 0's link is to another word then.
        forms.push(one_apart(rng));
        forms.push(insn(Kind::Cmov, 14, at, 2, 0));
        forms.push(insn(Kind::Lwa, 13, 14, 0, 0));
    }
    if rng.one_in(4) {
        forms.push(store(rng, at));
    }
    forms.push(insn(Kind::Swa, 0, at, rng.pick(&[OWN, 5, 13]), 0));
    forms
}

/// l.jr or l.jalr to an address that is core 0's alone, for others another or none that
/// could be a target.
fn own_target(rng: &mut Rng) -> Vec<Insn> {
    let mut forms = vec![insn(Kind::Jal, 0, 0, 0, 8), insn(Kind::Nop, 0, 0, 0, 0)];
    forms.extend(spread(14, 9, rng.pick(&[0, 0, 2, 4])));
    forms.push(insn(Kind::Addi, 14, 14, 0, 4 * rng.between(5, 7) as u32));
    forms.push(insn(rng.pick(&[Kind::Jr, Kind::Jalr]), 0, 0, 14, 0));
    forms.push(rng.pick(&[insn(Kind::Nop, 0, 0, 0, 0), insn(Kind::Add, 13, 9, OWN, 0)]));
    forms
}

/// l.rfe with EPCR and ESR of one's own.
fn own_return(rng: &mut Rng) -> Vec<Insn> {
    let mut forms = vec![insn(Kind::Jal, 0, 0, 0, 8), insn(Kind::Nop, 0, 0, 0, 0)];
    forms.extend(spread(14, 9, rng.pick(&[2, 3])));
    forms.push(insn(Kind::Addi, 14, 14, 0, 20));
    forms.push(insn(Kind::Mtspr, 0, 0, 14, EPCR));
    forms.push(insn(Kind::Rfe, 0, 0, 0, 0));
    forms
}

/// A special register written with the core's own number in it, and read.
fn own_special(rng: &mut Rng) -> Vec<Insn> {
    let number = rng.pick(&[32, 48, 64, 0x2801, 0x2802, 0x4800, 0x4802]);
    let shift = rng.pick(&[0, 2, 9, 12]);
    vec![
        insn(Kind::Slli, MADE, OWN, 0, shift),
        insn(Kind::Mtspr, 0, 0, MADE, number),
        insn(Kind::Mfspr, 13, 0, 0, rng.pick(&[number, number, 17, 129])),
        insn(Kind::Maci, 0, OWN, 0, rng.pick(&[1, 0x7fff])),
        insn(Kind::Addc, 14, OWN, MADE, 0),
    ]
}

/// Sums and products that overflow on some cores, and raise there under OVE.
fn out_of_range(rng: &mut Rng) -> Vec<Insn> {
    let mut forms =
        vec![insn(Kind::Movhi, MADE, 0, 0, 0x7fff), insn(Kind::Ori, MADE, MADE, 0, 0xffff)];
    if rng.one_in(2) {
        forms.push(insn(Kind::Addi, OWN, OWN, 0, 0u32.wrapping_sub(rng.between(0, 2) as u32)));
    }
    forms.push(insn(rng.pick(&[Kind::Add, Kind::Add, Kind::Addc, Kind::Mul]), 13, OWN, MADE, 0));
    forms
}

/// A division that is by 0 on one core.
fn by_nothing(rng: &mut Rng) -> Vec<Insn> {
    let away = 0u32.wrapping_sub(rng.between(1, 3) as u32);
    vec![
        insn(Kind::Addi, MADE, OWN, 0, away),
        insn(rng.pick(&[Kind::Div, Kind::Divu]), 13, 5, MADE, 0),
    ]
}

/// An access that is misaligned, or outside memory, on one linked core.
fn unreachable(rng: &mut Rng) -> Vec<Insn> {
    const MISALIGNED: [Kind; 7] =
        [Kind::Lwz, Kind::Lhz, Kind::Lws, Kind::Lwa, Kind::Sw, Kind::Sh, Kind::Swa];
    const OUTSIDE: [Kind; 7] =
        [Kind::Lbz, Kind::Lwz, Kind::Lwa, Kind::Sb, Kind::Sw, Kind::Swa, Kind::Cflush];
    let at = rng.between(1, 2) as u8;
    let (kind, bad) = if rng.one_in(2) {
        (rng.pick(&MISALIGNED), insn(Kind::Ori, MADE, at, 0, 1))
    } else {
        (rng.pick(&OUTSIDE), insn(Kind::Movhi, MADE, 0, 0, 0x10))
    };
    let mut forms = one_bad(rng, at, bad);
    forms.push(programs::trim(insn(kind, 13, MADE, 6, 0)));
    forms
}

/// The same for a store, all having a link that the others' stores clear, or some's.
fn unlinked(rng: &mut Rng) -> Vec<Insn> {
    let mut forms = vec![insn(Kind::Lwa, 13, 1, 0, 0)];
    forms.extend(one_bad(rng, 1, insn(Kind::Ori, MADE, 1, 0, 1)));
    if rng.one_in(2) {
        forms.push(insn(Kind::Sfeqi, 0, OWN, 0, rng.pick(&[0, 0, 1])));
        forms.push(insn(Kind::Cmov, MADE, 2, MADE, 0));
    }
    forms.push(insn(rng.pick(&[Kind::Sw, Kind::Sw, Kind::Sh, Kind::Swa]), 0, MADE, 6, 0));
    forms
}

/// A store of linked cores, not of core 0, to the word that all have a link to; now and
/// then it raises on one of them.
fn cleared(rng: &mut Rng) -> Vec<Insn> {
    let mut forms = vec![
        insn(Kind::Lwa, 13, 1, 0, 0),
        insn(Kind::Sfeqi, 0, OWN, 0, 0),
        insn(Kind::Cmov, MADE, 2, 1, 0),
    ];
    if rng.one_in(2) {
        forms.push(insn(Kind::Sfeqi, 0, OWN, 0, rng.pick(&[1, 2, 2, 3, 3])));
        forms.push(insn(Kind::Ori, 14, MADE, 0, 1));
        forms.push(insn(Kind::Cmov, MADE, 14, MADE, 0));
    }
    forms.push(insn(rng.pick(&[Kind::Sw, Kind::Sw, Kind::Sh, Kind::Swa]), 0, MADE, 6, 0));
    forms.push(insn(Kind::Swa, 0, 1, rng.pick(&[OWN, 5]), 0));
    forms
}

/// Words after which one linked core has a bad pointer and all others a good one.
fn one_bad(rng: &mut Rng, good: u8, bad: Insn) -> Vec<Insn> {
    let one = rng.between(1, 3) as u32;
    vec![insn(Kind::Sfeqi, 0, OWN, 0, one), bad, insn(Kind::Cmov, MADE, MADE, good, 0)]
}

/// A store that is at the limit on core 0 and below it on others.
fn refused(rng: &mut Rng) -> Vec<Insn> {
    let kind = rng.pick(&[Kind::Sw, Kind::Sh, Kind::Sb, Kind::Swa]);
    vec![
        insn(Kind::Slli, MADE, OWN, 0, rng.pick(&[2, 2, 30])),
        insn(Kind::Sub, MADE, 4, MADE, 0),
        insn(Kind::Lwa, 13, MADE, 0, 0),
        insn(kind, 0, MADE, rng.between(5, 8) as u8, 0),
    ]
}
