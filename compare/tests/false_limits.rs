//! Engines that are wrong in one thing that note 5 of document 02 says: the
//! battery must stop each.

mod common;

use common::wrong_refusal::{self, turning, Asked, Turn, WrongRefusal};
use common::wrong_step::{
    assert_passed, assert_stopped, held_to, wrong, Attempt, Taken, WrongStep,
};
use compare::exec;
use compare::isa;
use compare::isa::Kind::{self, *};
use compare::state::{Core, Mode, DSX, F};

const STORES: &[Kind] = &[Swa, Sw, Sb, Sh];
const LOADS: &[Kind] = &[Lwz, Lws, Lbz, Lbs, Lhz, Lhs];
const TOUCHES: &[Kind] = &[Cinvalidate, Cwriteback, Cflush];
/// Some that reach no memory.
const OTHERS: &[Kind] = &[J, Bf, Bnf, Nop, Movhi, Addi, Ori, Add, Sub, Mul, Sfeq, Mfspr, Rfe];

fn width(kind: Kind) -> u32 {
    match kind {
        Sb => 1,
        Sh => 2,
        _ => 4,
    }
}

/// Whether an attempt finds the link to its word.
fn finds_link(attempt: &Attempt) -> bool {
    attempt.core.link && attempt.core.link_address == attempt.address()
}

/// The limit for what `held` holds of, and none for the rest.
fn limit_if(attempt: &Attempt, held: bool) -> u32 {
    if held {
        attempt.limit
    } else {
        0
    }
}

// `address + width <= limit`, a store wholly below, is no wrong engine: with the
// address a multiple of the width and the limit of 4 it is `address < limit`.
const WRONG_TESTS: [WrongStep; 19] = [
    held_to("ignores the limit", STORES, |_| 0),
    held_to("ignores it in the plain run", STORES, |it| limit_if(it, it.fast)),
    held_to("ignores it in the fast run", STORES, |it| limit_if(it, !it.fast)),
    held_to("holds words alone to it", STORES, |it| limit_if(it, width(it.insn.kind) == 4)),
    held_to("holds l.sw alone to it", STORES, |it| limit_if(it, it.insn.kind == Sw)),
    held_to("does not hold l.swa to it", &[Swa], |_| 0),
    held_to("does not hold l.sb to it", &[Sb], |_| 0),
    held_to("does not hold l.sh to it", &[Sh], |_| 0),
    held_to("tests the link first", &[Swa], |it| limit_if(it, finds_link(it))),
    held_to("lets a linked l.swa through", &[Swa], |it| limit_if(it, !finds_link(it))),
    held_to("holds core 0 alone to it", STORES, |it| limit_if(it, it.who == 0)),
    held_to("does not hold slots to it", STORES, |it| limit_if(it, !it.core.delay)),
    held_to("refuses at the limit", STORES, |it| {
        it.limit + if it.address() == it.limit { 4 } else { 0 }
    }),
    held_to("refuses the word at the limit", STORES, |it| it.limit + 4),
    held_to("lets the last word below through", STORES, |it| it.limit.saturating_sub(4)),
    held_to("lets the last byte below through", STORES, |it| {
        limit_if(it, it.address().wrapping_add(1) != it.limit)
    }),
    held_to("counts the limit in words", STORES, |it| 4 * it.limit),
    held_to("counts the address in words", STORES, |it| (it.limit / 4) & !3),
    held_to("keeps 12 bits of the limit", STORES, |it| it.limit & 0xfff),
];

/// Ends an access below the limit in a bus error.
fn refuse_below(taken: &mut Taken) {
    let address = taken.address();
    if !taken.raised && address < taken.limit {
        taken.fail(address);
    }
}

const WRONG_REFUSALS: [WrongStep; 6] = [
    wrong("tests the limit before alignment", STORES, |taken| {
        let address = taken.address();
        if !address.is_multiple_of(width(taken.insn.kind)) && address < taken.limit {
            taken.fail(address);
        }
    }),
    wrong("tests whether the last byte is below, before alignment", STORES, |taken| {
        let (address, width) = (taken.address(), width(taken.insn.kind));
        if !address.is_multiple_of(width) && address.saturating_add(width) <= taken.limit {
            taken.fail(address);
        }
    }),
    wrong("refuses loads", LOADS, refuse_below),
    wrong("refuses l.lwa", &[Lwa], refuse_below),
    wrong("refuses p.*", TOUCHES, refuse_below),
    wrong("refuses to fetch", OTHERS, |taken| {
        if taken.before.pc < taken.limit {
            taken.fail(taken.before.pc);
        }
    }),
];

/// Spoils what a store left that the limit turned back.
fn if_refused(taken: &mut Taken, spoil: fn(&mut Taken)) {
    if is_refused(taken) {
        spoil(taken);
    }
}

fn is_refused(taken: &Taken) -> bool {
    let address = taken.address();
    address.is_multiple_of(width(taken.insn.kind)) && address < taken.limit
}

/// The same of its core alone, given what it was and the address.
fn core_if_refused(taken: &mut Taken, spoil: fn(&mut Core, &Core, u32)) {
    if is_refused(taken) {
        let address = taken.address();
        spoil(&mut taken.after, &taken.before, address);
    }
}

/// Stores what was turned back.
fn write(taken: &mut Taken) {
    let (at, width) = (taken.address() as usize, width(taken.insn.kind) as usize);
    let value = taken.before.get(taken.insn.b).to_be_bytes();
    taken.memory[at..at + width].copy_from_slice(&value[4 - width..]);
}

/// Clears the cores' links to the word of a store.
fn clear_links(taken: &mut Taken) {
    let word = taken.address() & !3;
    let linked = taken.cores.iter_mut().filter(|core| core.link && core.link_address == word);
    linked.for_each(Core::clear_link);
}

/// Makes another entry of the word of a store.
fn make_entry(taken: &mut Taken, of: fn(u64) -> u64) {
    let at = taken.address() as usize / 4;
    let word = exec::fetch(taken.memory, 4 * at as u32).expect("a word of memory");
    if let Some(table) = taken.table.as_deref_mut() {
        table[at] = of(isa::decode(word));
    }
}

const WRONG_EFFECTS: [WrongStep; 9] = [
    wrong("writes memory", STORES, |taken| if_refused(taken, write)),
    wrong("l.sb writes memory", &[Sb], |taken| if_refused(taken, write)),
    wrong("l.swa writes memory", &[Swa], |taken| if_refused(taken, write)),
    wrong("clears others' links", STORES, |taken| if_refused(taken, clear_links)),
    wrong("l.swa clears others' links", &[Swa], |taken| if_refused(taken, clear_links)),
    wrong("empties the word's entry", STORES, |taken| {
        if_refused(taken, |taken| make_entry(taken, |_| 0))
    }),
    wrong("fills the word's entry", STORES, |taken| {
        if_refused(taken, |taken| make_entry(taken, |form| form))
    }),
    wrong("goes on and writes nothing", STORES, |taken| {
        if_refused(taken, |taken| {
            (taken.after, taken.raised) = (taken.before, false);
            exec::advance(&mut taken.after);
        })
    }),
    wrong("does not count it as raised", STORES, |taken| {
        if_refused(taken, |taken| taken.raised = false)
    }),
];

/// F, also where ESR keeps it.
fn put_flag(core: &mut Core, flag: bool) {
    core.put(F, flag);
    core.esr = core.esr & !F | core.sr & F;
}

const WRONG_CORES: [WrongStep; 16] = [
    wrong("l.swa clears F", &[Swa], |taken| {
        core_if_refused(taken, |core, _, _| put_flag(core, false))
    }),
    wrong("l.swa sets F", &[Swa], |taken| {
        core_if_refused(taken, |core, _, _| put_flag(core, true))
    }),
    wrong("l.swa tells its link in F", &[Swa], |taken| {
        core_if_refused(taken, |core, before, at| {
            put_flag(core, before.link && before.link_address == at)
        })
    }),
    wrong("EEAR is kept", STORES, |taken| {
        core_if_refused(taken, |core, before, _| core.eear = before.eear)
    }),
    wrong("EEAR is PC", STORES, |taken| {
        core_if_refused(taken, |core, before, _| core.eear = before.pc)
    }),
    wrong("EEAR is the word's address", STORES, |taken| {
        core_if_refused(taken, |core, _, at| core.eear = at & !3)
    }),
    wrong("EEAR is the limit", STORES, |taken| {
        if_refused(taken, |taken| taken.after.eear = taken.limit)
    }),
    wrong("the own link is kept", STORES, |taken| {
        core_if_refused(taken, |core, before, _| {
            (core.link, core.link_address) = (before.link, before.link_address);
        })
    }),
    wrong("l.swa alone clears the own link", &[Sw, Sb, Sh], |taken| {
        core_if_refused(taken, |core, before, _| {
            (core.link, core.link_address) = (before.link, before.link_address);
        })
    }),
    wrong("the own link to another word is kept", STORES, |taken| {
        core_if_refused(taken, |core, before, at| {
            if before.link_address != at & !3 {
                (core.link, core.link_address) = (before.link, before.link_address);
            }
        })
    }),
    wrong("EPCR is its own address in a slot", STORES, |taken| {
        core_if_refused(taken, |core, before, _| core.epcr = before.pc)
    }),
    wrong("EPCR is the next address", STORES, |taken| {
        core_if_refused(taken, |core, before, _| core.epcr = before.pc.wrapping_add(4))
    }),
    wrong("DSX is 0 in a slot", STORES, |taken| {
        core_if_refused(taken, |core, _, _| core.put(DSX, false))
    }),
    wrong("DSX is 1 without a slot", STORES, |taken| {
        core_if_refused(taken, |core, _, _| core.put(DSX, true))
    }),
    wrong("the vector is 300", STORES, |taken| {
        core_if_refused(taken, |core, _, _| core.pc = 0x300)
    }),
    wrong("the core halts", STORES, |taken| {
        core_if_refused(taken, |core, _, _| core.mode = Mode::Halted)
    }),
];

#[test]
fn wrong_tests_of_the_limit_are_stopped() {
    WRONG_TESTS.iter().for_each(|engine| assert_stopped(engine));
}

#[test]
fn wrong_refusals_of_accesses_are_stopped() {
    WRONG_REFUSALS.iter().for_each(|engine| assert_stopped(engine));
}

#[test]
fn wrong_effects_are_stopped() {
    WRONG_EFFECTS.iter().for_each(|engine| assert_stopped(engine));
}

#[test]
fn wrong_cores_are_stopped() {
    WRONG_CORES.iter().for_each(|engine| assert_stopped(engine));
}

/// What these engines do is right where they spoil nothing.
#[test]
fn a_right_engine_passes() {
    assert_passed(&held_to("holds to the limit", STORES, |it| it.limit));
    assert_passed(&wrong("refuses again", STORES, |taken| {
        if_refused(taken, |taken| taken.fail(taken.address()))
    }));
}

/// Whether the limit alone would be turned back.
fn limit_is_wrong(asked: &Asked) -> bool {
    !asked.limit.is_multiple_of(4) || asked.limit as usize > asked.bytes
}

/// Refuses by 12 where another number is due and the limit is wrong too.
fn before(asked: &Asked, due: u8) -> Turn {
    if asked.due == due && limit_is_wrong(asked) {
        Turn::Refuse(12)
    } else {
        Turn::Right
    }
}

/// Refuses by another number where 12 is due and that one would be after it.
fn after(asked: &Asked, other: u8) -> Turn {
    if asked.due == 12 && asked.with_limit == other {
        Turn::Refuse(other)
    } else {
        Turn::Right
    }
}

/// Runs with another limit where 12 is due and `takes` holds.
fn taking(asked: &Asked, takes: bool, limit: u32) -> Turn {
    if asked.due == 12 && takes {
        Turn::HeldTo(limit)
    } else {
        Turn::Right
    }
}

/// Refuses a good limit by 12.
fn refusing(asked: &Asked, refuses: bool) -> Turn {
    if asked.due == 0 && refuses {
        Turn::Refuse(12)
    } else {
        Turn::Right
    }
}

const WRONG_NUMBERS: [WrongRefusal; 21] = [
    turning("has 12 before 11", |asked| before(asked, 11)),
    turning("has 12 before 5", |asked| before(asked, 5)),
    turning("has 12 before 3", |asked| before(asked, 3)),
    turning("has 12 after 6", |asked| after(asked, 6)),
    turning("has 12 after 7", |asked| after(asked, 7)),
    turning("says 11 for 12", |asked| match asked.due {
        12 => Turn::Refuse(11),
        _ => Turn::Right,
    }),
    turning("says 1 for a limit past memory", |asked| match asked.due {
        12 if asked.limit as usize > asked.bytes => Turn::Refuse(1),
        _ => Turn::Right,
    }),
    turning("runs before it refuses", |asked| match asked.due {
        12 => Turn::RunAndRefuse(12),
        _ => Turn::Right,
    }),
    turning("refuses memory's length", |asked| {
        refusing(asked, asked.limit as usize == asked.bytes)
    }),
    turning("refuses 0", |asked| refusing(asked, asked.limit == 0)),
    turning("asks for a multiple of 8", |asked| refusing(asked, !asked.limit.is_multiple_of(8))),
    turning("takes 2 and the like", |asked| {
        taking(asked, asked.limit as usize <= asked.bytes && asked.limit % 4 == 2, asked.limit & !3)
    }),
    turning("takes odd limits, cut down", |asked| {
        taking(asked, asked.limit as usize <= asked.bytes, asked.limit & !3)
    }),
    turning("takes odd limits, rounded up", |asked| {
        taking(asked, asked.limit as usize <= asked.bytes, (asked.limit | 3).wrapping_add(1))
    }),
    turning("takes one word past memory", |asked| {
        taking(asked, asked.limit as usize == asked.bytes + 4, asked.bytes as u32)
    }),
    turning("takes any multiple of 4", |asked| {
        taking(asked, asked.limit.is_multiple_of(4), asked.bytes as u32)
    }),
    turning("takes a limit past memory for none", |asked| {
        taking(asked, asked.limit as usize > asked.bytes, 0)
    }),
    turning("reads the limit as signed", |asked| taking(asked, asked.limit >> 31 == 1, 0)),
    turning("tests the limit in the fast run alone", |asked| taking(asked, !asked.fast, 0)),
    turning("tests the limit in the plain run alone", |asked| taking(asked, asked.fast, 0)),
    turning("does not test the limit of an empty schedule", |asked| {
        taking(asked, asked.entries == 0, 0)
    }),
];

#[test]
fn wrong_refusals_of_limits_are_stopped() {
    wrong_refusal::assert_stopped(&WRONG_NUMBERS);
}
