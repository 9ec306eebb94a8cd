//! Engines that are wrong in one thing that note 8 of document 02 says: the
//! battery must stop each.

mod common;

use common::wrong_linked::{assert_stopped, put_places, Follow, Idle, Lead, WrongLinked, RIGHT};
use common::wrong_step::assert_passed;
use common::{show, wrong_refusal};
use compare::battery::Pair;
use compare::check::BY_HISTORY;
use compare::exec::{self, Cause};
use compare::isa::Kind::{self, *};
use compare::state::{place, Core, Mode, CY, F, IEE, OV, OVE, SHEET_WORDS};
use wrong_refusal::{turning, Asked, Turn, WrongRefusal};

const BRANCHES: &[Kind] = &[Bf, Bnf];
const TO_REGISTERS: &[Kind] = &[Jr, Jalr];
const JUMPS: &[Kind] = &[J, Jal, Bnf, Bf, Jr, Jalr];
const LOADS: &[Kind] = &[Lwa, Lwz, Lws, Lbz, Lbs, Lhz, Lhs];
const STORES: &[Kind] = &[Swa, Sw, Sb, Sh];
const SUMS: &[Kind] = &[Add, Addc, Sub, Addi, Addic];

fn halts(follow: &Follow) -> bool {
    follow.insn.kind == Nop && follow.insn.imm == 1
}

/// Ends as is due, then spoils it.
const fn ending(name: &'static str, end: fn(&mut Follow)) -> WrongLinked {
    WrongLinked { name, end, ..RIGHT }
}

/// The same if it would raise.
fn if_raised(follow: &mut Follow, spoil: fn(&mut Follow)) {
    if follow.raised.is_some() {
        spoil(follow);
    }
}

/// The same if it goes on and is of some kinds.
fn if_of(follow: &mut Follow, kinds: &[Kind], spoil: fn(&mut Follow)) {
    if follow.raised.is_none() && follow.is(kinds) {
        spoil(follow);
    }
}

/// Whether core 0 stores into the word that runs.
fn stores_into_itself(lead: &Lead) -> bool {
    lead.stored == Some(lead.before.pc)
}

/// The link of a linked core that raises comes back, if one of some stores cleared it.
fn restore_link(follow: &mut Follow, by_core_0: bool) {
    let Core { link, link_address, .. } = follow.start;
    let word = follow.lead.stored;
    if follow.raised.is_some() && link && (word == Some(link_address)) == by_core_0 {
        follow.after = Core { link, link_address, ..follow.after };
    }
}

const WRONG_SHARING: [WrongLinked; 17] = [
    WrongLinked { name: "linked cores do nothing", shares: |_| false, ..RIGHT },
    WrongLinked { name: "linked cores go first", first: true, ..RIGHT },
    WrongLinked { name: "in falling order", order: |linked| linked.reverse(), ..RIGHT },
    WrongLinked { name: "one linked core alone", order: |linked| linked.truncate(1), ..RIGHT },
    WrongLinked {
        name: "follow any running core",
        shares: |lead| lead.insn.is_some() && lead.raised.is_none(),
        ..RIGHT
    },
    WrongLinked {
        name: "follow core 1, not core 0",
        shares: |lead| lead.who == 1 && lead.insn.is_some() && lead.raised.is_none(),
        ..RIGHT
    },
    WrongLinked {
        name: "execute what raises range on core 0",
        shares: |lead| (RIGHT.shares)(lead) || lead.who == 0 && lead.raised == Some(Cause::Range),
        ..RIGHT
    },
    WrongLinked {
        name: "execute an access that raises on core 0",
        shares: |lead| {
            let access = lead.insn.is_some_and(|insn| LOADS.contains(&insn.kind));
            (RIGHT.shares)(lead) || lead.who == 0 && access
        },
        ..RIGHT
    },
    WrongLinked {
        name: "execute whatever raises on core 0",
        shares: |lead| lead.who == 0 && lead.insn.is_some(),
        ..RIGHT
    },
    WrongLinked {
        name: "execute the word that core 0's interrupt is in place of",
        shares: |lead| {
            let interrupt = lead.raised == Some(Cause::Interrupt);
            (RIGHT.shares)(lead) || lead.who == 0 && interrupt && lead.word.is_some()
        },
        ..RIGHT
    },
    WrongLinked { name: "fetch for themselves", form: |_, _, now| now, ..RIGHT },
    WrongLinked {
        name: "fetch for themselves after core 0's store",
        form: |lead, fetched, now| if stores_into_itself(lead) { now } else { fetched },
        ..RIGHT
    },
    WrongLinked {
        name: "fetch for themselves after a linked core's store",
        form: |lead, fetched, now| if stores_into_itself(lead) { fetched } else { now },
        ..RIGHT
    },
    WrongLinked {
        name: "fetch for themselves in the plain run",
        form: |lead, fetched, now| if lead.fast { fetched } else { now },
        ..RIGHT
    },
    WrongLinked {
        name: "fetch for themselves in the fast run",
        form: |lead, fetched, now| if lead.fast { now } else { fetched },
        ..RIGHT
    },
    WrongLinked {
        name: "have the links of before the step",
        begin: |core, lead, start| {
            (RIGHT.begin)(core, lead, start);
            (core.link, core.link_address) = (start.link, start.link_address);
        },
        ..RIGHT
    },
    WrongLinked {
        name: "need an own PC that is core 0's",
        end: |follow| {
            if follow.start.pc != follow.lead.before.pc {
                follow.after = follow.before;
            }
        },
        ..RIGHT
    },
];

const WRONG_OWN_ENTRIES: [WrongLinked; 9] = [
    WrongLinked { name: "an own entry runs", own_entry: |_, _, _| true, ..RIGHT },
    WrongLinked {
        name: "an own entry runs and is counted",
        own_entry: |_, _, _| true,
        own_count: 1,
        ..RIGHT
    },
    WrongLinked { name: "they run on while core 0 is halted", idle: Idle::RunOn, ..RIGHT },
    WrongLinked { name: "a halted core 0 leads on", idle: Idle::LeadOn, ..RIGHT },
    WrongLinked {
        name: "an own entry runs while core 0 is halted",
        own_entry: |_, lead, _| !lead.is_running(),
        ..RIGHT
    },
    WrongLinked { name: "an own entry is counted", own_count: 1, ..RIGHT },
    WrongLinked {
        name: "an own entry latches lines",
        own_entry: |core, _, lines| {
            exec::latch(core, lines);
            false
        },
        ..RIGHT
    },
    WrongLinked {
        name: "an own entry makes it running",
        own_entry: |core, _, _| {
            core.mode = Mode::Running;
            false
        },
        ..RIGHT
    },
    WrongLinked {
        name: "an own entry takes core 0's places",
        own_entry: |core, lead, _| {
            put_places(core, lead);
            false
        },
        ..RIGHT
    },
];

const WRONG_PLACES: [WrongLinked; 25] = [
    WrongLinked { name: "goes on by itself", jumps: true, ..RIGHT },
    WrongLinked {
        name: "goes on by itself from its own PC",
        begin: |_, _, _| {},
        jumps: true,
        ..RIGHT
    },
    ending("PC is kept", |follow| follow.after.pc = follow.start.pc),
    ending("delay is kept", |follow| {
        if follow.raised.is_none() && !follow.start.delay {
            (follow.after.delay, follow.after.target) = (false, 0);
        }
    }),
    ending("target is its own", |follow| {
        if follow.after.delay {
            follow.after.target = follow.start.target;
        }
    }),
    ending("takes the places of before the step", |follow| {
        if follow.raised.is_none() {
            put_places(&mut follow.after, &follow.lead.before);
        }
    }),
    ending("takes places at jumps alone", |follow| {
        if follow.raised.is_none() && !follow.is(JUMPS) {
            let mut own = follow.start;
            exec::advance(&mut own);
            put_places(&mut follow.after, &own);
        }
    }),
    ending("branches by its own F", |follow| {
        if_of(follow, BRANCHES, |follow| {
            let taken = follow.start.has(F) == (follow.insn.kind == Bf);
            let away = if taken { follow.insn.imm } else { 8 };
            follow.after.target = follow.lead.before.pc.wrapping_add(away);
        })
    }),
    ending("jumps to its own register", |follow| {
        if_of(follow, TO_REGISTERS, |follow| {
            follow.after.target = follow.start.get(follow.insn.b) & !3;
        })
    }),
    ending("tests its own target", |follow| {
        if_of(follow, TO_REGISTERS, |follow| {
            if !follow.start.get(follow.insn.b).is_multiple_of(4) {
                follow.drop_out();
            }
        })
    }),
    ending("tests its own target of l.jr", |follow| {
        if_of(follow, &[Jr], |follow| {
            if !follow.start.get(follow.insn.b).is_multiple_of(4) {
                follow.drop_out();
            }
        })
    }),
    ending("tests its own target of l.jalr", |follow| {
        if_of(follow, &[Jalr], |follow| {
            if !follow.start.get(follow.insn.b).is_multiple_of(4) {
                follow.drop_out();
            }
        })
    }),
    ending("drops out at another target", |follow| {
        if_of(follow, TO_REGISTERS, |follow| {
            if follow.start.get(follow.insn.b) != follow.lead.after.target {
                follow.drop_out();
            }
        })
    }),
    ending("drops out at another condition", |follow| {
        if_of(follow, BRANCHES, |follow| {
            if follow.start.has(F) != follow.lead.before.has(F) {
                follow.drop_out();
            }
        })
    }),
    ending("a jump is illegal with its own delay", |follow| {
        if_of(follow, JUMPS, |follow| {
            if follow.start.delay {
                follow.drop_out();
            }
        })
    }),
    ending("l.rfe is illegal with its own delay", |follow| {
        if_of(follow, &[Rfe], |follow| {
            if follow.start.delay {
                follow.drop_out();
            }
        })
    }),
    ending("r9 is by its own PC", |follow| {
        if_of(follow, &[Jal, Jalr], |follow| {
            follow.after.regs[9] = follow.start.pc.wrapping_add(8);
        })
    }),
    ending("l.jal leaves r9", |follow| {
        if_of(follow, &[Jal], |follow| follow.after.regs[9] = follow.before.regs[9])
    }),
    ending("l.jalr leaves r9", |follow| {
        if_of(follow, &[Jalr], |follow| follow.after.regs[9] = follow.before.regs[9])
    }),
    ending("r9 is the slot", |follow| {
        if_of(follow, &[Jal, Jalr], |follow| follow.after.regs[9] -= 4)
    }),
    ending("l.nop 1 does not halt it", |follow| {
        if halts(follow) {
            follow.after.mode = Mode::Linked;
        }
    }),
    ending("l.nop 1 makes it running", |follow| {
        if halts(follow) {
            follow.after.mode = Mode::Running;
        }
    }),
    ending("l.nop 1 halts it where it is", |follow| {
        if halts(follow) {
            follow.drop_out();
        }
    }),
    WrongLinked {
        name: "l.nop 1 of another core halts it",
        unshared: |core, lead| {
            if lead.raised.is_none() && lead.before.is_running() && !lead.after.is_running() {
                core.mode = Mode::Halted;
            }
        },
        ..RIGHT
    },
    WrongLinked {
        name: "l.nop 1 of core 0 halts all cores",
        after: |cores, lead| {
            if lead.who == 0 && !lead.after.is_running() {
                cores.iter_mut().for_each(|core| core.mode = Mode::Halted);
            }
        },
        ..RIGHT
    },
];

const WRONG_RETURNS: [WrongLinked; 6] = [
    ending("l.rfe takes its own ESR", |follow| {
        if_of(follow, &[Rfe], |follow| follow.after.sr = follow.start.esr)
    }),
    ending("l.rfe takes core 0's ESR", |follow| {
        if_of(follow, &[Rfe], |follow| follow.after.sr = follow.lead.after.sr)
    }),
    ending("l.rfe goes to its own EPCR", |follow| {
        if_of(follow, &[Rfe], |follow| follow.after.pc = follow.start.epcr)
    }),
    ending("l.rfe clears its link", |follow| {
        if_of(follow, &[Rfe], |follow| follow.after.clear_link())
    }),
    ending("l.rfe leaves its places", |follow| {
        if_of(follow, &[Rfe], |follow| put_places(&mut follow.after, &follow.start))
    }),
    ending("l.rfe copies EPCR", |follow| {
        if_of(follow, &[Rfe], |follow| follow.after.epcr = follow.lead.after.epcr)
    }),
];

const WRONG_RAISES: [WrongLinked; 28] = [
    WrongLinked {
        name: "counted as raised",
        count: |answer, follow| answer.raised += u32::from(follow.raised.is_some()),
        ..RIGHT
    },
    ending("takes the exception", |follow| {
        if_raised(follow, |follow| follow.after = follow.ordinary)
    }),
    ending("takes the exception and halts", |follow| {
        if_raised(follow, |follow| {
            follow.after = Core { mode: Mode::Halted, ..follow.ordinary };
        })
    }),
    ending("takes the exception and runs", |follow| {
        if_raised(follow, |follow| {
            follow.after = Core { mode: Mode::Running, ..follow.ordinary };
        })
    }),
    ending("EPCR, EEAR and ESR are written", |follow| {
        if_raised(follow, |follow| {
            let Core { epcr, eear, esr, .. } = follow.ordinary;
            follow.after = Core { epcr, eear, esr, ..follow.after };
        })
    }),
    ending("EEAR is written", |follow| {
        if_raised(follow, |follow| follow.after.eear = follow.ordinary.eear)
    }),
    ending("ESR is written", |follow| {
        if_raised(follow, |follow| follow.after.esr = follow.ordinary.esr)
    }),
    ending("rD and flags are written at range", |follow| {
        if_raised(follow, |follow| {
            follow.after.regs = follow.ordinary.regs;
            let flags = CY | OV;
            follow.after.sr = follow.after.sr & !flags | follow.ordinary.sr & flags;
        })
    }),
    ending("rD is written at range", |follow| {
        if_raised(follow, |follow| follow.after.regs = follow.ordinary.regs)
    }),
    ending("flags are written at range", |follow| {
        if_raised(follow, |follow| {
            let flags = CY | OV;
            follow.after.sr = follow.after.sr & !flags | follow.ordinary.sr & flags;
        })
    }),
    ending("CY is written at a division by 0", |follow| {
        if_raised(follow, |follow| {
            if follow.is(&[Div, Divu]) {
                follow.after.put(CY, true);
            }
        })
    }),
    ending("halts with core 0's places", |follow| {
        if_raised(follow, |follow| put_places(&mut follow.after, &follow.lead.after))
    }),
    ending("halts with the places of the fetch", |follow| {
        if_raised(follow, |follow| put_places(&mut follow.after, &follow.lead.before))
    }),
    ending("its link is cleared", |follow| if_raised(follow, |follow| follow.after.clear_link())),
    ending("its link is as before the step", |follow| {
        if_raised(follow, |follow| {
            let Core { link, link_address, .. } = follow.start;
            follow.after = Core { link, link_address, ..follow.after };
        })
    }),
    ending("its link that core 0 cleared comes back", |follow| restore_link(follow, true)),
    ending("its link that a linked core cleared comes back", |follow| restore_link(follow, false)),
    ending("stays linked", |follow| if_raised(follow, |follow| follow.after.mode = Mode::Linked)),
    ending("stays linked with core 0's places", |follow| {
        if_raised(follow, |follow| {
            follow.after.mode = Mode::Linked;
            put_places(&mut follow.after, &follow.lead.after);
        })
    }),
    ending("all linked cores halt with it", |follow| {
        if_raised(follow, |follow| {
            let linked = follow.cores.iter_mut().filter(|core| core.is_linked());
            linked.for_each(|core| core.mode = Mode::Halted);
        })
    }),
    ending("core 0 halts with it", |follow| {
        if_raised(follow, |follow| follow.cores[0].mode = Mode::Halted)
    }),
    ending("core 0 is told in EEAR", |follow| {
        if_raised(follow, |follow| follow.cores[0].eear = follow.ordinary.eear)
    }),
    WrongLinked {
        name: "higher ones do not execute then",
        stops: |follow| follow.raised.is_some(),
        ..RIGHT
    },
    WrongLinked {
        name: "range is not raised",
        begin: |core, lead, start| {
            (RIGHT.begin)(core, lead, start);
            core.put(OVE, false);
        },
        end: |follow| follow.after.put(OVE, follow.before.has(OVE)),
        ..RIGHT
    },
    WrongLinked {
        name: "range by core 0's OVE",
        begin: |core, lead, start| {
            (RIGHT.begin)(core, lead, start);
            if lead.insn.is_some_and(|insn| SUMS.contains(&insn.kind)) {
                core.put(OVE, lead.before.has(OVE));
            }
        },
        end: |follow| {
            if follow.is(SUMS) {
                follow.after.put(OVE, follow.before.has(OVE));
            }
        },
        ..RIGHT
    },
    WrongLinked { name: "not held to the limit", limit: |_| 0, ..RIGHT },
    WrongLinked {
        name: "empties the entry of a store that raises",
        empties: |follow| match follow.raised {
            Some(_) if follow.is(STORES) => Some(follow.address()),
            _ => follow.stored,
        },
        ..RIGHT
    },
    WrongLinked {
        name: "a store that raises clears links",
        end: |follow| {
            if_raised(follow, |follow| {
                let word = follow.address() & !3;
                let is_store = follow.is(STORES);
                let met = |core: &&mut Core| is_store && core.link && core.link_address == word;
                follow.cores.iter_mut().filter(met).for_each(Core::clear_link);
            })
        },
        ..RIGHT
    },
];

/// Spoils linked cores where core 0 raises.
const fn raising(name: &'static str, unshared: fn(&mut Core, &Lead)) -> WrongLinked {
    WrongLinked { name, unshared, ..RIGHT }
}

const WRONG_WAITS: [WrongLinked; 8] = [
    raising("an exception of core 0 halts them", |core, lead| {
        if lead.who == 0 && lead.raised.is_some() {
            core.mode = Mode::Halted;
        }
    }),
    raising("an interrupt of core 0 halts them", |core, lead| {
        if lead.who == 0 && lead.raised == Some(Cause::Interrupt) {
            core.mode = Mode::Halted;
        }
    }),
    raising("they take core 0's places at its exception", |core, lead| {
        if lead.who == 0 && lead.raised.is_some() {
            put_places(core, &lead.after);
        }
    }),
    raising("they lose their slot at core 0's exception", |core, lead| {
        if lead.who == 0 && lead.raised.is_some() {
            (core.delay, core.target) = (false, 0);
        }
    }),
    raising("they lose their links at core 0's exception", |core, lead| {
        if lead.who == 0 && lead.raised.is_some() {
            core.clear_link();
        }
    }),
    raising("they take ESR at core 0's exception", |core, lead| {
        if lead.who == 0 && lead.raised.is_some() {
            core.esr = core.sr;
        }
    }),
    raising("they lose IEE at core 0's interrupt", |core, lead| {
        if lead.who == 0 && lead.raised == Some(Cause::Interrupt) {
            core.put(IEE, false);
        }
    }),
    raising("any running core's exception halts them", |core, lead| {
        if lead.raised.is_some() {
            core.mode = Mode::Halted;
        }
    }),
];

const WRONG_LINES: [WrongLinked; 4] = [
    WrongLinked {
        name: "they latch core 0's lines",
        after: |cores, lead| {
            if lead.who == 0 {
                let linked = cores.iter_mut().filter(|core| core.is_linked());
                linked.for_each(|core| exec::latch(core, lead.lines));
            }
        },
        ..RIGHT
    },
    WrongLinked {
        name: "they latch core 0's lines at a fetch alone",
        end: |follow| {
            if follow.raised.is_none() && !follow.is(&[Mtspr]) {
                exec::latch(&mut follow.after, follow.lead.lines);
            }
        },
        ..RIGHT
    },
    ending("halts for its own interrupt", |follow| {
        let core = &follow.start;
        if core.picsr != 0 && core.has(IEE) && !follow.lead.before.delay {
            follow.drop_out();
        }
    }),
    ending("waits for its own interrupt", |follow| {
        let core = &follow.start;
        if core.picsr != 0 && core.has(IEE) && !follow.lead.before.delay {
            follow.after = follow.before;
        }
    }),
];

const WRONG_COUNTS: [WrongLinked; 10] = [
    WrongLinked {
        name: "a fetch is counted once a core",
        count: |answer, follow| {
            answer.executed += 1;
            answer.reused += u32::from(follow.lead.reused);
        },
        ..RIGHT
    },
    WrongLinked {
        name: "executed counts every core",
        count: |answer, _| answer.executed += 1,
        ..RIGHT
    },
    WrongLinked {
        name: "executed counts those that raise",
        count: |answer, follow| answer.executed += u32::from(follow.raised.is_some()),
        ..RIGHT
    },
    WrongLinked {
        name: "reused counts every core",
        count: |answer, follow| answer.reused += u32::from(follow.lead.reused),
        ..RIGHT
    },
    WrongLinked {
        name: "reused counts what core 0 has just filled",
        count: |answer, follow| answer.reused += u32::from(follow.lead.fast && !follow.lead.reused),
        ..RIGHT
    },
    WrongLinked { name: "their stores empty nothing", empties: |_| None, ..RIGHT },
    WrongLinked {
        name: "their stores leave the running word's entry",
        empties: |follow| follow.stored.filter(|&word| word != follow.lead.before.pc),
        ..RIGHT
    },
    WrongLinked {
        name: "core 0's word is emptied for theirs",
        empties: |follow| follow.stored.and(follow.lead.stored),
        ..RIGHT
    },
    WrongLinked {
        name: "an l.swa that fails empties its entry",
        empties: |follow| match follow.insn.kind {
            Swa if follow.raised.is_none() => Some(follow.address()),
            _ => follow.stored,
        },
        ..RIGHT
    },
    WrongLinked {
        name: "an l.swa that succeeds empties nothing",
        empties: |follow| follow.stored.filter(|_| follow.insn.kind != Swa),
        ..RIGHT
    },
];

const WRONG_LINKS: [WrongLinked; 11] = [
    ending("l.swa by core 0's F", |follow| {
        if_of(follow, &[Swa], |follow| follow.after.put(F, follow.lead.after.has(F)))
    }),
    WrongLinked {
        name: "l.swa by core 0's link",
        begin: |core, lead, start| {
            (RIGHT.begin)(core, lead, start);
            if lead.insn.is_some_and(|insn| insn.kind == Swa) {
                (core.link, core.link_address) = (lead.before.link, lead.before.link_address);
            }
        },
        ..RIGHT
    },
    WrongLinked {
        name: "l.swa never finds its link",
        begin: |core, lead, start| {
            (RIGHT.begin)(core, lead, start);
            if lead.insn.is_some_and(|insn| insn.kind == Swa) {
                core.clear_link();
            }
        },
        ..RIGHT
    },
    ending("l.lwa sets no link", |follow| {
        if_of(follow, &[Lwa], |follow| {
            let Core { link, link_address, .. } = follow.before;
            follow.after = Core { link, link_address, ..follow.after };
        })
    }),
    ending("l.lwa sets the link to core 0's word", |follow| {
        if_of(follow, &[Lwa], |follow| {
            follow.after.link_address = follow.lead.after.link_address;
        })
    }),
    ending("an l.swa that fails keeps its link", |follow| {
        if_of(follow, &[Swa], |follow| {
            if follow.stored.is_none() {
                let Core { link, link_address, .. } = follow.before;
                follow.after = Core { link, link_address, ..follow.after };
            }
        })
    }),
    WrongLinked { name: "their stores clear no others' links", keeps: |_, _| true, ..RIGHT },
    WrongLinked {
        name: "their stores do not clear core 0's link",
        keeps: |number, _| number == 0,
        ..RIGHT
    },
    WrongLinked {
        name: "their stores do not clear linked cores' links",
        keeps: |_, core| core.is_linked(),
        ..RIGHT
    },
    WrongLinked {
        name: "their stores do not clear running cores' links",
        keeps: |number, core| number != 0 && core.is_running(),
        ..RIGHT
    },
    WrongLinked {
        name: "their stores do not clear halted cores' links",
        keeps: |_, core| core.mode == Mode::Halted,
        ..RIGHT
    },
];

const WRONG_REGISTERS: [WrongLinked; 14] = [
    ending("SPR 128 is 0", |follow| {
        if_of(follow, &[Mfspr], |follow| {
            if follow.before.get(follow.insn.a) | follow.insn.imm == 128 {
                follow.after.set(follow.insn.d, 0);
            }
        })
    }),
    ending("SPR 129 counts linked cores alone", |follow| {
        if_of(follow, &[Mfspr], |follow| {
            if follow.before.get(follow.insn.a) | follow.insn.imm == 129 {
                let linked = follow.cores.iter().filter(|core| core.is_linked()).count();
                follow.after.set(follow.insn.d, linked as u32);
            }
        })
    }),
    ending("l.mfspr reads core 0's", |follow| {
        if_of(follow, &[Mfspr], |follow| {
            follow.after.set(follow.insn.d, follow.lead.after.get(follow.insn.d));
        })
    }),
    ending("l.mtspr is core 0's alone", |follow| {
        if_of(follow, &[Mtspr], |follow| {
            let mut kept = follow.before;
            put_places(&mut kept, &follow.after);
            follow.after = kept;
        })
    }),
    ending("SR cannot be written", |follow| {
        if_of(follow, &[Mtspr], |follow| follow.after.sr = follow.before.sr)
    }),
    ending("l.cmov by core 0's F", |follow| {
        if_of(follow, &[Cmov], |follow| {
            let flag = follow.lead.before.has(F);
            let chosen = if flag { follow.insn.a } else { follow.insn.b };
            follow.after.set(follow.insn.d, follow.before.get(chosen));
        })
    }),
    ending("core 0's F is copied", |follow| {
        if follow.raised.is_none() {
            follow.after.put(F, follow.lead.after.has(F));
        }
    }),
    ending("core 0's CY and OV are copied", |follow| {
        if_of(follow, SUMS, |follow| {
            follow.after.put(CY, follow.lead.after.has(CY));
            follow.after.put(OV, follow.lead.after.has(OV));
        })
    }),
    WrongLinked {
        name: "l.addc by core 0's CY",
        begin: |core, lead, start| {
            (RIGHT.begin)(core, lead, start);
            if lead.insn.is_some_and(|insn| matches!(insn.kind, Addc | Addic)) {
                core.put(CY, lead.before.has(CY));
            }
        },
        ..RIGHT
    },
    ending("loads what core 0 loads", |follow| {
        if_of(follow, LOADS, |follow| {
            follow.after.set(follow.insn.d, follow.lead.after.get(follow.insn.d));
        })
    }),
    ending("core 0's accumulator is copied", |follow| {
        if_of(follow, &[Mac, Maci, Msb], |follow| {
            follow.after.set_accumulator(follow.lead.after.accumulator());
        })
    }),
    ending("l.macrc clears nothing", |follow| {
        if_of(follow, &[Macrc], |follow| {
            follow.after.set_accumulator(follow.before.accumulator());
        })
    }),
    WrongLinked {
        name: "stores core 0's value",
        begin: |core, lead, start| {
            (RIGHT.begin)(core, lead, start);
            if let Some(insn) = lead.insn.filter(|insn| STORES.contains(&insn.kind)) {
                if insn.a != insn.b {
                    core.set(insn.b, lead.before.get(insn.b));
                }
            }
        },
        end: |follow| {
            if follow.is(STORES) {
                follow.after.regs = follow.before.regs;
            }
        },
        ..RIGHT
    },
    WrongLinked {
        name: "stores where core 0 does",
        begin: |core, lead, start| {
            (RIGHT.begin)(core, lead, start);
            if let Some(insn) = lead.insn.filter(|insn| STORES.contains(&insn.kind)) {
                core.set(insn.a, lead.before.get(insn.a));
            }
        },
        end: |follow| {
            if follow.is(STORES) {
                follow.after.regs = follow.before.regs;
            }
        },
        ..RIGHT
    },
];

/// The battery stops each; the last seed that it took is shown.
fn all_stopped(what: &str, engines: &[WrongLinked]) {
    let last = engines.iter().map(|engine| (assert_stopped(engine), engine.name)).max();
    show(&format!("{what}: {} engines, the last one stopped at {last:?}", engines.len()));
}

#[test]
fn wrong_sharing_is_stopped() {
    all_stopped("sharing", &WRONG_SHARING);
    all_stopped("own entries", &WRONG_OWN_ENTRIES);
}

#[test]
fn wrong_places_are_stopped() {
    all_stopped("places", &WRONG_PLACES);
    all_stopped("l.rfe", &WRONG_RETURNS);
}

#[test]
fn wrong_raises_are_stopped() {
    all_stopped("raises", &WRONG_RAISES);
}

#[test]
fn wrong_waits_are_stopped() {
    all_stopped("exceptions of core 0", &WRONG_WAITS);
    all_stopped("lines", &WRONG_LINES);
}

#[test]
fn wrong_counts_are_stopped() {
    all_stopped("counts and the table", &WRONG_COUNTS);
}

#[test]
fn wrong_links_are_stopped() {
    all_stopped("links", &WRONG_LINKS);
}

#[test]
fn wrong_registers_are_stopped() {
    all_stopped("registers", &WRONG_REGISTERS);
}

/// What these engines do is right where they spoil nothing.
#[test]
fn a_right_engine_passes() {
    assert_passed(&RIGHT);
    let pair = Pair { one: &BY_HISTORY, other: &RIGHT };
    assert_eq!(pair.accepted_cases(0..3_000, 200), Ok(()));
}

/// Whether a core's sheet has a mode; the first is core 0.
fn has_mode(asked: &Asked, core: usize, mode: u32) -> bool {
    asked.sheets.get(core * SHEET_WORDS + place::MODE) == Some(&mode)
}

fn is_linked(asked: &Asked) -> bool {
    (1..4).any(|core| has_mode(asked, core, 1))
}

/// Refuses what is to be run by 3.
fn refusing(asked: &Asked, refuses: bool) -> Turn {
    if asked.due == 0 && refuses {
        Turn::Refuse(3)
    } else {
        Turn::Right
    }
}

/// Answers as if it had run where 3 is due.
fn taking(asked: &Asked, takes: bool) -> Turn {
    if asked.due == 3 && takes {
        Turn::Refuse(0)
    } else {
        Turn::Right
    }
}

const WRONG_MODES: [WrongRefusal; 8] = [
    turning("refuses mode 1", |asked| refusing(asked, is_linked(asked))),
    turning("refuses mode 1 for core 3", |asked| refusing(asked, has_mode(asked, 3, 1))),
    turning("refuses mode 1 for core 1", |asked| refusing(asked, has_mode(asked, 1, 1))),
    turning("refuses mode 1 while core 0 is halted", |asked| {
        refusing(asked, is_linked(asked) && has_mode(asked, 0, 0))
    }),
    turning("refuses a linked core that is elsewhere", |asked| {
        let elsewhere = |core: usize| {
            let sheet = asked.sheets.get(core * SHEET_WORDS..).unwrap_or_default();
            has_mode(asked, core, 1) && sheet[place::PC] != asked.sheets[place::PC]
        };
        refusing(asked, (1..4).any(elsewhere))
    }),
    turning("takes mode 1 for core 0", |asked| taking(asked, has_mode(asked, 0, 1))),
    turning("takes mode 2", |asked| taking(asked, (0..4).any(|core| has_mode(asked, core, 2)))),
    turning("takes mode 2 for cores 1 to 3", |asked| {
        taking(asked, (1..4).any(|core| has_mode(asked, core, 2)))
    }),
];

/// "Mode 1 is allowed for cores 1 to 3."
#[test]
fn wrong_modes_are_stopped() {
    wrong_refusal::assert_stopped(&WRONG_MODES);
}

/// Mistakes that are close at hand, each with the engines that make it.
const CLOSE_AT_HAND: [(&str, &[&str]); 23] = [
    ("rising order reversed", &["in falling order"]),
    ("linked cores execute before core 0", &["linked cores go first"]),
    ("a linked core that raises is counted", &["counted as raised"]),
    ("one that raises keeps mode 1", &["stays linked", "stays linked with core 0's places"]),
    (
        "one that raises writes its flags",
        &["flags are written at range", "rD and flags are written at range"],
    ),
    ("its own condition used for a branch", &["branches by its own F"]),
    (
        "its own rB tested by l.jr",
        &["tests its own target", "tests its own target of l.jr", "tests its own target of l.jalr"],
    ),
    ("r9 from its own PC", &["r9 is by its own PC"]),
    ("l.rfe restores its own SR", &["l.rfe takes its own ESR"]),
    (
        "linked stores leave table entries",
        &["their stores empty nothing", "their stores leave the running word's entry"],
    ),
    (
        "the fetch counted once a core",
        &[
            "a fetch is counted once a core",
            "executed counts every core",
            "reused counts every core",
        ],
    ),
    ("mode 1 accepted for core 0", &["takes mode 1 for core 0"]),
    ("l.nop 1 halts core 0 only", &["l.nop 1 does not halt it", "l.nop 1 makes it running"]),
    (
        "linked cores execute when core 0 raises",
        &[
            "execute whatever raises on core 0",
            "execute what raises range on core 0",
            "execute an access that raises on core 0",
            "execute the word that core 0's interrupt is in place of",
        ],
    ),
    (
        "one that raises has the link back that core 0's store cleared",
        &[
            "its link that core 0 cleared comes back",
            "its link that a linked core cleared comes back",
            "its link is as before the step",
        ],
    ),
    (
        "linked cores latch lines",
        &[
            "they latch core 0's lines",
            "they latch core 0's lines at a fetch alone",
            "an own entry latches lines",
        ],
    ),
    (
        "the word executed anew after core 0's store changed it",
        &[
            "fetch for themselves after core 0's store",
            "fetch for themselves",
            "fetch for themselves in the plain run",
            "fetch for themselves in the fast run",
        ],
    ),
    ("the number 0 for l.mfspr 128", &["SPR 128 is 0"]),
    ("its own entry runs", &["an own entry runs", "an own entry runs and is counted"]),
    ("its own delay makes a jump illegal", &["a jump is illegal with its own delay"]),
    (
        "a linked store does not clear other cores' links",
        &[
            "their stores clear no others' links",
            "their stores do not clear core 0's link",
            "their stores do not clear linked cores' links",
            "their stores do not clear running cores' links",
            "their stores do not clear halted cores' links",
        ],
    ),
    ("a linked store below the limit let through", &["not held to the limit"]),
    (
        "linked cores run on while core 0 is halted",
        &[
            "they run on while core 0 is halted",
            "a halted core 0 leads on",
            "an own entry runs while core 0 is halted",
        ],
    ),
];

#[test]
fn mistakes_close_at_hand_are_among_them() {
    let mut names = WRONG_MODES.map(|engine| engine.name).to_vec();
    let lists: [&[WrongLinked]; 10] = [
        &WRONG_SHARING,
        &WRONG_OWN_ENTRIES,
        &WRONG_PLACES,
        &WRONG_RETURNS,
        &WRONG_RAISES,
        &WRONG_WAITS,
        &WRONG_LINES,
        &WRONG_COUNTS,
        &WRONG_LINKS,
        &WRONG_REGISTERS,
    ];
    names.extend(lists.into_iter().flatten().map(|engine| engine.name));
    for (mistake, engines) in CLOSE_AT_HAND {
        let missing: Vec<_> = engines.iter().filter(|name| !names.contains(name)).collect();
        assert!(missing.is_empty(), "{mistake}: {missing:?}");
    }
    let all = names.len();
    names.sort_unstable();
    names.dedup();
    assert_eq!(names.len(), all, "two engines of one name");
    show(&format!("{all} engines that are wrong in note 8"));
}
