//! Single instructions, by "One instruction" and "Vectors".

mod common;

use common::{asm, engines, on_two, Bench, BYTES};
use compare::card;
use compare::cases::Case;
use compare::check;
use compare::exec::Cause;
use compare::isa::{self, Kind};
use compare::rng::Rng;
use compare::runs::Answer;
use compare::state::{place, Mode, CY, DSX, F, IEE, OV, OVE, SM, TEE};
use compare::vectors::OLD;

const SR: u32 = 0x8001;

/// r5 after r5 <- r3 op r4.
fn by_registers(kind: Kind, x: u32, y: u32) -> u32 {
    let (bench, step) = on_two(asm(kind, 5, 3, 4, 0), SR, x, y);
    assert_eq!(step.raised, None);
    assert_eq!(bench.cores[0].pc, 0x104);
    bench.cores[0].regs[5]
}

/// r5 after r5 <- op r3, imm.
fn by_immediate(kind: Kind, x: u32, imm: u32) -> u32 {
    let (bench, _) = on_two(asm(kind, 5, 3, 0, imm), SR, x, 0);
    bench.cores[0].regs[5]
}

#[test]
fn logic_and_shifts() {
    let (x, y) = (0xf0f0_1234, 0x0ff0_0024);
    assert_eq!(by_registers(Kind::And, x, y), 0x00f0_0024);
    assert_eq!(by_registers(Kind::Or, x, y), 0xfff0_1234);
    assert_eq!(by_registers(Kind::Xor, x, y), 0xff00_1210);
    // The low five bits of 24 (hexadecimal) are 4.
    assert_eq!(by_registers(Kind::Sll, x, y), 0x0f01_2340);
    assert_eq!(by_registers(Kind::Srl, x, y), 0x0f0f_0123);
    assert_eq!(by_registers(Kind::Sra, x, y), 0xff0f_0123);
    assert_eq!(by_registers(Kind::Ror, x, y), 0x4f0f_0123);
    assert_eq!(by_registers(Kind::Sra, 0x8000_0000, 31), 0xffff_ffff);
    assert_eq!(by_registers(Kind::Ror, 1, 0), 1);
}

#[test]
fn immediates() {
    let x = 0xf0f0_8234;
    assert_eq!(by_immediate(Kind::Andi, x, 0xff30), 0x8230);
    assert_eq!(by_immediate(Kind::Ori, x, 0x8001), 0xf0f0_8235);
    // Document 000: a 32-bit NOT is l.xori rA, rB, -1.
    assert_eq!(by_immediate(Kind::Xori, x, 0xffff_ffff), !x);
    assert_eq!(by_immediate(Kind::Slli, x, 31), 0);
    assert_eq!(by_immediate(Kind::Srli, x, 31), 1);
    assert_eq!(by_immediate(Kind::Srai, x, 31), 0xffff_ffff);
    assert_eq!(by_immediate(Kind::Rori, x, 8), 0x34f0_f082);
    let (bench, _) = on_two(asm(Kind::Movhi, 5, 0, 0, 0xabcd), SR, 1, 1);
    assert_eq!(bench.cores[0].regs[5], 0xabcd_0000);
}

/// r5 after r5 <- op r3, for kinds that read one register.
fn on_one(kind: Kind, x: u32) -> u32 {
    let (bench, _) = on_two(asm(kind, 5, 3, 0, 0), SR, x, 0);
    bench.cores[0].regs[5]
}

#[test]
fn extensions_and_bit_places() {
    let x = 0x1234_8081;
    assert_eq!(on_one(Kind::Exths, x), 0xffff_8081);
    assert_eq!(on_one(Kind::Extbs, x), 0xffff_ff81);
    assert_eq!(on_one(Kind::Exthz, x), 0x8081);
    assert_eq!(on_one(Kind::Extbz, x), 0x81);
    assert_eq!(on_one(Kind::Extws, x), x);
    assert_eq!(on_one(Kind::Extwz, x), x);
    for bit in 0..32 {
        // Document 001: one for the LSB, 32 for the MSB.
        assert_eq!(on_one(Kind::Ff1, 1 << bit), bit + 1);
        assert_eq!(on_one(Kind::Fl1, 1 << bit), bit + 1);
        assert_eq!(on_one(Kind::Ff1, u32::MAX << bit), bit + 1);
        assert_eq!(on_one(Kind::Fl1, u32::MAX >> bit), 32 - bit);
    }
    assert_eq!((on_one(Kind::Ff1, 0), on_one(Kind::Fl1, 0)), (0, 0));
}

#[test]
fn conditional_move() {
    let word = asm(Kind::Cmov, 5, 3, 4, 0);
    assert_eq!(on_two(word, SR | F, 7, 8).0.cores[0].regs[5], 7);
    assert_eq!(on_two(word, SR, 7, 8).0.cores[0].regs[5], 8);
}

/// Carry and overflow by bits, unlike the engine's exact sums.
fn flags_by_bits(x: u32, y: u32, carry: u32) -> (u32, bool, bool) {
    let low = x.wrapping_add(y).wrapping_add(carry);
    let carried = (x & y | (x | y) & !low) >> 31 == 1;
    let overflow = (x ^ low) & (y ^ low) & 0x8000_0000 != 0;
    (low, carried, overflow)
}

#[test]
fn sums_and_differences() {
    let mut rng = Rng::new(11);
    for _ in 0..20_000 {
        let (x, y) = (rng.edge_word(), rng.edge_word());
        let old = rng.next_u32() & (CY | OV | F);
        let carry = u32::from(old & CY != 0);
        let plain = flags_by_bits(x, y, 0);
        let with_carry = flags_by_bits(x, y, carry);
        let (low, no_borrow, overflow) = flags_by_bits(x, !y, 1);
        let expected = [
            (Kind::Add, plain),
            (Kind::Addc, with_carry),
            (Kind::Sub, (low, !no_borrow, overflow)),
        ];
        for (kind, (low, carried, overflow)) in expected {
            let (bench, step) = on_two(asm(kind, 5, 3, 4, 0), SR | old, x, y);
            let core = &bench.cores[0];
            assert_eq!(step.raised, None);
            let seen = (core.regs[5], core.has(CY), core.has(OV));
            assert_eq!(seen, (low, carried, overflow), "{kind:?} {x:x} {y:x} {old:x}");
            assert_eq!(core.has(F), old & F != 0);
        }
    }
}

/// 02, note 1: "raise range on OV with OVE".
#[test]
fn sums_with_immediates() {
    let mut rng = Rng::new(12);
    for _ in 0..20_000 {
        let x = if rng.one_in(2) { rng.border_word() } else { rng.edge_word() };
        let y = rng.edge_word() as u16 as i16 as u32;
        let old = rng.next_u32() & (CY | OV | F | OVE);
        let carry = u32::from(old & CY != 0);
        for (kind, carry) in [(Kind::Addi, 0), (Kind::Addic, carry)] {
            let (bench, step) = on_two(asm(kind, 5, 3, 0, y), SR | old, x, 0);
            let core = &bench.cores[0];
            let (low, carried, overflow) = flags_by_bits(x, y, carry);
            let range = overflow && old & OVE != 0;
            let what = format!("{kind:?} {x:x} {y:x} {old:x}");
            assert_eq!(step.raised, range.then_some(Cause::Range), "{what}");
            assert_eq!(core.pc, if range { 0xb00 } else { 0x104 }, "{what}");
            let seen = (core.regs[5], core.has(CY), core.has(OV));
            assert_eq!(seen, (low, carried, overflow), "{what}");
            assert_eq!(core.has(F), old & F != 0, "{what}");
        }
    }
}

/// The five sums, each with a number that takes 7fffffff over the border.
const OVERFLOWING: [(Kind, u32); 5] =
    [(Kind::Add, 1), (Kind::Addc, 1), (Kind::Sub, u32::MAX), (Kind::Addi, 1), (Kind::Addic, 1)];

/// rD <- r3 op y, where y is r4 or the immediate.
fn sum_word(kind: Kind, d: u8, y: u32) -> u32 {
    match kind {
        Kind::Addi | Kind::Addic => asm(kind, d, 3, 0, y),
        _ => asm(kind, d, 3, 4, 0),
    }
}

#[test]
fn range_comes_after_the_writes() {
    for (kind, y) in OVERFLOWING {
        let word = sum_word(kind, 5, y);
        let (bench, step) = on_two(word, SR | OVE | TEE, 0x7fff_ffff, y);
        let core = &bench.cores[0];
        assert_eq!(step.raised, Some(Cause::Range), "{kind:?}");
        assert_eq!(core.regs[5], 0x8000_0000);
        assert_eq!((core.pc, core.epcr, core.eear), (0xb00, 0x100, 0));
        let carried = if kind == Kind::Sub { CY } else { 0 };
        assert_eq!(core.esr, SR | OVE | TEE | OV | carried);
        assert_eq!(core.sr, SR | OV | carried);
        // r0 drops the sum but not the exception.
        let (bench, step) = on_two(sum_word(kind, 0, y), SR | OVE, 0x7fff_ffff, y);
        assert_eq!((step.raised, bench.cores[0].regs[0]), (Some(Cause::Range), 0), "{kind:?}");
    }
}

#[test]
fn range_needs_both_overflow_and_its_enabling() {
    for (kind, y) in OVERFLOWING {
        let carried = if kind == Kind::Sub { CY } else { 0 };
        let cases = [
            (SR, 0x7fff_ffff, 0x8000_0000, SR | OV | carried),
            // The OV of before does not count, and goes.
            (SR | OVE | OV, 0x7fff_fffe, 0x7fff_ffff, SR | OVE | carried),
        ];
        for (before, x, sum, after) in cases {
            let (bench, step) = on_two(sum_word(kind, 5, y), before, x, y);
            let core = &bench.cores[0];
            assert_eq!(step.raised, None, "{kind:?} {before:x}");
            assert_eq!((core.regs[5], core.pc, core.sr, core.esr), (sum, 0x104, after, SR));
        }
    }
    // The carry alone takes l.addc and l.addic over the border.
    for kind in [Kind::Addc, Kind::Addic] {
        for (carry, raised) in [(0, None), (CY, Some(Cause::Range))] {
            let (_, step) = on_two(sum_word(kind, 5, 0), SR | OVE | carry, 0x7fff_ffff, 0);
            assert_eq!(step.raised, raised, "{kind:?} {carry:x}");
        }
    }
}

#[test]
fn range_in_a_slot() {
    for (kind, y) in OVERFLOWING {
        let mut bench = Bench::new(1);
        let core = &mut bench.cores[0];
        (core.regs[3], core.regs[4], core.sr, core.eear) = (0x7fff_ffff, y, SR | OVE, 0x55);
        (core.link, core.link_address) = (true, 0x40);
        bench.run(0, asm(Kind::J, 0, 0, 0, 0x80));
        assert!(bench.cores[0].link && bench.cores[0].delay);
        let step = bench.run(0, sum_word(kind, 5, y));
        let core = &bench.cores[0];
        assert_eq!(step.raised, Some(Cause::Range), "{kind:?}");
        assert_eq!((core.pc, core.epcr, core.eear), (0xb00, 0x100, 0x55));
        assert_eq!((core.regs[5], core.delay, core.target), (0x8000_0000, false, 0));
        let carried = if kind == Kind::Sub { CY } else { 0 };
        assert_eq!((core.esr, core.sr), (SR | OVE | OV | carried, SR | OV | DSX | carried));
        assert_eq!((core.link, core.link_address, core.is_running()), (false, 0, true));
    }
}

/// A sum that raises counts as executed and as raised, one that does not as
/// executed alone.
#[test]
fn counts_of_sums() {
    for (kind, y) in OVERFLOWING {
        for (status, raised) in [(SR | OVE, 1), (SR, 0)] {
            let mut case = Case {
                memory: vec![0; BYTES],
                sheets: card::reset_sheets(1, 0x100),
                schedule: vec![0],
                levels: vec![0],
                limit: 0,
                vectors: OLD.to_vec(),
                table: vec![0; BYTES / 4],
            };
            case.set_word(0x100 / 4, sum_word(kind, 5, y));
            (case.sheets[3], case.sheets[4]) = (0x7fff_ffff, y);
            case.sheets[place::SR] = status;
            let expected = Answer { refusal: 0, executed: 1, raised, reused: 0 };
            for engine in engines() {
                let both = check::after_both(engine, &case);
                let found = [both.plain.answer, both.fast.answer];
                assert_eq!(found, [expected; 2], "{}, {kind:?} {status:x}", engine.name());
            }
        }
    }
}

/// The ten set-flag relations in the paper's order, on exact numbers.
fn relations(x: u32, y: u32) -> [bool; 10] {
    let (ux, uy) = (i64::from(x), i64::from(y));
    let (sx, sy) = (i64::from(x as i32), i64::from(y as i32));
    [x == y, x != y, ux > uy, ux >= uy, ux < uy, ux <= uy, sx > sy, sx >= sy, sx < sy, sx <= sy]
}

#[test]
fn set_flag() {
    let mut rng = Rng::new(13);
    for _ in 0..5_000 {
        let x = rng.edge_word();
        let y = if rng.one_in(4) { x } else { rng.edge_word() };
        let imm = y as u16 as i16 as u32;
        for index in 0..10 {
            let kind = Kind::from_number(67 + index).unwrap();
            let (bench, _) = on_two(asm(kind, 0, 3, 4, 0), SR, x, y);
            let flag = relations(x, y)[usize::from(index)];
            assert_eq!(bench.cores[0].has(F), flag, "{kind:?} {x:x} {y:x}");
            let kind = Kind::from_number(33 + index).unwrap();
            let (bench, _) = on_two(asm(kind, 0, 3, 0, imm), SR | F, x, 0);
            let flag = relations(x, imm)[usize::from(index)];
            assert_eq!(bench.cores[0].has(F), flag, "{kind:?} {x:x} {imm:x}");
        }
    }
}

#[test]
fn writes_to_r0_are_dropped() {
    for word in [
        asm(Kind::Addi, 0, 3, 0, 1),
        asm(Kind::Lwz, 0, 0, 0, 0),
        asm(Kind::Lwa, 0, 0, 0, 0),
        asm(Kind::Mfspr, 0, 0, 0, 17),
        asm(Kind::Movhi, 0, 0, 0, 1),
        asm(Kind::Fl1, 0, 3, 0, 0),
        asm(Kind::Mul, 0, 3, 3, 0),
        asm(Kind::Muli, 0, 3, 0, 2),
        asm(Kind::Mulu, 0, 3, 3, 0),
        asm(Kind::Div, 0, 3, 3, 0),
        asm(Kind::Divu, 0, 3, 3, 0),
        asm(Kind::Macrc, 0, 0, 0, 0),
    ] {
        let mut bench = Bench::new(1);
        (bench.cores[0].regs[3], bench.cores[0].maclo) = (5, 5);
        bench.put(0, 0xffff_ffff);
        bench.run(0, word);
        assert_eq!(bench.cores[0].regs[0], 0, "{word:08x}");
    }
}

#[test]
fn jumps_have_slots() {
    let back = 0u32.wrapping_sub(0x40);
    let cases = [
        (asm(Kind::J, 0, 0, 0, back), SR, 0xc0, 0),
        (asm(Kind::Jal, 0, 0, 0, 0x40), SR, 0x140, 0x108),
        (asm(Kind::Bf, 0, 0, 0, 0x40), SR | F, 0x140, 0),
        (asm(Kind::Bf, 0, 0, 0, 0x40), SR, 0x108, 0),
        (asm(Kind::Bnf, 0, 0, 0, 0x40), SR | F, 0x108, 0),
        (asm(Kind::Bnf, 0, 0, 0, 0x40), SR, 0x140, 0),
        (asm(Kind::Jr, 0, 0, 3, 0), SR, 0x200, 0),
        (asm(Kind::Jalr, 0, 0, 3, 0), SR, 0x200, 0x108),
    ];
    for (word, sr, target, link) in cases {
        let (mut bench, step) = on_two(word, sr, 0x200, 0);
        let core = &bench.cores[0];
        assert_eq!(step.raised, None);
        assert_eq!((core.pc, core.delay, core.target), (0x104, true, target), "{word:08x}");
        assert_eq!(core.regs[9], link);
        bench.run(0, asm(Kind::Addi, 9, 9, 0, 1));
        let core = &bench.cores[0];
        assert_eq!((core.pc, core.delay, core.target), (target, false, 0));
        assert_eq!(core.regs[9], link + 1);
    }
}

#[test]
fn jumps_to_odd_addresses() {
    for kind in [Kind::Jr, Kind::Jalr] {
        for low in 1..4 {
            let (bench, step) = on_two(asm(kind, 0, 0, 3, 0), SR, 0x200 | low, 0);
            let core = &bench.cores[0];
            assert_eq!(step.raised, Some(Cause::Alignment));
            assert_eq!((core.pc, core.epcr, core.eear), (0x600, 0x100, 0x200 | low));
            assert_eq!((core.regs[9], core.delay), (0, false));
        }
    }
}

#[test]
fn control_in_a_slot_is_illegal_before_any_other_check() {
    let words = [
        asm(Kind::J, 0, 0, 0, 8),
        asm(Kind::Jal, 0, 0, 0, 8),
        asm(Kind::Bf, 0, 0, 0, 8),
        asm(Kind::Bnf, 0, 0, 0, 8),
        asm(Kind::Jr, 0, 0, 3, 0),
        asm(Kind::Jalr, 0, 0, 3, 0),
        asm(Kind::Rfe, 0, 0, 0, 0),
        asm(Kind::Sys, 0, 0, 0, 0),
    ];
    for word in words {
        let mut bench = Bench::new(1);
        bench.cores[0].regs[3] = 0x201;
        bench.cores[0].delay = true;
        bench.cores[0].target = 0x300;
        let step = bench.run(0, word);
        let core = &bench.cores[0];
        assert_eq!(step.raised, Some(Cause::Illegal), "{word:08x}");
        assert_eq!((core.pc, core.epcr, core.eear), (0x700, 0xfc, 0x100));
        assert_eq!((core.regs[9], core.delay, core.target), (0, false, 0));
        assert!(core.has(DSX));
    }
}

#[test]
fn exceptions_fill_the_registers() {
    let all = SR | TEE | IEE | F | CY | OV | OVE | DSX;
    let words = [
        (asm(Kind::Sys, 0, 0, 0, 7), Cause::Syscall, 0xc00, 0x104, 0x55),
        (asm(Kind::Trap, 0, 0, 0, 7), Cause::Trap, 0xe00, 0x100, 0x55),
        (0xffff_ffff, Cause::Illegal, 0x700, 0x100, 0x100),
        (asm(Kind::Lwz, 5, 3, 0, 1), Cause::Alignment, 0x600, 0x100, 0x2001),
        (asm(Kind::Sw, 0, 3, 5, 0), Cause::Bus, 0x200, 0x100, 0x2000),
    ];
    for (word, cause, vector, epcr, eear) in words {
        let mut bench = Bench::new(1);
        let core = &mut bench.cores[0];
        (core.regs[3], core.sr, core.eear) = (0x2000, all & !SM, 0x55);
        (core.link, core.link_address) = (true, 0x40);
        let step = bench.run(0, word);
        let core = &bench.cores[0];
        assert_eq!((step.raised, step.stored), (Some(cause), None));
        assert_eq!((core.pc, core.epcr, core.eear), (vector, epcr, eear), "{cause:?}");
        assert_eq!((core.esr, core.sr), (all & !SM, SR | F | CY | OV), "{cause:?}");
        assert_eq!((core.link, core.link_address, core.is_running()), (false, 0, true));
    }
}

#[test]
fn trap_in_a_slot() {
    let mut bench = Bench::new(1);
    (bench.cores[0].delay, bench.cores[0].target) = (true, 0x300);
    let step = bench.run(0, asm(Kind::Trap, 0, 0, 0, 0));
    let core = &bench.cores[0];
    assert_eq!(step.raised, Some(Cause::Trap));
    assert_eq!((core.epcr, core.sr), (0xfc, SR | DSX));
}

#[test]
fn fetches_outside_memory() {
    for (pc, delay, epcr) in [
        (BYTES as u32, false, BYTES as u32),
        (BYTES as u32, true, BYTES as u32 - 4),
        (0xffff_fffc, false, 0xffff_fffc),
        (0xffff_fffc, true, 0xffff_fff8),
    ] {
        let mut bench = Bench::new(1);
        (bench.cores[0].pc, bench.cores[0].delay) = (pc, delay);
        let step = bench.step(0);
        let core = &bench.cores[0];
        assert_eq!(step.raised, Some(Cause::Bus));
        assert_eq!((core.pc, core.epcr, core.eear), (0x200, epcr, pc));
        assert_eq!(core.has(DSX), delay);
    }
}

#[test]
fn address_sums_wrap() {
    // A slot at 0 belongs to a jump at fffffffc.
    let mut bench = Bench::new(1);
    (bench.cores[0].pc, bench.cores[0].delay, bench.cores[0].target) = (0, true, 0x80);
    bench.run(0, asm(Kind::Trap, 0, 0, 0, 0));
    assert_eq!(bench.cores[0].epcr, 0xffff_fffc);
    // A jump back past 0 and a load from rA near the top.
    let mut bench = Bench::new(1);
    bench.run(0, asm(Kind::J, 0, 0, 0, 0u32.wrapping_sub(0x200)));
    assert_eq!(bench.cores[0].target, 0xffff_ff00);
    bench.put(0x40, 0x1234_5678);
    bench.cores[0].regs[3] = 0xffff_fff0;
    bench.run(0, asm(Kind::Lwz, 5, 3, 0, 0x50));
    assert_eq!(bench.cores[0].regs[5], 0x1234_5678);
    assert_eq!(bench.cores[0].pc, 0xffff_ff00);
}

#[test]
fn loads() {
    let mut bench = Bench::new(1);
    bench.put(0x40, 0x8182_8384);
    let cases = [
        (Kind::Lwz, 0, 0x8182_8384),
        (Kind::Lws, 0, 0x8182_8384),
        (Kind::Lbz, 0, 0x81),
        (Kind::Lbs, 3, 0xffff_ff84),
        (Kind::Lhz, 2, 0x8384),
        (Kind::Lhs, 0, 0xffff_8182),
        (Kind::Lwa, 0, 0x8182_8384),
    ];
    for (kind, offset, value) in cases {
        bench.run(0, asm(kind, 5, 0, 0, 0x40 + offset));
        assert_eq!(bench.cores[0].regs[5], value, "{kind:?}");
        assert_eq!(bench.cores[0].link, kind == Kind::Lwa);
    }
    assert_eq!(bench.cores[0].link_address, 0x40);
}

/// Every address around the end of memory, for each width.
#[test]
fn alignment_comes_before_bus() {
    let kinds = [
        (Kind::Lwz, 4),
        (Kind::Lws, 4),
        (Kind::Lwa, 4),
        (Kind::Lhz, 2),
        (Kind::Lhs, 2),
        (Kind::Lbz, 1),
        (Kind::Lbs, 1),
        (Kind::Sw, 4),
        (Kind::Swa, 4),
        (Kind::Sh, 2),
        (Kind::Sb, 1),
        (Kind::Cinvalidate, 1),
        (Kind::Cwriteback, 1),
        (Kind::Cflush, 1),
    ];
    let ends = (4_080..4_104).chain([0x7fff_fffe, 0xffff_fffc, 0xffff_fffd, 0xffff_ffff]);
    for address in ends {
        for (kind, width) in kinds {
            let expected = match address {
                _ if address % width != 0 => Some(Cause::Alignment),
                _ if u64::from(address) + u64::from(width) > 4_096 => Some(Cause::Bus),
                _ => None,
            };
            let has_b = matches!(kind, Kind::Sw | Kind::Swa | Kind::Sh | Kind::Sb);
            let word = asm(kind, 0, 3, if has_b { 4 } else { 0 }, 0);
            let (bench, step) = on_two(word, SR, address, 0x1234_5678);
            assert_eq!(step.raised, expected, "{kind:?} {address:x}");
            let eear = if expected.is_some() { address } else { 0 };
            assert_eq!(bench.cores[0].eear, eear);
        }
    }
}

#[test]
fn stores_write_their_bytes_only() {
    for (kind, address, word) in [
        (Kind::Sw, 0x40, 0x1234_5678),
        (Kind::Sh, 0x40, 0x5678_ffff),
        (Kind::Sh, 0x42, 0xffff_5678),
        (Kind::Sb, 0x40, 0x78ff_ffff),
        (Kind::Sb, 0x43, 0xffff_ff78),
    ] {
        let mut bench = Bench::new(1);
        bench.put(0x3c, 0xffff_ffff);
        bench.put(0x40, 0xffff_ffff);
        bench.put(0x44, 0xffff_ffff);
        (bench.cores[0].regs[3], bench.cores[0].regs[4]) = (address, 0x1234_5678);
        let step = bench.run(0, asm(kind, 0, 3, 4, 0));
        assert_eq!(step.stored, Some(0x40));
        let around = (bench.word(0x3c), bench.word(0x40), bench.word(0x44));
        assert_eq!(around, (0xffff_ffff, word, 0xffff_ffff), "{kind:?}");
    }
}

#[test]
fn cache_instructions_change_nothing() {
    for kind in [Kind::Cinvalidate, Kind::Cwriteback, Kind::Cflush] {
        let (mut bench, step) = on_two(asm(kind, 0, 3, 0, 1), SR, 0x40, 0);
        assert_eq!((step.raised, step.stored), (None, None));
        bench.cores[0].pc = 0x100;
        let mut untouched = on_two(asm(kind, 0, 3, 0, 1), SR, 0x40, 0).0;
        untouched.cores[0].pc = 0x100;
        assert_eq!(bench, untouched);
    }
}

/// Two cores of which core 0 holds a link to address 40.
fn linked() -> Bench {
    let mut bench = Bench::new(2);
    bench.cores[1].pc = 0x180;
    bench.put(0x40, 5);
    bench.run(0, asm(Kind::Lwa, 5, 0, 0, 0x40));
    (bench.cores[0].regs[4], bench.cores[1].regs[4]) = (0xaaaa, 0xbbbb);
    bench
}

#[test]
fn a_linked_store_succeeds_once() {
    let mut bench = linked();
    let swa = asm(Kind::Swa, 0, 0, 4, 0x40);
    let step = bench.run(0, swa);
    assert_eq!((step.stored, bench.word(0x40)), (Some(0x40), 0xaaaa));
    assert!(bench.cores[0].has(F) && !bench.cores[0].link);
    assert_eq!(bench.cores[0].link_address, 0);
    bench.put(0x40, 1);
    let step = bench.run(0, swa);
    assert_eq!((step.stored, bench.word(0x40)), (None, 1));
    assert!(!bench.cores[0].has(F));
}

#[test]
fn a_link_to_another_word_is_cleared_too() {
    let mut bench = linked();
    let step = bench.run(0, asm(Kind::Swa, 0, 0, 4, 0x44));
    assert_eq!((step.stored, bench.word(0x44)), (None, 0));
    assert_eq!((bench.cores[0].link, bench.cores[0].link_address), (false, 0));
    assert!(!bench.cores[0].has(F));
}

#[test]
fn any_store_clears_links_to_its_word() {
    for who in 0..2 {
        for (kind, offset, clears) in [
            (Kind::Sb, 0x43, true),
            (Kind::Sh, 0x42, true),
            (Kind::Sw, 0x40, true),
            (Kind::Sw, 0x44, false),
            (Kind::Sb, 0x3f, false),
        ] {
            let mut bench = linked();
            bench.cores[0].mode = if who == 0 { Mode::Running } else { Mode::Halted };
            bench.run(who, asm(kind, 0, 0, 4, offset));
            assert_eq!(bench.cores[0].link, !clears, "{kind:?} {offset:x} by {who}");
            assert_eq!(bench.cores[0].link_address, if clears { 0 } else { 0x40 });
        }
    }
}

#[test]
fn linked_stores_and_other_cores() {
    // A store that succeeds clears the other core's link to the word.
    let mut bench = linked();
    bench.run(1, asm(Kind::Lwa, 5, 0, 0, 0x40));
    bench.run(1, asm(Kind::Swa, 0, 0, 4, 0x40));
    assert!(bench.cores[1].has(F) && !bench.cores[0].link);
    // One that fails leaves it.
    let mut bench = linked();
    bench.run(1, asm(Kind::Swa, 0, 0, 4, 0x40));
    assert!(!bench.cores[1].has(F) && bench.cores[0].link);
    // An exception clears its own core's link alone.
    let mut bench = linked();
    bench.run(1, asm(Kind::Trap, 0, 0, 0, 0));
    assert!(bench.cores[0].link);
    bench.run(0, asm(Kind::Lwz, 5, 0, 0, 1));
    assert!(!bench.cores[0].link);
    // l.swa fails its checks before it looks at the link.
    let mut bench = linked();
    bench.cores[0].sr |= F;
    let step = bench.run(0, asm(Kind::Swa, 0, 0, 4, 0x41));
    assert_eq!(step.raised, Some(Cause::Alignment));
    assert!(bench.cores[0].has(F));
}

#[test]
fn special_registers_read() {
    let mut bench = Bench::new(3);
    bench.cores[2].pc = 0x180;
    let core = &mut bench.cores[2];
    (core.sr, core.epcr, core.eear, core.esr) = (SR | CY, 0x44, 0x33, SR | F);
    (core.machi, core.maclo) = (0x66, 0x99);
    (core.picmr, core.picsr) = (0x33, 0x55);
    let of_01 = [(17, SR | CY), (32, 0x44), (48, 0x33), (64, SR | F), (128, 2), (129, 3)];
    let of_02 = [(0x2801, 0x99), (0x2802, 0x66), (0x4800, 0x33), (0x4802, 0x55)];
    let known = [of_01.as_slice(), &of_02].concat();
    for number in 0..=0xffff {
        bench.cores[2].pc = 0x180;
        bench.cores[2].regs[5] = 0x77;
        bench.run(2, asm(Kind::Mfspr, 5, 0, 0, number));
        let value = known.iter().find(|(known, _)| *known == number).map_or(0, |(_, value)| *value);
        assert_eq!(bench.cores[2].regs[5], value, "{number}");
    }
    // rA or K, bitwise and whole.
    for (base, number, value) in [(0x11, 0x11, SR | CY), (1, 0x10, SR | CY), (0x10011, 0, 0)] {
        bench.cores[2].regs[3] = base;
        bench.run(2, asm(Kind::Mfspr, 5, 3, 0, number));
        assert_eq!(bench.cores[2].regs[5], value);
    }
}

#[test]
fn special_registers_written() {
    let kept = SR | TEE | IEE | F | CY | OV | OVE | DSX;
    let write = |number: u32, value: u32| {
        let mut bench = Bench::new(1);
        (bench.cores[0].regs[4], bench.cores[0].picsr) = (value, 0x55);
        let step = bench.run(0, asm(Kind::Mtspr, 0, 0, 4, number));
        assert_eq!((step.raised, bench.cores[0].pc), (None, 0x104));
        bench.cores[0]
    };
    assert_eq!(write(17, u32::MAX).sr, kept);
    assert_eq!(write(17, 0).sr, 0x8000);
    assert_eq!(write(64, u32::MAX).esr, kept);
    assert_eq!(write(64, 0).esr, 0x8000);
    assert_eq!(write(32, u32::MAX).epcr, 0xffff_fffc);
    assert_eq!(write(48, u32::MAX).eear, u32::MAX);
    assert_eq!(write(0x2801, u32::MAX).accumulator(), 0xffff_ffff);
    assert_eq!(write(0x2802, u32::MAX).accumulator(), 0xffff_ffff_0000_0000);
    assert_eq!(write(0x4800, u32::MAX).picmr, u32::MAX);
    assert_eq!(write(0x4800, 0x10).picmr, 0x13);
    assert_eq!(write(0x4802, 0x0f).picsr, 0x05);
    let nothing = write(0, u32::MAX);
    let of_01 = [1, 16, 18, 33, 49, 65, 128, 129, 0xffff];
    for number in [of_01.as_slice(), &[0x2800, 0x2803, 0x4801, 0x4803]].concat() {
        assert_eq!(write(number, u32::MAX), nothing, "{number}");
    }
}

#[test]
fn return_from_exception() {
    let mut bench = linked();
    let core = &mut bench.cores[0];
    (core.epcr, core.esr) = (0x340, 0x8000 | F);
    bench.run(0, asm(Kind::Rfe, 0, 0, 0, 0));
    let core = &bench.cores[0];
    assert_eq!((core.pc, core.delay, core.sr), (0x340, false, 0x8000 | F));
    assert_eq!((core.link, core.link_address), (true, 0x40));
    assert_eq!((core.epcr, core.esr), (0x340, 0x8000 | F));
}

#[test]
fn halting() {
    let mut bench = linked();
    bench.run(0, 0x15ff_0001);
    assert_eq!((bench.cores[0].pc, bench.cores[0].is_running()), (0x108, false));
    assert!(bench.cores[0].link);
    // In a slot it goes to the target first.
    let mut bench = Bench::new(1);
    bench.run(0, asm(Kind::J, 0, 0, 0, 0x40));
    bench.run(0, asm(Kind::Nop, 0, 0, 0, 1));
    let core = &bench.cores[0];
    assert_eq!((core.pc, core.delay, core.target, core.is_running()), (0x140, false, 0, false));
}

#[test]
fn quiet_instructions_only_advance() {
    let words = [0x1500_0000, 0x1500_0002, 0x1500_8001, 0x2200_0000, 0x2280_0000, 0x2300_0000];
    for word in words {
        let mut bench = Bench::new(1);
        let step = bench.run(0, word);
        let mut expected = Bench::new(1);
        expected.put(0x100, word);
        expected.cores[0].pc = 0x104;
        assert_eq!((step.raised, step.stored), (None, None));
        assert_eq!(bench, expected, "{word:08x}");
    }
}

/// "executes a filled entry as it stands and not its word"
#[test]
fn the_fast_step_executes_the_entry() {
    let mut bench = Bench::new(1);
    bench.put(0x100, 0x1500_0001);
    let mut table = vec![0; BYTES / 4];
    table[0x40] = isa::decode(0x9c60_0005);
    let (step, reused) = bench.fast_step(0, &mut table);
    assert_eq!((step.raised, reused), (None, true));
    assert_eq!((bench.cores[0].regs[3], bench.cores[0].is_running()), (5, true));
    assert_eq!(table[0x40], isa::decode(0x9c60_0005));
}
