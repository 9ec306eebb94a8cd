//! The marked examples M1 to M12, and the refusals' examples of the table.

mod common;

use common::{asm, on_two, Bench};
use compare::cases::Case;
use compare::exec::Cause;
use compare::isa::{self, Kind};
use compare::state::{Core, CY, DSX, F, OV};
use compare::vectors::OLD;

#[test]
fn m1_to_m4_words() {
    assert_eq!(isa::decode(0x9c60_0005), 0x1700_0c00_0000_0005);
    assert_eq!(isa::decode(0xe084_1800), 0x3000_1083_0000_0000);
    assert_eq!(isa::decode(0x03ff_ffff), 2 << 56 | 0xffff_fffc);
    assert_eq!(isa::decode(0x4800_4800), 1 << 56);
}

/// rD, CY and OV after r5 <- r3 op r4.
fn sum(kind: Kind, x: u32, y: u32) -> (u32, bool, bool) {
    let (bench, step) = on_two(asm(kind, 5, 3, 4, 0), 0x8001, x, y);
    assert_eq!(step.raised, None);
    let core = &bench.cores[0];
    (core.regs[5], core.has(CY), core.has(OV))
}

#[test]
fn m5_to_m8_sums() {
    assert_eq!(sum(Kind::Add, 0x7fff_ffff, 1), (0x8000_0000, false, true));
    assert_eq!(sum(Kind::Add, 0xffff_ffff, 1), (0, true, false));
    assert_eq!(sum(Kind::Sub, 0, 1), (0xffff_ffff, true, false));
    assert_eq!(sum(Kind::Sub, 0x8000_0000, 1), (0x7fff_ffff, false, true));
}

#[test]
fn m9_compares() {
    for (kind, flag) in [(Kind::Sfgts, false), (Kind::Sfgtu, true)] {
        let (bench, _) = on_two(asm(kind, 0, 3, 4, 0), 0x8001, 0x8000_0000, 0x7fff_ffff);
        assert_eq!(bench.cores[0].has(F), flag, "{kind:?}");
    }
}

#[test]
fn m10_first_one() {
    let (bench, _) = on_two(asm(Kind::Ff1, 5, 3, 0, 0), 0x8001, 0x8000_0000, 0);
    assert_eq!(bench.cores[0].regs[5], 32);
}

#[test]
fn m11_loads_at_the_end() {
    let load = asm(Kind::Lwz, 5, 3, 0, 0);
    let (_, step) = on_two(load, 0x8001, 4_092, 0);
    assert_eq!(step.raised, None);
    for (address, cause) in [(4_094, Cause::Alignment), (4_096, Cause::Bus)] {
        let (bench, step) = on_two(load, 0x8001, address, 0);
        assert_eq!(step.raised, Some(cause));
        assert_eq!(bench.cores[0].eear, address);
    }
}

#[test]
fn m12_illegal_word_in_an_untaken_branchs_slot() {
    let mut bench = Bench::new(1);
    bench.run(0, asm(Kind::Bf, 0, 0, 0, 0x40));
    assert_eq!((bench.cores[0].pc, bench.cores[0].target), (0x104, 0x108));
    let step = bench.run(0, 0xfc00_0000);
    let core = &bench.cores[0];
    assert_eq!(step.raised, Some(Cause::Illegal));
    assert_eq!((core.epcr, core.eear, core.pc), (0x100, 0x104, 0x700));
    assert!(core.has(DSX));
}

#[test]
fn examples_of_the_refusals() {
    let mut good = vec![0; 46];
    Core::reset(0).to_sheet(&mut good);
    let mut memory = vec![0; 4_096];
    memory[0..4].copy_from_slice(&0x1500_0000u32.to_be_bytes());
    let table = vec![0; 1_024];
    let mut broken = good.clone();
    broken[0] = 1;
    let mut filled = table.clone();
    filled[0] = 1 << 56;
    let case = |memory: &[u8], sheets: &[u32], schedule: &[u8], table: &[u64]| Case {
        memory: memory.to_vec(),
        sheets: sheets.to_vec(),
        schedule: schedule.to_vec(),
        levels: vec![0; schedule.len()],
        limit: 0,
        vectors: OLD.to_vec(),
        table: table.to_vec(),
    };
    let refusal = |memory: &[u8], sheets: &[u32], schedule: &[u8], table: &[u64]| {
        case(memory, sheets, schedule, table).refusal()
    };
    assert_eq!(refusal(&memory, &good, &[0], &table), 0);
    assert_eq!(refusal(&vec![0; 4_098], &good, &[0], &table), 1);
    assert_eq!(refusal(&memory, &[0; 43], &[0], &table), 2);
    assert_eq!(refusal(&memory, &good[..42], &[0], &table), 2);
    assert_eq!(refusal(&memory, &good[..44], &[0], &table), 2);
    assert_eq!(refusal(&memory, &broken, &[0], &table), 3);
    assert_eq!(refusal(&memory, &good, &vec![0; 65_537], &table), 4);
    assert_eq!(refusal(&memory, &good, &[1], &table), 5);
    assert_eq!(refusal(&memory, &good, &[0], &table[..1_023]), 6);
    assert_eq!(refusal(&memory, &good, &[0], &filled), 7);
    let other = case(&memory, &good, &[0], &table);
    assert_eq!(Case { levels: vec![], ..other.clone() }.refusal(), 11);
    assert_eq!(Case { limit: 2, ..other.clone() }.refusal(), 12);
    assert_eq!(Case { vectors: vec![0x200; 7], ..other }.refusal(), 13);
    assert_eq!(isa::encode(0), 1 << 32);
}
