//! What documents 000 and 001 print, with its section: layouts, and results of
//! operations; and what an assembler makes of every kind. Asked of every
//! engine. Where document 01 decides otherwise, its answer stands. For l.addi
//! and l.addic it is 001 that counts (02, note 1), and for products, quotients
//! and interrupts 001 as notes 2 and 4 word it.

mod common;

use common::{asm, engines, show};
use compare::card::reset_sheets;
use compare::cases::Case;
use compare::check;
use compare::image;
use compare::isa::{Insn, Kind, Reg, KINDS};
use compare::rng::Rng;
use compare::state::place::{DELAY, EEAR, EPCR, ESR, LINK, LINK_ADDRESS, MODE, PC, SR, TARGET};
use compare::state::place::{MACHI, MACLO, PICMR, PICSR};
use compare::state::{CY, DSX, F, IEE, OV, OVE, SM, SR_RESET, TEE};
use compare::vectors::OLD;
use std::collections::BTreeSet;
use std::path::Path;
use std::process::Command;
use Kind::*;

/// How the published operation extends the letters i, n or k.
#[derive(Clone, Copy, PartialEq)]
enum Widen {
    Zero,
    Sign,
    Jump,
}
use Widen::{Jump, Sign, Zero};

/// A layout as a document prints it; a dash is a reserved bit.
struct Layout {
    source: &'static str,
    kind: u8,
    bits: &'static str,
    widen: Widen,
}

const fn layout(source: &'static str, kind: u8, bits: &'static str, widen: Widen) -> Layout {
    Layout { source, kind, bits, widen }
}

#[rustfmt::skip]
const LAYOUTS: &[Layout] = &[
    layout("000 3.1.1 l.add", 48, "111000 ddddd aaaaa bbbbb - 00 ---- 0000", Zero),
    layout("000 3.1.1 l.addc", 49, "111000 ddddd aaaaa bbbbb - 00 ---- 0001", Zero),
    layout("000 3.1.1 l.sub", 50, "111000 ddddd aaaaa bbbbb - 00 ---- 0010", Zero),
    layout("000 3.1.1 l.and", 51, "111000 ddddd aaaaa bbbbb - 00 ---- 0011", Zero),
    layout("000 3.1.1 l.or", 52, "111000 ddddd aaaaa bbbbb - 00 ---- 0100", Zero),
    layout("000 3.1.1 l.xor", 53, "111000 ddddd aaaaa bbbbb - 00 ---- 0101", Zero),
    layout("000 3.1.1 l.sll", 54, "111000 ddddd aaaaa bbbbb - 00 00-- 1000", Zero),
    layout("000 3.1.1 l.srl", 55, "111000 ddddd aaaaa bbbbb - 00 01-- 1000", Zero),
    layout("000 3.1.1 l.sra", 56, "111000 ddddd aaaaa bbbbb - 00 10-- 1000", Zero),
    layout("000 3.1.1 l.cmov", 64, "111000 ddddd aaaaa bbbbb - 00 ---- 1110", Zero),
    layout("001 5.3 l.ff1", 65, "111000 ddddd aaaaa ----- - 00 ---- 1111", Zero),
    layout("001 5.3 l.fl1", 66, "111000 ddddd aaaaa ----- - 01 ---- 1111", Zero),
    layout("000 3.1.1 l.sfeq", 67, "111001 00000 aaaaa bbbbb - -- ---- ----", Zero),
    layout("000 3.1.1 l.sfne", 68, "111001 00001 aaaaa bbbbb - -- ---- ----", Zero),
    layout("000 3.1.1 l.sfgtu", 69, "111001 00010 aaaaa bbbbb - -- ---- ----", Zero),
    layout("000 3.1.1 l.sfgeu", 70, "111001 00011 aaaaa bbbbb - -- ---- ----", Zero),
    layout("000 3.1.1 l.sfltu", 71, "111001 00100 aaaaa bbbbb - -- ---- ----", Zero),
    layout("000 3.1.1 l.sfleu", 72, "111001 00101 aaaaa bbbbb - -- ---- ----", Zero),
    layout("000 3.1.1 l.sfgts", 73, "111001 01010 aaaaa bbbbb - -- ---- ----", Zero),
    layout("000 3.1.1 l.sfges", 74, "111001 01011 aaaaa bbbbb - -- ---- ----", Zero),
    layout("000 3.1.1 l.sflts", 75, "111001 01100 aaaaa bbbbb - -- ---- ----", Zero),
    layout("000 3.1.1 l.sfles", 76, "111001 01101 aaaaa bbbbb - -- ---- ----", Zero),
    layout("001 5.3 l.addi", 23, "100111 ddddd aaaaa iiiii i ii iiii iiii", Sign),
    layout("001 5.3 l.addic", 24, "101000 ddddd aaaaa iiiii i ii iiii iiii", Sign),
    layout("000 3.1.1 l.andi", 25, "101001 ddddd aaaaa iiiii i ii iiii iiii", Zero),
    layout("000 3.1.1 l.ori", 26, "101010 ddddd aaaaa iiiii i ii iiii iiii", Zero),
    layout("000 3.1.1 l.xori", 27, "101011 ddddd aaaaa iiiii i ii iiii iiii", Sign),
    layout("000 3.1.1 l.sfeqi", 33, "101111 00000 aaaaa iiiii i ii iiii iiii", Sign),
    layout("000 3.1.1 l.sfnei", 34, "101111 00001 aaaaa iiiii i ii iiii iiii", Sign),
    layout("000 3.1.1 l.sfgtui", 35, "101111 00010 aaaaa iiiii i ii iiii iiii", Sign),
    layout("000 3.1.1 l.sfgeui", 36, "101111 00011 aaaaa iiiii i ii iiii iiii", Sign),
    layout("000 3.1.1 l.sfltui", 37, "101111 00100 aaaaa iiiii i ii iiii iiii", Sign),
    layout("000 3.1.1 l.sfleui", 38, "101111 00101 aaaaa iiiii i ii iiii iiii", Sign),
    layout("000 3.1.1 l.sfgtsi", 39, "101111 01010 aaaaa iiiii i ii iiii iiii", Sign),
    layout("000 3.1.1 l.sfgesi", 40, "101111 01011 aaaaa iiiii i ii iiii iiii", Sign),
    layout("000 3.1.1 l.sfltsi", 41, "101111 01100 aaaaa iiiii i ii iiii iiii", Sign),
    layout("000 3.1.1 l.sflesi", 42, "101111 01101 aaaaa iiiii i ii iiii iiii", Sign),
    layout("000 3.1.1 l.movhi", 7, "000110 ddddd ----0 iiiii i ii iiii iiii", Zero),
    layout("000 3.1.2 l.lwz", 17, "100001 ddddd aaaaa iiiii i ii iiii iiii", Sign),
    layout("000 3.1.2 l.lws", 18, "100010 ddddd aaaaa iiiii i ii iiii iiii", Sign),
    layout("000 3.1.2 l.lbz", 19, "100011 ddddd aaaaa iiiii i ii iiii iiii", Sign),
    layout("000 3.1.2 l.lbs", 20, "100100 ddddd aaaaa iiiii i ii iiii iiii", Sign),
    layout("000 3.1.2 l.lhz", 21, "100101 ddddd aaaaa iiiii i ii iiii iiii", Sign),
    layout("000 3.1.2 l.lhs", 22, "100110 ddddd aaaaa iiiii i ii iiii iiii", Sign),
    layout("000 3.1.2 l.sw", 45, "110101 iiiii aaaaa bbbbb i ii iiii iiii", Sign),
    layout("000 3.1.2 l.sb", 46, "110110 iiiii aaaaa bbbbb i ii iiii iiii", Sign),
    layout("000 3.1.2 l.sh", 47, "110111 iiiii aaaaa bbbbb i ii iiii iiii", Sign),
    layout("000 3.1.3 l.j", 2, "000000 nnnnn nnnnn nnnnn n nn nnnn nnnn", Jump),
    layout("000 3.1.3 l.jal", 3, "000001 nnnnn nnnnn nnnnn n nn nnnn nnnn", Jump),
    layout("000 3.1.3 l.bnf", 4, "000011 nnnnn nnnnn nnnnn n nn nnnn nnnn", Jump),
    layout("000 3.1.3 l.bf", 5, "000100 nnnnn nnnnn nnnnn n nn nnnn nnnn", Jump),
    layout("000 3.1.3 l.nop", 6, "000101 01--- ----- kkkkk k kk kkkk kkkk", Zero),
    layout("000 3.1.3 l.jr", 14, "010001 ----- ----- bbbbb - -- ---- ----", Zero),
    layout("000 3.1.3 l.jalr", 15, "010010 ----- ----- bbbbb - -- ---- ----", Zero),
    layout("000 3.1.3 l.sys", 8, "001000 00000 00000 kkkkk k kk kkkk kkkk", Zero),
    layout("000 3.1.3 l.rfe", 13, "001001 ----- ----- ----- - -- ---- ----", Zero),
    layout("000 3.1.4 l.mfspr", 28, "101101 ddddd aaaaa kkkkk k kk kkkk kkkk", Zero),
    layout("000 3.1.4 l.mtspr", 43, "110000 kkkkk aaaaa bbbbb k kk kkkk kkkk", Zero),
    layout("000 3.1.4 l.lwa", 16, "011011 ddddd aaaaa iiiii i ii iiii iiii", Sign),
    layout("000 3.1.4 l.swa", 44, "110011 iiiii aaaaa bbbbb i ii iiii iiii", Sign),
    layout("000 3.1.5 p.cinvalidate", 77, "111110 iiiii aaaaa ---01 i ii iiii iiii", Sign),
    layout("000 3.1.5 p.cwriteback", 78, "111110 iiiii aaaaa ---10 i ii iiii iiii", Sign),
    layout("000 3.1.5 p.cflush", 79, "111110 iiiii aaaaa ---11 i ii iiii iiii", Sign),
    layout("001 5.3 l.mul", 80, "111000 ddddd aaaaa bbbbb - 11 ---- 0110", Zero),
    layout("001 5.3 l.muli", 81, "101100 ddddd aaaaa iiiii i ii iiii iiii", Sign),
    layout("001 5.3 l.mulu", 82, "111000 ddddd aaaaa bbbbb - 11 ---- 1011", Zero),
    layout("001 5.3 l.div", 83, "111000 ddddd aaaaa bbbbb - 11 ---- 1001", Zero),
    layout("001 5.3 l.divu", 84, "111000 ddddd aaaaa bbbbb - 11 ---- 1010", Zero),
    layout("001 5.3 l.maci", 85, "010011 ----- aaaaa iiiii i ii iiii iiii", Sign),
    // No document prints these three; note 2 of 02 gives what they are told by.
    layout("02 l.mac", 86, "110001 ----- aaaaa bbbbb - -- ---- 0001", Zero),
    layout("02 l.msb", 87, "110001 ----- aaaaa bbbbb - -- ---- 0010", Zero),
    layout("02 l.macrc", 88, "000110 ddddd ----1 ----- - -- ---- ----", Zero),
];

/// Layouts that documents 01 and 02 leave out, or that no document has (01 or
/// 02 alone).
#[rustfmt::skip]
const LEFT_OUT: &[(&str, &str)] = &[
    ("02 mul",           "111000 ddddd aaaaa bbbbb - 0- ---- 0110"),
    ("02 mul",           "111000 ddddd aaaaa bbbbb - 10 ---- 0110"),
    ("02 div",           "111000 ddddd aaaaa bbbbb - 0- ---- 1001"),
    ("02 div",           "111000 ddddd aaaaa bbbbb - 10 ---- 1001"),
    ("02 divu",          "111000 ddddd aaaaa bbbbb - 0- ---- 1010"),
    ("02 divu",          "111000 ddddd aaaaa bbbbb - 10 ---- 1010"),
    ("02 mulu",          "111000 ddddd aaaaa bbbbb - 0- ---- 1011"),
    ("02 mulu",          "111000 ddddd aaaaa bbbbb - 10 ---- 1011"),
    ("02 opcode 38",     "111000 ddddd aaaaa bbbbb - -- ---- 0111"),
    ("02 opcode 31",     "110001 ----- aaaaa bbbbb - -- ---- 0000"),
    ("02 opcode 31",     "110001 ----- aaaaa bbbbb - -- ---- 0011"),
    ("02 opcode 31",     "110001 ----- aaaaa bbbbb - -- ---- -1--"),
    ("02 opcode 31",     "110001 ----- aaaaa bbbbb - -- ---- 1---"),
    ("001 5.3 l.jalr",   "010010 ----- ----- 01001 - -- ---- ----"),
    ("001 5.4 lf.madd.s", "110010 ddddd aaaaa bbbbb --- 00000111"),
    ("001 5.4 lf.madd.d", "110010 ddddd aaaaa bbbbb --- 00010111"),
    ("01 nop",           "000101 00--- ----- kkkkk k kk kkkk kkkk"),
    ("01 nop",           "000101 1---- ----- kkkkk k kk kkkk kkkk"),
    ("01 p.*",           "111110 iiiii aaaaa ---00 i ii iiii iiii"),
    ("01 fl1",           "111000 ddddd aaaaa ----- - 10 ---- 1111"),
    ("01 extwz",         "111000 ddddd aaaaa ----- - 00 1--- 1101"),
    ("01 exths",         "111000 ddddd aaaaa ----- - 01 ---- 1100"),
    ("01 add",           "111000 ddddd aaaaa bbbbb - 01 ---- 0000"),
    ("01 sys",           "001000 00000 00001 kkkkk k kk kkkk kkkk"),
    ("01 msync",         "001000 10000 00001 kkkkk k kk kkkk kkkk"),
    ("01 opcode 3f",     "111111 ----- ----- ----- - -- ---- ----"),
    ("01 opcode 3d",     "111101 ----- ----- ----- - -- ---- ----"),
    ("01 opcode 02",     "000010 ----- ----- ----- - -- ---- ----"),
];

/// A random word of a layout, with the bits under each letter.
fn word_of(rng: &mut Rng, layout: &str) -> (u32, impl Fn(char) -> u32) {
    let bits: Vec<char> = layout.chars().filter(|bit| *bit != ' ').collect();
    assert_eq!(bits.len(), 32, "{layout}");
    let mut word = 0;
    for bit in &bits {
        let value = match bit {
            '0' => 0,
            '1' => 1,
            _ => rng.next_u32() & 1,
        };
        word = word << 1 | value;
    }
    let gather = move |letter: char| {
        let mut value = 0;
        for (place, bit) in bits.iter().enumerate() {
            if *bit == letter {
                value = value << 1 | word >> (31 - place) & 1;
            }
        }
        value
    };
    (word, gather)
}

/// The entry that a layout's letters make.
fn entry_of(layout: &Layout, gather: impl Fn(char) -> u32) -> u64 {
    let raw = gather('i') | gather('n') | gather('k');
    let imm = match layout.widen {
        Zero => raw,
        Sign => (raw ^ 0x8000).wrapping_sub(0x8000),
        Jump => (raw ^ 0x200_0000).wrapping_sub(0x200_0000).wrapping_mul(4),
    };
    u64::from(layout.kind) << 56
        | u64::from(gather('d')) << 42
        | u64::from(gather('a')) << 37
        | u64::from(gather('b')) << 32
        | u64::from(imm)
}

#[test]
fn layouts() {
    let mut rng = Rng::new(1);
    for layout in LAYOUTS {
        for _ in 0..400 {
            let (word, gather) = word_of(&mut rng, layout.bits);
            // l.jalr naming r9 stands below.
            if layout.kind == Jalr as u8 && gather('b') == 9 {
                continue;
            }
            let entry = entry_of(layout, gather);
            for engine in engines() {
                let (name, source) = (engine.name(), layout.source);
                assert_eq!(engine.decode(word), entry, "{name}, {source}, word {word:08x}");
            }
        }
    }
}

#[test]
fn layouts_left_out() {
    let mut rng = Rng::new(2);
    for (source, layout) in LEFT_OUT {
        for _ in 0..400 {
            let (word, _) = word_of(&mut rng, layout);
            for engine in engines() {
                assert_eq!(engine.decode(word), 1 << 56, "{}, {source}: {word:08x}", engine.name());
            }
        }
    }
}

/// One line of the listing: what an assembler made of a line of assembly.
struct Assembled<'a> {
    word: u32,
    form: Insn,
    text: &'a str,
}

fn read_line(line: &str) -> Option<Assembled<'_>> {
    let mut parts = line.splitn(7, ' ');
    let word = u32::from_str_radix(parts.next()?, 16).ok()?;
    let mut small = || parts.next()?.parse::<u8>().ok();
    let kind = Kind::from_number(small()?)?;
    let mut register = || Reg::new(small()?);
    let (d, a, b) = (register()?, register()?, register()?);
    let imm = u32::from_str_radix(parts.next()?, 16).ok()?;
    Some(Assembled { word, form: Insn { kind, d, a, b, imm }, text: parts.next()? })
}

fn listing() -> String {
    std::fs::read_to_string(image::folder().join("kinds.lst")).expect("the stored listing")
}

fn read_listing(text: &str) -> Vec<Assembled<'_>> {
    let lines = text.lines().filter(|line| !line.starts_with('#'));
    lines.map(|line| read_line(line).unwrap_or_else(|| panic!("damaged: {line}"))).collect()
}

#[test]
fn assembled_kinds() {
    let text = listing();
    let mut kinds = BTreeSet::new();
    for line in read_listing(&text) {
        kinds.insert(line.form.kind);
        for engine in engines() {
            let (name, entry) = (engine.name(), line.form.entry());
            assert_eq!(engine.decode(line.word), entry, "{name}: {}", line.text);
            assert_eq!(engine.encode(entry), u64::from(line.word), "{name}: {}", line.text);
        }
    }
    assert_eq!(kinds.len(), KINDS - 1, "every kind but illegal has a line");
}

const ASSEMBLER: &str = "or1k-elf-as";

fn run_tool(name: &str, arguments: &[&Path]) {
    let status = Command::new(name).args(arguments).status();
    assert!(status.is_ok_and(|status| status.success()), "{name} {arguments:?}");
}

/// The words that the assembler makes of the lines.
fn assemble(lines: &str) -> Vec<u32> {
    let folder = Path::new(env!("CARGO_TARGET_TMPDIR"));
    let file = |name: &str| folder.join(name);
    let (source, object, binary) = (file("kinds.s"), file("kinds.o"), file("kinds.bin"));
    std::fs::write(&source, lines).expect("a source file");
    run_tool(ASSEMBLER, &[&source, Path::new("-o"), &object]);
    run_tool("or1k-elf-objcopy", &[Path::new("-O"), Path::new("binary"), &object, &binary]);
    let bytes = std::fs::read(&binary).expect("the words");
    bytes.chunks(4).map(|b| u32::from_be_bytes([b[0], b[1], b[2], b[3]])).collect()
}

#[test]
fn assembled_afresh() {
    if Command::new(ASSEMBLER).arg("--version").output().is_err() {
        return show(&format!("assembled afresh: skipped, {ASSEMBLER} is not installed"));
    }
    let text = listing();
    let stored = read_listing(&text);
    let lines: String = stored.iter().map(|line| format!("{}\n", line.text)).collect();
    let words: Vec<u32> = stored.iter().map(|line| line.word).collect();
    assert_eq!(assemble(&lines), words);
    show(&format!("assembled afresh: {} lines give the stored words", words.len()));
}

/// Where the code of a result starts, and a word of data.
const START: u32 = 0x100;
const AT: u32 = 0x400;
const DATA: u32 = 0x80ff_7f01;

/// Code run from reset with some places of the sheet changed before, and what
/// some of its places and the word of data are afterwards.
#[derive(Clone)]
struct Outcome {
    source: &'static str,
    code: Vec<u32>,
    before: Vec<(usize, u32)>,
    after: Vec<(usize, u32)>,
    data: u32,
    /// The lines at each word of code; past these they are low.
    lines: Vec<u32>,
}

fn result(
    source: &'static str,
    code: &[u32],
    before: &[(usize, u32)],
    after: &[(usize, u32)],
) -> Outcome {
    let (code, before, after) = (code.to_vec(), before.to_vec(), after.to_vec());
    Outcome { source, code, before, after, data: DATA, lines: vec![] }
}

const NOP: u32 = 0x1500_0000;

/// rD = r5, rA = r3, rB = r4.
fn on_registers(kind: Kind) -> u32 {
    asm(kind, 5, 3, 4, 0)
}

/// rD = r5, rA = r3.
fn with(kind: Kind, imm: u32) -> u32 {
    asm(kind, 5, 3, 0, imm)
}

const MINUS_1: u32 = u32::MAX;

/// 3.1.1 and 001 5.3: arithmetic and logic.
fn of_alu() -> Vec<Outcome> {
    let two = |source, kind, x: u32, y: u32, z: u32| {
        result(source, &[on_registers(kind)], &[(3, x), (4, y)], &[(5, z), (PC, START + 4)])
    };
    let one = |source, kind, x: u32, z: u32| {
        result(source, &[asm(kind, 5, 3, 0, 0)], &[(3, x)], &[(5, z), (PC, START + 4)])
    };
    let imm = |source, kind, x: u32, i: u32, z: u32| {
        result(source, &[with(kind, i)], &[(3, x)], &[(5, z), (PC, START + 4)])
    };
    let mut list = vec![
        two("000 3.1.1 l.add: rA + rB", Add, 2, 3, 5),
        two("000 3.1.1 l.sub: rA - rB", Sub, 2, 3, MINUS_1),
        two("000 3.1.1 l.and", And, 12, 10, 8),
        two("000 3.1.1 l.or", Or, 12, 10, 14),
        two("000 3.1.1 l.xor", Xor, 12, 10, 6),
        two("000 3.1.1 l.sll: rB[4:0]", Sll, 0xc000_0003, 33, 0x8000_0006),
        two("000 3.1.1 l.srl: rB[4:0], filled with 0", Srl, 0xc000_0003, 33, 0x6000_0001),
        two("000 3.1.1 l.sra: filled with rA[31]", Sra, 0xc000_0003, 33, 0xe000_0001),
        two("000 3.1.1 l.sra: filled with rA[31]", Sra, 0x4000_0003, 1, 0x2000_0001),
        imm("000 3.1.1 l.andi: extz(I)", Andi, MINUS_1, 0xffff, 0xffff),
        imm("000 3.1.1 l.ori: extz(I)", Ori, 0, 0xffff, 0xffff),
        imm("000 3.1.1 l.xori: NOT by -1", Xori, 0x1234_5678, MINUS_1, 0xedcb_a987),
        result("000 3.1.1 l.movhi", &[asm(Movhi, 5, 0, 0, 0x1234)], &[(5, 9)], &[(5, 0x1234_0000)]),
        one("001 5.3 l.ff1: first 1 in the LSB", Ff1, 1, 1),
        one("001 5.3 l.ff1: first 1 in the MSB", Ff1, 0x8000_0000, 32),
        one("001 5.3 l.ff1: no 1", Ff1, 0, 0),
        one("001 5.3 l.fl1: last 1 in the MSB", Fl1, 0x8000_0001, 32),
        one("001 5.3 l.fl1: last 1 in the LSB", Fl1, 1, 1),
        one("001 5.3 l.fl1: no 1", Fl1, 0, 0),
    ];
    // rA[0] ? 1 : rA[1] ? 2 ..., and rA[31] ? 32 : rA[30] ? 31 ...
    for place in 0..32 {
        list.push(one("001 5.3 l.ff1: operation", Ff1, MINUS_1 << place, place + 1));
        list.push(one("001 5.3 l.fl1: operation", Fl1, MINUS_1 >> place, 32 - place));
    }
    list
}

/// 3.1.1: what flags do and how they are set.
fn of_flags() -> Vec<Outcome> {
    let flags = |source, code: u32, x, y, before: u32, z, after: u32| {
        let before = [(3, x), (4, y), (SR, SR_RESET | before)];
        result(source, &[code], &before, &[(5, z), (SR, SR_RESET | after), (PC, START + 4)])
    };
    let (add, addc, sub, cmov) =
        (on_registers(Add), on_registers(Addc), on_registers(Sub), on_registers(Cmov));
    let compare = |source, kind, flag| flags(source, asm(kind, 0, 3, 4, 0), 1 << 31, 1, 0, 0, flag);
    let to_minus_1 =
        |source, kind, flag| flags(source, asm(kind, 0, 3, 0, MINUS_1), 1 << 31, 0, 0, 0, flag);
    vec![
        flags("000 3.1.1 l.add: Carry", add, MINUS_1, 1, 0, 0, CY),
        flags("000 3.1.1 l.add: Overflow", add, 0x7fff_ffff, 1, CY, 1 << 31, OV),
        flags("000 3.1.1 l.addc: + SR[CY]", addc, 1, 2, CY, 4, 0),
        flags("000 3.1.1 l.addc: + SR[CY]", addc, MINUS_1, 0, CY, 0, CY),
        flags("000 3.1.1 l.sub: Overflow", sub, 1 << 31, 1, CY, 0x7fff_ffff, OV),
        flags("000 3.1.1 l.cmov: SR[F] set", cmov, 7, 8, F, 7, F),
        flags("000 3.1.1 l.cmov: SR[F] not set", cmov, 7, 8, 0, 8, 0),
        compare("000 3.1.1 l.sfeq", Sfeq, 0),
        compare("000 3.1.1 l.sfne", Sfne, F),
        compare("000 3.1.1 l.sfgtu: unsigned", Sfgtu, F),
        compare("000 3.1.1 l.sfgeu: unsigned", Sfgeu, F),
        compare("000 3.1.1 l.sfltu: unsigned", Sfltu, 0),
        compare("000 3.1.1 l.sfleu: unsigned", Sfleu, 0),
        compare("000 3.1.1 l.sfgts: signed", Sfgts, 0),
        compare("000 3.1.1 l.sfges: signed", Sfges, 0),
        compare("000 3.1.1 l.sflts: signed", Sflts, F),
        compare("000 3.1.1 l.sfles: signed", Sfles, F),
        // 01: "sign-extended, ... unsigned compares included".
        to_minus_1("000 3.1.1 l.sfgtui: unsigned", Sfgtui, 0),
        to_minus_1("000 3.1.1 l.sfltui: unsigned", Sfltui, F),
        to_minus_1("000 3.1.1 l.sfgtsi: signed", Sfgtsi, 0),
        to_minus_1("000 3.1.1 l.sfltsi: signed", Sfltsi, F),
    ]
}

const MOST: u32 = 0x7fff_ffff;
const LEAST: u32 = 0x8000_0000;

/// 001 5.3: l.addi and l.addic, their sums and flags.
fn of_immediate_sums() -> Vec<Outcome> {
    let sum = |source, kind, x, imm: u32, before: u32, z, after: u32| {
        let before = [(3, x), (SR, SR_RESET | before)];
        let after = [(5, z), (SR, SR_RESET | after), (PC, START + 4), (ESR, SR_RESET)];
        result(source, &[with(kind, imm)], &before, &after)
    };
    vec![
        sum("001 5.3 l.addi: rA + exts(Immediate)", Addi, 5, MINUS_1, 0, 4, CY),
        sum("001 5.3 l.addi: no SR[CY] added", Addi, 5, 1, CY, 6, 0),
        sum("001 5.3 l.addi: SR[CY] <- carry", Addi, MINUS_1, 1, 0, 0, CY),
        sum("001 5.3 l.addi: SR[OV] <- overflow", Addi, MOST, 1, CY, LEAST, OV),
        sum("001 5.3 l.addi: SR[OV] <- overflow", Addi, LEAST, MINUS_1, 0, MOST, CY | OV),
        sum("001 5.3 l.addi: SR[OVE], no overflow", Addi, MOST - 1, 1, OVE | OV, MOST, OVE),
        sum("001 5.3 l.addic: + SR[CY]", Addic, 0, MINUS_1, CY, 0, CY),
        sum("001 5.3 l.addic: + SR[CY]", Addic, 5, 1, CY, 7, 0),
        sum("001 5.3 l.addic: SR[CY] <- carry", Addic, MINUS_1, 1, 0, 0, CY),
        sum("001 5.3 l.addic: SR[OV] <- overflow", Addic, MOST, 0, CY, LEAST, OV),
        sum("001 5.3 l.addic: SR[OV] <- overflow", Addic, LEAST, MINUS_1, 0, MOST, CY | OV),
        sum("001 5.3 l.addic: SR[OVE], no overflow", Addic, MOST, 0, OVE | OV, MOST, OVE),
    ]
}

/// 001 5.3: "Range Exception on overflow if SR[OVE] is set."; 000 3.3: its vector.
fn of_range() -> Vec<Outcome> {
    let range = |source, code, before: u32, sum| {
        let before = [(3, MOST), (4, 1), (SR, SR_RESET | OVE | before)];
        let (esr, sr) = ((ESR, SR_RESET | OVE | OV), (SR, SR_RESET | OV));
        result(source, &[code], &before, &[(PC, 0xb00), (EPCR, START), (5, sum), esr, sr])
    };
    vec![
        range("000 table 3.8: Range 0xB", on_registers(Add), 0, LEAST),
        range("001 5.3 l.add: Range Exception", on_registers(Add), 0, LEAST),
        range("001 5.3 l.addc: Range Exception", on_registers(Addc), CY, LEAST + 1),
        range("001 5.3 l.addi: Range Exception", with(Addi, 1), CY, LEAST),
        range("001 5.3 l.addic: Range Exception", with(Addic, 1), 0, LEAST),
        range("001 5.3 l.addic: Range Exception, by SR[CY]", with(Addic, 0), CY, LEAST),
    ]
}

/// 001 5.3: l.mul, l.muli and l.mulu, their products, flags and exception.
fn of_products() -> Vec<Outcome> {
    let flags = |source, code: u32, x, y, before: u32, z, after: u32| {
        let before = [(3, x), (4, y), (SR, SR_RESET | before)];
        let after = [(5, z), (SR, SR_RESET | after), (PC, START + 4), (ESR, SR_RESET)];
        result(source, &[code], &before, &after)
    };
    let range = |source, code: u32, x, y, z, flags: u32| {
        let before = [(3, x), (4, y), (SR, SR_RESET | OVE)];
        let (esr, sr) = ((ESR, SR_RESET | OVE | flags), (SR, SR_RESET | flags));
        result(source, &[code], &before, &[(PC, 0xb00), (EPCR, START), (5, z), esr, sr])
    };
    let (mul, mulu) = (on_registers(Mul), on_registers(Mulu));
    let muli = |imm: u32| with(Muli, imm);
    vec![
        flags("001 5.3 l.mul: rA * rB", mul, 6, 7, CY | OV, 42, 0),
        flags("001 5.3 l.mul: signed integers", mul, MINUS_1, 7, 0, 7u32.wrapping_neg(), CY),
        flags("001 5.3 l.mul: truncated", mul, 0x1_0001, 0x1_0001, 0, 0x2_0001, CY | OV),
        flags("001 5.3 l.mul: SR[OV] <- overflow", mul, LEAST, 3, 0, LEAST, CY | OV),
        range("001 5.3 l.mul: Range Exception", mul, MOST, 2, 0xffff_fffe, OV),
        flags("001 5.3 l.muli: rA * exts(Immediate)", muli(7), 6, 0, CY | OV, 42, 0),
        flags("001 5.3 l.muli: sign extended", muli(MINUS_1), 7, 0, 0, 7u32.wrapping_neg(), CY),
        flags("001 5.3 l.muli: SR[OV] <- overflow", muli(2), LEAST, 0, 0, 0, CY | OV),
        range("001 5.3 l.muli: Range Exception", muli(2), MOST, 0, 0xffff_fffe, OV),
        flags("001 5.3 l.mulu: rA * rB", mulu, 6, 7, CY | OV, 42, 0),
        flags("001 5.3 l.mulu: SR[CY] <- carry", mulu, MINUS_1, 7, 0, 7u32.wrapping_neg(), CY),
        flags("001 5.3 l.mulu: SR[OV] <- 0", mulu, MOST, 2, OV, 0xffff_fffe, 0),
        flags("001 5.3 l.mulu: Exceptions: None", mulu, LEAST, 2, OVE, 0, OVE | CY),
    ]
}

/// 001 5.3: l.div and l.divu, their flags and exception.
fn of_quotients() -> Vec<Outcome> {
    let divide = |source, kind, x, y, before: u32, z, after: u32| {
        let before = [(3, x), (4, y), (5, 9), (SR, SR_RESET | before)];
        let after = [(5, z), (SR, SR_RESET | after), (PC, START + 4)];
        result(source, &[on_registers(kind)], &before, &after)
    };
    let by_zero = |source, kind| {
        let before = [(3, 7), (5, 9), (SR, SR_RESET | OVE | OV)];
        let (esr, sr) = ((ESR, SR_RESET | OVE | CY), (SR, SR_RESET | CY));
        let after = [(5, 9), (PC, 0xb00), (EPCR, START), esr, sr];
        result(source, &[on_registers(kind)], &before, &after)
    };
    let minus = |number: u32| number.wrapping_neg();
    vec![
        divide("001 5.3 l.div: rA / rB", Div, 42, 7, CY | OV, 6, 0),
        divide("001 5.3 l.div: signed integers", Div, minus(42), 7, 0, minus(6), 0),
        divide("02 l.div: truncates toward zero", Div, minus(43), 7, 0, minus(6), 0),
        divide("02 l.div: 80000000 by ffffffff", Div, LEAST, MINUS_1, OVE, LEAST, OVE),
        divide("001 5.3 l.div: SR[CY] <- rB == 0", Div, 7, 0, OV, 9, CY),
        by_zero("001 5.3 l.div: Range exception when divisor is zero", Div),
        divide("001 5.3 l.divu: rA / rB", Divu, 42, 7, CY | OV, 6, 0),
        divide("001 5.3 l.divu: unsigned integers", Divu, MINUS_1, LEAST, OVE, 1, OVE),
        divide("001 5.3 l.divu: SR[CY] <- rB == 0", Divu, 7, 0, OV, 9, CY),
        by_zero("001 5.3 l.divu: Range exception when divisor is zero", Divu),
    ]
}

/// 001 5.3: l.maci; 02, note 2: the other accumulating kinds and l.macrc.
fn of_accumulators() -> Vec<Outcome> {
    let all = SR_RESET | CY | OV | OVE;
    let step = |source, code: u32, (x, y), (high, low), (after_high, after_low)| {
        let before = [(3, x), (4, y), (MACHI, high), (MACLO, low), (SR, all)];
        let after = [(MACHI, after_high), (MACLO, after_low), (SR, all), (PC, START + 4)];
        result(source, &[code], &before, &after)
    };
    let maci = |imm: u32| asm(Maci, 0, 3, 0, imm);
    let (mac, msb) = (asm(Mac, 0, 3, 4, 0), asm(Msb, 0, 3, 4, 0));
    vec![
        step("001 5.3 l.maci: temp1 + exts(temp2)", maci(7), (6, 0), (1, 8), (1, 50)),
        step(
            "001 5.3 l.maci: exts(Immediate)",
            maci(MINUS_1),
            (6, 0),
            (1, 0),
            (0, 6u32.wrapping_neg()),
        ),
        step("001 5.3 l.maci: truncated", maci(2), (LEAST, 0), (1, 8), (1, 8)),
        step("001 5.3 l.maci: sign extended", maci(2), (1 << 30, 0), (0, 0), (MINUS_1, LEAST)),
        step("02 l.mac: add", mac, (6, 7), (1, MINUS_1), (2, 41)),
        step("02 l.msb: subtract", msb, (6, 7), (1, 0), (0, 42u32.wrapping_neg())),
        result(
            "02 l.macrc: moves MACLO, clears both",
            &[asm(Macrc, 5, 0, 0, 0)],
            &[(MACHI, 3), (MACLO, 4), (SR, all)],
            &[(5, 4), (MACHI, 0), (MACLO, 0), (SR, all), (PC, START + 4)],
        ),
        result("02: MACHI at 2802", &[with(Mfspr, 0x2802)], &[(MACHI, 7)], &[(5, 7)]),
        result("02: MACLO at 2801", &[with(Mfspr, 0x2801)], &[(MACLO, 7)], &[(5, 7)]),
        result("02: MACHI at 2802", &[asm(Mtspr, 0, 0, 4, 0x2802)], &[(4, 7)], &[(MACHI, 7)]),
        result("02: MACLO at 2801", &[asm(Mtspr, 0, 0, 4, 0x2801)], &[(4, 7)], &[(MACLO, 7)]),
    ]
}

/// 3.1.2: loads and stores.
fn of_memory() -> Vec<Outcome> {
    let load = |source, kind, offset: u32, value| {
        result(source, &[with(kind, offset)], &[(3, AT)], &[(5, value)])
    };
    let store = |source, kind, offset: u32, data| {
        let code = asm(kind, 0, 3, 4, offset);
        Outcome { data, ..result(source, &[code], &[(3, AT), (4, 0x1122_3344)], &[]) }
    };
    vec![
        load("000 3.1.2 l.lwz", Lwz, 0, DATA),
        load("000 3.1.2 l.lws: as l.lwz", Lws, 0, DATA),
        load("000 3.1.2 l.lbz: extz", Lbz, 0, 0x80),
        load("000 3.1.2 l.lbs: exts", Lbs, 0, 0xffff_ff80),
        load("000 3.1.2 l.lbs: exts", Lbs, 2, 0x7f),
        load("000 3.1.2 l.lhz: extz", Lhz, 0, 0x80ff),
        load("000 3.1.2 l.lhs: exts", Lhs, 0, 0xffff_80ff),
        load("000 3.1.2 l.lhs: exts", Lhs, 2, 0x7f01),
        store("000 3.1.2 l.sw", Sw, 0, 0x1122_3344),
        store("000 3.1.2 l.sb: rB[7:0]", Sb, 1, 0x8044_7f01),
        store("000 3.1.2 l.sh: rB[15:0]", Sh, 2, 0x80ff_3344),
    ]
}

/// 3.1.3: jumps, with a delay of one instruction.
fn of_control() -> Vec<Outcome> {
    let jump = |source, kind, imm: u32, sr: u32, goal: u32| {
        let code = asm(kind, 0, 0, 0, imm);
        let after = [(PC, goal), (DELAY, 0), (TARGET, 0)];
        result(source, &[code, NOP], &[(SR, SR_RESET | sr)], &after)
    };
    let to_register = |source, kind, goal: u32, after: &[(usize, u32)]| {
        result(source, &[asm(kind, 0, 0, 4, 0), NOP], &[(4, goal)], after)
    };
    vec![
        jump("000 3.1.3 l.j: PC + 4 * exts(N)", J, 0x40, 0, START + 0x40),
        jump("000 3.1.3 l.j: PC + 4 * exts(N)", J, 0u32.wrapping_sub(0x40), 0, START - 0x40),
        result(
            "000 3.1.3 l.j: the delay",
            &[asm(J, 0, 0, 0, 0x40)],
            &[],
            &[(PC, START + 4), (DELAY, 1), (TARGET, START + 0x40)],
        ),
        result(
            "000 3.1.3 l.jal: LR <- PC + 8",
            &[asm(Jal, 0, 0, 0, 0x40), NOP],
            &[],
            &[(9, START + 8), (PC, START + 0x40)],
        ),
        jump("000 3.1.3 l.bnf: SR[F] == 0", Bnf, 0x40, 0, START + 0x40),
        jump("000 3.1.3 l.bnf: SR[F] == 1", Bnf, 0x40, F, START + 8),
        jump("000 3.1.3 l.bf: SR[F] == 1", Bf, 0x40, F, START + 0x40),
        jump("000 3.1.3 l.bf: SR[F] == 0", Bf, 0x40, 0, START + 8),
        result("000 3.1.3 l.nop 1: HALT", &[asm(Nop, 0, 0, 0, 1)], &[], &[(MODE, 0)]),
        to_register("000 3.1.3 l.jr: PC <- rB", Jr, 0x200, &[(PC, 0x200), (9, 0)]),
        to_register("000 3.1.3 l.jalr: R9 <- PC + 8", Jalr, 0x200, &[(PC, 0x200), (9, START + 8)]),
        result(
            "000 3.1.3 l.rfe: PC <- EPCR, SR <- ESR",
            &[asm(Rfe, 0, 0, 0, 0)],
            &[(EPCR, 0x240), (ESR, SR_RESET | F)],
            &[(PC, 0x240), (SR, SR_RESET | F)],
        ),
    ]
}

/// 3.1.4 and 3.2: special registers and the link.
fn of_special() -> Vec<Outcome> {
    let read = |source, number: u32, base: u32, before: &[(usize, u32)], value| {
        let before: Vec<_> = before.iter().copied().chain([(3, base), (5, 9)]).collect();
        result(source, &[with(Mfspr, number)], &before, &[(5, value)])
    };
    let write = |source, number: u32, value: u32, after: (usize, u32)| {
        result(source, &[asm(Mtspr, 0, 0, 4, number)], &[(4, value)], &[after])
    };
    let swa = asm(Swa, 0, 3, 4, 0);
    let before = [(3, AT), (4, 77)];
    let unlinked = [(LINK, 0), (LINK_ADDRESS, 0)];
    vec![
        read("000 table 3.2: reset value, SM and FO 1", 17, 0, &[], 0x8001),
        read("000 table 3.1: SR at 17", 17, 0, &[(SR, SR_RESET | CY)], SR_RESET | CY),
        read("000 table 3.1: EPCR at 32", 32, 0, &[(EPCR, 0x240)], 0x240),
        read("000 table 3.1: EEAR at 48", 48, 0, &[(EEAR, 0x242)], 0x242),
        read("000 table 3.1: ESR at 64", 64, 0, &[(ESR, SR_RESET | OV)], SR_RESET | OV),
        read("000 3.1.4 l.mfspr: rA or K", 16, 17, &[(SR, SR_RESET | CY)], SR_RESET | CY),
        // 000 maps the registers at 1024 and has a version at 0; 01 reads 0.
        read("000 table 3.1: GPR3 at 1027", 1_027, 0, &[], 0),
        read("000 table 3.1: VR at 0", 0, 0, &[], 0),
        write("000 3.1.4 l.mtspr: SR", 17, 0xffff_ffff, (SR, 0xbe07)),
        write("000 3.1.4 l.mtspr: EEAR", 48, 0x1235, (EEAR, 0x1235)),
        result(
            "000 3.1.4 l.lwa: Link (EA) <- 1",
            &[with(Lwa, 0)],
            &before,
            &[(5, DATA), (LINK, 1), (LINK_ADDRESS, AT)],
        ),
        Outcome {
            data: 77,
            ..result(
                "000 3.1.4 l.swa: linked, SR[F] <- 1",
                &[with(Lwa, 0), swa],
                &before,
                &[(SR, SR_RESET | F), unlinked[0], unlinked[1]],
            )
        },
        result("000 3.1.4 l.swa: not linked, SR[F] <- 0", &[swa], &before, &[(SR, SR_RESET)]),
    ]
}

/// 3.3: "the address given by the exception ID multiplied by 0x100".
fn of_exceptions() -> Vec<Outcome> {
    let raise = |source, code: u32, id: u32, before: &[(usize, u32)], after: &[(usize, u32)]| {
        let all = SM | TEE | IEE | F;
        let mut start = vec![(SR, SR_RESET | all)];
        start.extend_from_slice(before);
        let sr = start.iter().rfind(|(place, _)| *place == SR).map_or(0, |(_, sr)| *sr);
        let mut end = vec![(PC, id * 0x100), (ESR, sr)];
        end.extend_from_slice(after);
        result(source, &[code], &start, &end)
    };
    let own = (EPCR, START);
    // "Interrupts are disabled: SR[IEE] = 0"; SM, TEE, OVE and DSX are 01's.
    let quiet = (SR, SR_RESET | F);
    vec![
        raise(
            "000 table 3.8: Bus Error 0x2",
            with(Lwz, 0),
            2,
            &[(3, 0x10_0000)],
            &[own, quiet, (EEAR, 0x10_0000)],
        ),
        raise(
            "000 table 3.8: Alignment 0x6",
            with(Lhz, 1),
            6,
            &[(3, AT)],
            &[own, quiet, (EEAR, AT + 1)],
        ),
        raise(
            "000 table 3.8: Illegal Instruction 0x7",
            0xfc00_0000,
            7,
            &[],
            &[own, quiet, (EEAR, START)],
        ),
        raise(
            "000 table 3.8: System Call 0xC; 3.1.3: EPCR <- NPC",
            asm(Sys, 0, 0, 0, 5),
            12,
            &[],
            &[(EPCR, START + 4), quiet],
        ),
        raise("000 table 3.8: Trap 0xE", asm(Trap, 0, 0, 0, 5), 14, &[], &[own, quiet]),
        raise("001 5.3 l.jr: ALIGN", asm(Jr, 0, 0, 4, 0), 6, &[(4, 0x202)], &[own, (EEAR, 0x202)]),
        raise("001 5.3 l.jalr: ALIGN", asm(Jalr, 0, 0, 4, 0), 6, &[(4, 0x202)], &[own, (9, 0)]),
        raise(
            "001 5.3 l.jalr: ILLEGAL, the link register",
            0x4800_4800,
            7,
            &[(9, 0x200)],
            &[own, (9, 0x200)],
        ),
        result(
            "000 3.3: in a delay slot, the address of the branch",
            &[asm(J, 0, 0, 0, 0x40), 0xfc00_0000],
            &[],
            &[(PC, 0x700), own, (EEAR, START + 4), (SR, SR_RESET | DSX)],
        ),
    ]
}

const ON: u32 = SR_RESET | IEE;

/// Code run from START with these lines, an entry for each of its words.
fn with_lines(
    source: &'static str,
    code: &[u32],
    lines: &[u32],
    before: &[(usize, u32)],
    after: &[(usize, u32)],
) -> Outcome {
    Outcome { lines: lines.to_vec(), ..result(source, code, before, after) }
}

/// 000 table 3.8: the vector of interrupts; 001 13: lines and masks.
fn of_interrupts() -> Vec<Outcome> {
    let one = |source, lines, before: &[_], after: &[_]| {
        with_lines(source, &[NOP], &[lines], before, after)
    };
    let read = |source, spr, lines, before: &[_], value| {
        with_lines(source, &[asm(Mfspr, 5, 0, 0, spr)], &[lines], before, &[(5, value)])
    };
    let write = [asm(Mtspr, 0, 0, 4, 0x4800)];
    let taken = [(PC, 0x800), (EPCR, START), (ESR, ON), (SR, SR_RESET), (EEAR, 7)];
    let last = [(PC, 0x800), (PICSR, 1 << 31)];
    let not_taken = [(PC, START + 4), (PICSR, 0)];
    vec![
        one("000 table 3.8: External Interrupt 0x8", 1, &[(SR, ON), (EEAR, 7)], &taken),
        one("000 table 3.2: IEE", 1, &[], &[(PC, START + 4), (SR, SR_RESET), (PICSR, 1)]),
        one("001 13: up to 32 lines", 1 << 31, &[(PICMR, MINUS_1), (SR, ON)], &last),
        one("001 13: PICMR is a mask", !3, &[(SR, ON)], &not_taken),
        one("001 13: 0 and 1 cannot be masked", 2, &[(SR, ON)], &[(PC, 0x800), (PICSR, 2)]),
        with_lines("001 13: tied to 1", &write, &[0], &[(PICMR, 7)], &[(PICMR, 3)]),
        read("001 13: PICSR tells the lines", 0x4802, 6, &[(PICMR, 7)], 6),
        read("02: PICMR at 4800", 0x4800, 0, &[(PICMR, 0x73)], 0x73),
        read("02: PICMR 3 at reset", 0x4800, 0, &[], 3),
    ]
}

/// 001 13.1: what is latched, and the usual sequence of a handler.
fn of_latches() -> Vec<Outcome> {
    let clear = asm(Mtspr, 0, 0, 4, 0x4802);
    let handler = [clear, asm(Rfe, 0, 0, 0, 0), NOP];
    let back = START + 8;
    let before = [(PICSR, 1), (EPCR, back), (ESR, ON)];
    let again = [(PC, 0x800), (EPCR, back), (PICSR, 1)];
    let served = [(PC, back + 4), (SR, ON), (PICSR, 0)];
    let waiting = [(SR, ON), (PICSR, 4)];
    vec![
        with_lines("001 13.1: latched", &[NOP, NOP], &[2, 0], &[], &[(PICSR, 2)]),
        with_lines("001 13.1: latched, then taken", &[NOP], &[0], &waiting, &[(PC, 0x800)]),
        with_lines("001 13.1: cleared", &[clear], &[0], &[(PICSR, 5), (4, 4)], &[(PICSR, 4)]),
        with_lines("001 13.1: retriggers at once", &handler, &[1, 1, 1], &before, &again),
        with_lines("001 13.1: deasserted in time", &handler, &[1, 0, 0], &before, &served),
    ]
}

/// The case before a result: l.nop everywhere but for its code and data.
fn case_of(result: &Outcome) -> Case {
    let bytes = 4_096;
    let mut case = Case {
        memory: NOP.to_be_bytes().repeat(bytes / 4),
        sheets: reset_sheets(1, START),
        schedule: vec![0; result.code.len()],
        levels: result.lines.clone(),
        limit: 0,
        vectors: OLD.to_vec(),
        table: vec![0; bytes / 4],
    };
    case.levels.resize(result.code.len(), 0);
    case.set_word(AT as usize / 4, DATA);
    for (index, &word) in result.code.iter().enumerate() {
        case.set_word(START as usize / 4 + index, word);
    }
    for &(place, value) in &result.before {
        case.sheets[place] = value;
    }
    case
}

#[test]
fn results() {
    let on_numbers = [of_alu(), of_flags(), of_immediate_sums(), of_range()];
    let of_note_2 = [of_products(), of_quotients(), of_accumulators()];
    let of_note_4 = [of_interrupts(), of_latches()];
    let others = [of_memory(), of_control(), of_special(), of_exceptions()];
    let all = [on_numbers.as_slice(), &of_note_2, &of_note_4, &others].concat().concat();
    for result in &all {
        let case = case_of(result);
        for engine in engines() {
            for left in [check::after_plain(engine, &case), check::after_fast(engine, &case)] {
                let what = format!("{}, {}", engine.name(), result.source);
                assert_eq!(left.answer.refusal, 0, "{what}");
                for &(place, value) in &result.after {
                    let found = left.case.sheets[place];
                    assert_eq!(found, value, "{what}: place {place} is {found:x}, not {value:x}");
                }
                assert_eq!(left.case.word(AT as usize / 4), result.data, "{what}");
            }
        }
    }
    show(&format!("published results: {} asked of {} engines", all.len(), engines().len()));
}
