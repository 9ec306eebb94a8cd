//! Words, entries and kinds ("Words and kinds").

/// Kinds are counted in the paper's order, from 1.
#[repr(u8)]
#[derive(Clone, Copy, Debug, PartialEq, Eq, PartialOrd, Ord, Hash)]
#[rustfmt::skip]
pub enum Kind {
    Illegal = 1,
    J, Jal, Bnf, Bf, Nop, Movhi,
    Sys, Trap, Msync, Psync, Csync,
    Rfe, Jr, Jalr,
    Lwa, Lwz, Lws, Lbz, Lbs, Lhz, Lhs,
    Addi, Addic, Andi, Ori, Xori, Mfspr,
    Slli, Srli, Srai, Rori,
    Sfeqi, Sfnei, Sfgtui, Sfgeui, Sfltui, Sfleui, Sfgtsi, Sfgesi, Sfltsi, Sflesi,
    Mtspr, Swa, Sw, Sb, Sh,
    Add, Addc, Sub, And, Or, Xor,
    Sll, Srl, Sra, Ror,
    Exths, Extbs, Exthz, Extbz, Extws, Extwz,
    Cmov, Ff1, Fl1,
    Sfeq, Sfne, Sfgtu, Sfgeu, Sfltu, Sfleu, Sfgts, Sfges, Sflts, Sfles,
    Cinvalidate, Cwriteback, Cflush,
    // 02, note 2.
    Mul, Muli, Mulu, Div, Divu, Maci, Mac, Msb, Macrc,
}

/// How many kinds there are; the last is l.macrc.
pub const KINDS: usize = 88;

/// The encoder's answer that stands for refusal 8.
pub const NO_WORD: u64 = 1 << 32;

/// "The encoder writes ... kind 1 as fc000000."
pub const ILLEGAL_WORD: u32 = 0xfc00_0000;

/// A register's number. 02, note 3: a byte "below 32" from where it is cut out
/// of a word or entry to where it is put into one.
#[derive(Clone, Copy, Debug, PartialEq, Eq)]
pub struct Reg(u8);

/// Where a word keeps its immediate and how execution uses it.
#[derive(Clone, Copy, Debug)]
pub struct Imm {
    /// Over bits 25-21 and 10-0, not in the lowest bits.
    split: bool,
    /// Ones for the bits there are.
    mask: u32,
    /// The sign's bit, or 0 for a number that is zero-extended.
    sign: u32,
    /// Zeros put after it.
    scale: u32,
}

/// The fields a kind uses: a mask of five ones for a register, or 0. "Unused
/// fields are 0."
#[derive(Clone, Copy, Debug)]
pub struct Layout {
    d: Reg,
    a: Reg,
    b: Reg,
    imm: Imm,
}

/// A word is of this kind if its bits under the mask are the value.
#[derive(Clone, Copy, Debug)]
pub struct Row {
    pub mask: u32,
    pub value: u32,
    pub kind: Kind,
    pub layout: Layout,
}

/// A decoded word: what an entry holds, unpacked.
#[derive(Clone, Copy, Debug, PartialEq, Eq)]
pub struct Insn {
    pub kind: Kind,
    pub d: Reg,
    pub a: Reg,
    pub b: Reg,
    pub imm: u32,
}

const fn imm(split: bool, bits: u32, signed: bool, scale: u32) -> Imm {
    let sign = if signed { 1 << (bits - 1) } else { 0 };
    Imm { split, mask: (1 << bits) - 1, sign, scale }
}

const NO_IMM: Imm = imm(false, 0, false, 0);
/// "4 times their signed 26 bits"
const TIMES_4: Imm = imm(false, 26, true, 2);
const ZERO: Imm = imm(false, 16, false, 0);
const SIGN: Imm = imm(false, 16, true, 0);
/// "shifts the low five bits"
const FIVE: Imm = imm(false, 5, false, 0);
const SPLIT_ZERO: Imm = imm(true, 16, false, 0);
const SPLIT_SIGN: Imm = imm(true, 16, true, 0);

const fn mask(used: bool) -> Reg {
    if used {
        Reg::R31
    } else {
        Reg::R0
    }
}

const fn uses(d: bool, a: bool, b: bool, imm: Imm) -> Layout {
    Layout { d: mask(d), a: mask(a), b: mask(b), imm }
}

const NONE: Layout = uses(false, false, false, NO_IMM);
const JUMP: Layout = uses(false, false, false, TIMES_4);
const K: Layout = uses(false, false, false, ZERO);
const D: Layout = uses(true, false, false, NO_IMM);
const D_K: Layout = uses(true, false, false, ZERO);
const B: Layout = uses(false, false, true, NO_IMM);
const D_A: Layout = uses(true, true, false, NO_IMM);
const D_A_I: Layout = uses(true, true, false, SIGN);
const D_A_K: Layout = uses(true, true, false, ZERO);
const D_A_L: Layout = uses(true, true, false, FIVE);
const A_I: Layout = uses(false, true, false, SIGN);
const A_SPLIT: Layout = uses(false, true, false, SPLIT_SIGN);
const A_B: Layout = uses(false, true, true, NO_IMM);
const A_B_I: Layout = uses(false, true, true, SPLIT_SIGN);
const A_B_K: Layout = uses(false, true, true, SPLIT_ZERO);
const D_A_B: Layout = uses(true, true, true, NO_IMM);

const fn row(mask: u32, value: u32, kind: Kind, layout: Layout) -> Row {
    Row { mask, value, kind, layout }
}

/// One row a kind, in the order of the kinds. The first row gives the word the
/// encoder writes; words that no other row fits are of its kind too.
#[rustfmt::skip]
pub static TABLE: [Row; KINDS] = [
    row(0xffff_ffff, ILLEGAL_WORD, Kind::Illegal, NONE),
    row(0xfc00_0000, 0x0000_0000, Kind::J,      JUMP),
    row(0xfc00_0000, 0x0400_0000, Kind::Jal,    JUMP),
    row(0xfc00_0000, 0x0c00_0000, Kind::Bnf,    JUMP),
    row(0xfc00_0000, 0x1000_0000, Kind::Bf,     JUMP),
    row(0xff00_0000, 0x1500_0000, Kind::Nop,    K),
    row(0xfc01_0000, 0x1800_0000, Kind::Movhi,  D_K),
    row(0xffff_0000, 0x2000_0000, Kind::Sys,    K),
    row(0xffff_0000, 0x2100_0000, Kind::Trap,   K),
    row(0xffff_0000, 0x2200_0000, Kind::Msync,  NONE),
    row(0xffff_0000, 0x2280_0000, Kind::Psync,  NONE),
    row(0xffff_0000, 0x2300_0000, Kind::Csync,  NONE),
    row(0xfc00_0000, 0x2400_0000, Kind::Rfe,    NONE),
    row(0xfc00_0000, 0x4400_0000, Kind::Jr,     B),
    row(0xfc00_0000, 0x4800_0000, Kind::Jalr,   B),
    row(0xfc00_0000, 0x6c00_0000, Kind::Lwa,    D_A_I),
    row(0xfc00_0000, 0x8400_0000, Kind::Lwz,    D_A_I),
    row(0xfc00_0000, 0x8800_0000, Kind::Lws,    D_A_I),
    row(0xfc00_0000, 0x8c00_0000, Kind::Lbz,    D_A_I),
    row(0xfc00_0000, 0x9000_0000, Kind::Lbs,    D_A_I),
    row(0xfc00_0000, 0x9400_0000, Kind::Lhz,    D_A_I),
    row(0xfc00_0000, 0x9800_0000, Kind::Lhs,    D_A_I),
    row(0xfc00_0000, 0x9c00_0000, Kind::Addi,   D_A_I),
    row(0xfc00_0000, 0xa000_0000, Kind::Addic,  D_A_I),
    row(0xfc00_0000, 0xa400_0000, Kind::Andi,   D_A_K),
    row(0xfc00_0000, 0xa800_0000, Kind::Ori,    D_A_K),
    row(0xfc00_0000, 0xac00_0000, Kind::Xori,   D_A_I),
    row(0xfc00_0000, 0xb400_0000, Kind::Mfspr,  D_A_K),
    row(0xfc00_00c0, 0xb800_0000, Kind::Slli,   D_A_L),
    row(0xfc00_00c0, 0xb800_0040, Kind::Srli,   D_A_L),
    row(0xfc00_00c0, 0xb800_0080, Kind::Srai,   D_A_L),
    row(0xfc00_00c0, 0xb800_00c0, Kind::Rori,   D_A_L),
    row(0xffe0_0000, 0xbc00_0000, Kind::Sfeqi,  A_I),
    row(0xffe0_0000, 0xbc20_0000, Kind::Sfnei,  A_I),
    row(0xffe0_0000, 0xbc40_0000, Kind::Sfgtui, A_I),
    row(0xffe0_0000, 0xbc60_0000, Kind::Sfgeui, A_I),
    row(0xffe0_0000, 0xbc80_0000, Kind::Sfltui, A_I),
    row(0xffe0_0000, 0xbca0_0000, Kind::Sfleui, A_I),
    row(0xffe0_0000, 0xbd40_0000, Kind::Sfgtsi, A_I),
    row(0xffe0_0000, 0xbd60_0000, Kind::Sfgesi, A_I),
    row(0xffe0_0000, 0xbd80_0000, Kind::Sfltsi, A_I),
    row(0xffe0_0000, 0xbda0_0000, Kind::Sflesi, A_I),
    row(0xfc00_0000, 0xc000_0000, Kind::Mtspr,  A_B_K),
    row(0xfc00_0000, 0xcc00_0000, Kind::Swa,    A_B_I),
    row(0xfc00_0000, 0xd400_0000, Kind::Sw,     A_B_I),
    row(0xfc00_0000, 0xd800_0000, Kind::Sb,     A_B_I),
    row(0xfc00_0000, 0xdc00_0000, Kind::Sh,     A_B_I),
    row(0xfc00_030f, 0xe000_0000, Kind::Add,    D_A_B),
    row(0xfc00_030f, 0xe000_0001, Kind::Addc,   D_A_B),
    row(0xfc00_030f, 0xe000_0002, Kind::Sub,    D_A_B),
    row(0xfc00_030f, 0xe000_0003, Kind::And,    D_A_B),
    row(0xfc00_030f, 0xe000_0004, Kind::Or,     D_A_B),
    row(0xfc00_030f, 0xe000_0005, Kind::Xor,    D_A_B),
    row(0xfc00_03cf, 0xe000_0008, Kind::Sll,    D_A_B),
    row(0xfc00_03cf, 0xe000_0048, Kind::Srl,    D_A_B),
    row(0xfc00_03cf, 0xe000_0088, Kind::Sra,    D_A_B),
    row(0xfc00_03cf, 0xe000_00c8, Kind::Ror,    D_A_B),
    row(0xfc00_03cf, 0xe000_000c, Kind::Exths,  D_A),
    row(0xfc00_03cf, 0xe000_004c, Kind::Extbs,  D_A),
    row(0xfc00_03cf, 0xe000_008c, Kind::Exthz,  D_A),
    row(0xfc00_03cf, 0xe000_00cc, Kind::Extbz,  D_A),
    row(0xfc00_03cf, 0xe000_000d, Kind::Extws,  D_A),
    row(0xfc00_03cf, 0xe000_004d, Kind::Extwz,  D_A),
    row(0xfc00_030f, 0xe000_000e, Kind::Cmov,   D_A_B),
    row(0xfc00_030f, 0xe000_000f, Kind::Ff1,    D_A),
    row(0xfc00_030f, 0xe000_010f, Kind::Fl1,    D_A),
    row(0xffe0_0000, 0xe400_0000, Kind::Sfeq,   A_B),
    row(0xffe0_0000, 0xe420_0000, Kind::Sfne,   A_B),
    row(0xffe0_0000, 0xe440_0000, Kind::Sfgtu,  A_B),
    row(0xffe0_0000, 0xe460_0000, Kind::Sfgeu,  A_B),
    row(0xffe0_0000, 0xe480_0000, Kind::Sfltu,  A_B),
    row(0xffe0_0000, 0xe4a0_0000, Kind::Sfleu,  A_B),
    row(0xffe0_0000, 0xe540_0000, Kind::Sfgts,  A_B),
    row(0xffe0_0000, 0xe560_0000, Kind::Sfges,  A_B),
    row(0xffe0_0000, 0xe580_0000, Kind::Sflts,  A_B),
    row(0xffe0_0000, 0xe5a0_0000, Kind::Sfles,  A_B),
    row(0xfc00_1800, 0xf800_0800, Kind::Cinvalidate, A_SPLIT),
    row(0xfc00_1800, 0xf800_1000, Kind::Cwriteback,  A_SPLIT),
    row(0xfc00_1800, 0xf800_1800, Kind::Cflush,      A_SPLIT),
    row(0xfc00_030f, 0xe000_0306, Kind::Mul,    D_A_B),
    row(0xfc00_0000, 0xb000_0000, Kind::Muli,   D_A_I),
    row(0xfc00_030f, 0xe000_030b, Kind::Mulu,   D_A_B),
    row(0xfc00_030f, 0xe000_0309, Kind::Div,    D_A_B),
    row(0xfc00_030f, 0xe000_030a, Kind::Divu,   D_A_B),
    row(0xfc00_0000, 0x4c00_0000, Kind::Maci,   A_I),
    row(0xfc00_000f, 0xc400_0001, Kind::Mac,    A_B),
    row(0xfc00_000f, 0xc400_0002, Kind::Msb,    A_B),
    row(0xfc01_0000, 0x1801_0000, Kind::Macrc,  D),
];

/// The bits that tell the rows of an opcode apart, closed up: those under
/// `high` after a shift, and those under `low`.
#[derive(Clone, Copy)]
struct Key {
    shift: u32,
    high: u32,
    low: u32,
}

/// One more than the greatest key.
const KEYS: usize = 256;

static KEY_OF: [Key; 64] = keys();

/// The row to try for an opcode and a key; 0, the row of the illegal word,
/// where there is none. Made from the table, so that no rule is written
/// twice: it only spares a search.
static TRY: [[u8; KEYS]; 64] = rows_to_try();

const fn keys() -> [Key; 64] {
    let mut keys = [Key { shift: 0, high: 0, low: 0 }; 64];
    keys[0x06] = Key { shift: 16, high: 0x01, low: 0 };
    keys[0x08] = Key { shift: 23, high: 0x07, low: 0 };
    keys[0x2e] = Key { shift: 6, high: 0x03, low: 0 };
    keys[0x2f] = Key { shift: 21, high: 0x1f, low: 0 };
    keys[0x31] = Key { shift: 0, high: 0, low: 0x0f };
    keys[0x38] = Key { shift: 2, high: 0xf0, low: 0x0f };
    keys[0x39] = Key { shift: 21, high: 0x1f, low: 0 };
    keys[0x3e] = Key { shift: 11, high: 0x03, low: 0 };
    keys
}

const fn key(key: Key, bits: u32) -> usize {
    (((bits >> key.shift) & key.high) | (bits & key.low)) as usize
}

const fn rows_to_try() -> [[u8; KEYS]; 64] {
    let keys = keys();
    let mut rows = [[0; KEYS]; 64];
    let mut place = KEYS;
    while place < KINDS * KEYS {
        let (index, trial) = (place / KEYS, place % KEYS);
        let row = &TABLE[index];
        let opcode = (row.value >> 26) as usize;
        if trial & key(keys[opcode], row.mask) == key(keys[opcode], row.value) {
            rows[opcode][trial] = index as u8;
        }
        place += 1;
    }
    rows
}

const ILLEGAL: Insn = Insn { kind: Kind::Illegal, d: Reg::R0, a: Reg::R0, b: Reg::R0, imm: 0 };

impl Reg {
    pub const R0: Reg = Reg(0);
    /// The link register.
    pub const R9: Reg = Reg(9);
    /// Five ones.
    pub const R31: Reg = Reg(31);

    /// The register with this number, if there is one.
    pub const fn new(number: u8) -> Option<Reg> {
        if number < 32 {
            Some(Reg(number))
        } else {
            None
        }
    }

    /// The bits of a wider number from a place on, as far as the mask has ones:
    /// below 32, as the mask is.
    fn cut(wider: impl Into<u64>, place: u32, mask: Reg) -> Reg {
        Reg((wider.into() >> place) as u8 & mask.0)
    }

    fn under(self, mask: Reg) -> Reg {
        Reg(self.0 & mask.0)
    }

    pub fn number(self) -> u8 {
        self.0
    }

    /// Its place among 32. The mask changes nothing: it spares the test whether
    /// it is below 32, which the compiler does not see.
    #[inline]
    pub fn index(self) -> usize {
        usize::from(self.0 & Reg::R31.0)
    }
}

impl Imm {
    /// A number as an immediate of this form can be: cut to its bits, then
    /// extended and scaled.
    pub fn fit(self, number: u32) -> u32 {
        let bits = (number >> self.scale) & self.mask;
        (bits ^ self.sign).wrapping_sub(self.sign) << self.scale
    }

    fn read(self, word: u32) -> u32 {
        let joined = ((word >> 10) & 0xf800) | (word & 0x07ff);
        let bits = if self.split { joined } else { word };
        self.fit(bits << self.scale)
    }

    fn write(self, imm: u32) -> u32 {
        let bits = (imm >> self.scale) & self.mask;
        if self.split {
            ((bits & 0xf800) << 10) | (bits & 0x07ff)
        } else {
            bits
        }
    }
}

impl Layout {
    /// The bits of a word that hold an instruction's fields.
    fn write(&self, insn: Insn) -> u32 {
        u32::from(insn.d.under(self.d).0) << 21
            | u32::from(insn.a.under(self.a).0) << 16
            | u32::from(insn.b.under(self.b).0) << 11
            | self.imm.write(insn.imm)
    }

    /// The nearest fields that this layout can hold.
    pub fn fit(&self, insn: Insn) -> Insn {
        Insn {
            kind: insn.kind,
            d: insn.d.under(self.d),
            a: insn.a.under(self.a),
            b: insn.b.under(self.b),
            imm: self.imm.fit(insn.imm),
        }
    }
}

/// Reads a word's fields as one row lays them out.
fn read_fields(row: &Row, word: u32) -> Insn {
    Insn {
        kind: row.kind,
        d: Reg::cut(word, 21, row.layout.d),
        a: Reg::cut(word, 16, row.layout.a),
        b: Reg::cut(word, 11, row.layout.b),
        imm: row.layout.imm.read(word),
    }
}

/// The word's form, unpacked. "The top six bits choose the row".
pub fn decode_insn(word: u32) -> Insn {
    let opcode = (word >> 26) as usize;
    let row = &TABLE[usize::from(TRY[opcode][key(KEY_OF[opcode], word)])];
    let insn = read_fields(row, word);
    // "l.jalr naming r9, is kind 1"
    let links_itself = insn.kind == Kind::Jalr && insn.b == Reg::R9;
    if word & row.mask != row.value || links_itself {
        ILLEGAL
    } else {
        insn
    }
}

/// Returns the word's entry.
pub fn decode(word: u32) -> u64 {
    decode_insn(word).entry()
}

/// Returns the word with zero reserved bits that decodes to the entry, or
/// 2^32 (refusal 8) when no word does.
pub fn encode(entry: u64) -> u64 {
    let insn = Insn::from_entry(entry);
    let row = &TABLE[insn.kind as usize - 1];
    let word = row.value | row.layout.write(insn);
    // A form is some word's if and only if it is this word's: the word holds
    // every field the kind uses, and any other field would have to be 0.
    if decode(word) == entry {
        u64::from(word)
    } else {
        NO_WORD
    }
}

/// The bits of a kind's words that neither choose the row nor hold a field;
/// "reserved bits are ignored".
pub fn reserved_bits(kind: Kind) -> u32 {
    let row = &TABLE[kind as usize - 1];
    let all = Insn::new(kind, 31, 31, 31, u32::MAX);
    !(row.mask | row.layout.write(all))
}

impl Kind {
    /// The kind with this number, if there is one.
    pub fn from_number(number: u8) -> Option<Kind> {
        let index = usize::from(number).checked_sub(1)?;
        TABLE.get(index).map(|row| row.kind)
    }
}

impl Insn {
    /// A form from numbers written down; each register's is below 32.
    pub fn new(kind: Kind, d: u8, a: u8, b: u8, imm: u32) -> Insn {
        let register = |number| Reg::new(number).expect("a register's number is below 32");
        Insn { kind, d: register(d), a: register(a), b: register(b), imm }
    }

    /// "bits 63-56 kind, 46-42 D, 41-37 A, 36-32 B, 31-0 immediate"
    pub fn entry(self) -> u64 {
        (self.kind as u64) << 56
            | u64::from(self.d.0) << 42
            | u64::from(self.a.0) << 37
            | u64::from(self.b.0) << 32
            | u64::from(self.imm)
    }

    /// The form an entry holds. An entry of no kind at all is taken as
    /// illegal; no word decodes to such an entry.
    pub fn from_entry(entry: u64) -> Insn {
        Insn {
            kind: Kind::from_number((entry >> 56) as u8).unwrap_or(Kind::Illegal),
            d: Reg::cut(entry, 42, Reg::R31),
            a: Reg::cut(entry, 37, Reg::R31),
            b: Reg::cut(entry, 32, Reg::R31),
            imm: entry as u32,
        }
    }
}
