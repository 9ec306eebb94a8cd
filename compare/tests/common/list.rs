//! Kinds and fields read off document 01's list and note 2 of document 02: for
//! both engines another opinion, which uses nothing of theirs.

/// The lowest bit of D, A and B in a word, and in an entry.
pub const IN_WORD: [u32; 3] = [21, 16, 11];
pub const IN_ENTRY: [u32; 3] = [42, 37, 32];

/// Bits `high` to `low` of a word.
fn bits(word: u32, high: u32, low: u32) -> u32 {
    word >> low & ((1 << (high - low + 1)) - 1)
}

/// The kind of a word.
pub fn kind_of(word: u32) -> u32 {
    let opcode = word >> 26;
    match opcode {
        0x00..=0x01 => 2 + opcode,
        0x03..=0x04 => 1 + opcode,
        0x05 if bits(word, 25, 24) == 1 => 6,
        0x06 if bits(word, 16, 16) == 0 => 7,
        0x06 => 88,
        0x08 => match bits(word, 25, 16) {
            0x000 => 8,
            0x100 => 9,
            0x200 => 10,
            0x280 => 11,
            0x300 => 12,
            _ => 1,
        },
        0x09 => 13,
        0x11 => 14,
        0x12 if bits(word, 15, 11) != 9 => 15,
        0x13 => 85,
        0x1b => 16,
        0x21..=0x2b => 17 + opcode - 0x21,
        0x2c => 81,
        0x2d => 28,
        0x2e => 29 + bits(word, 7, 6),
        0x2f => set_flag(word, 33),
        0x30 => 43,
        0x31 if matches!(bits(word, 3, 0), 1 | 2) => 85 + bits(word, 3, 0),
        0x33 => 44,
        0x35..=0x37 => 45 + opcode - 0x35,
        0x38 => of_opcode_38(word),
        0x39 => set_flag(word, 67),
        0x3e if bits(word, 12, 11) != 0 => 76 + bits(word, 12, 11),
        _ => 1,
    }
}

/// "Set-flag order, by bits 25-21"
fn set_flag(word: u32, first: u32) -> u32 {
    match bits(word, 25, 21) {
        relation @ 0..=5 => first + relation,
        relation @ 0xa..=0xd => first + 6 + relation - 0xa,
        _ => 1,
    }
}

/// "opcode 38 by bits 3-0"
fn of_opcode_38(word: u32) -> u32 {
    let (two, four) = (bits(word, 9, 8), bits(word, 9, 6));
    match bits(word, 3, 0) {
        low @ 0..=5 if two == 0 => 48 + low,
        0x6 if two == 3 => 80,
        0x8 if four <= 3 => 54 + four,
        0x9 if two == 3 => 83,
        0xa if two == 3 => 84,
        0xb if two == 3 => 82,
        0xc if four <= 3 => 58 + four,
        0xd if four <= 1 => 62 + four,
        0xe if two == 0 => 64,
        0xf if two <= 1 => 65 + two,
        _ => 1,
    }
}

/// Whether a kind has D, A and B.
pub fn has_fields(kind: u64) -> [bool; 3] {
    match kind {
        1..=6 | 8..=13 => [false, false, false],
        7 | 88 => [true, false, false],
        14 | 15 => [false, false, true],
        16..=32 | 58..=63 | 65 | 66 | 81 => [true, true, false],
        33..=42 | 77..=79 | 85 => [false, true, false],
        43..=47 | 67..=76 | 86 | 87 => [false, true, true],
        _ => [true, true, true],
    }
}

/// An entry's D, A and B.
pub fn registers(entry: u64) -> [u64; 3] {
    IN_ENTRY.map(|place| entry >> place & 31)
}

/// Bits 63-32 of a word's entry: its kind and, as far as the kind has them, D, A
/// and B.
pub fn kind_and_registers(word: u32) -> u64 {
    let kind = u64::from(kind_of(word));
    let mut entry = kind << 56;
    for field in (0..3).filter(|&field| has_fields(kind)[field]) {
        entry |= u64::from(word >> IN_WORD[field] & 31) << IN_ENTRY[field];
    }
    entry >> 32
}

/// Whether some word of a kind has an immediate.
fn immediate_fits(kind: u64, imm: u32) -> bool {
    let signed = |bits: u32| {
        let bias = 1u32 << (bits - 1);
        imm.wrapping_add(bias) < bias << 1
    };
    match kind {
        2..=5 => signed(28) && imm.is_multiple_of(4),
        6..=9 | 25 | 26 | 28 | 43 => imm < 0x1_0000,
        16..=24 | 27 | 33..=42 | 44..=47 | 77..=79 | 81 | 85 => signed(16),
        29..=32 => imm < 32,
        _ => imm == 0,
    }
}

/// Whether some word decodes to an entry.
pub fn some_word_has(entry: u64) -> bool {
    let kind = entry >> 56;
    if kind == 0 || kind > 88 || entry >> 47 & 0x1ff != 0 {
        return false;
    }
    let registers = registers(entry);
    let unused_are_0 = (0..3).all(|field| has_fields(kind)[field] || registers[field] == 0);
    let links_itself = kind == 15 && registers[2] == 9;
    immediate_fits(kind, entry as u32) && unused_are_0 && !links_itself
}
