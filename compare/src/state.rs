//! One core, and the sheet of 46 words it is lent on ("Sheets"; 02, notes 2, 4
//! and 8).

use crate::isa::Reg;

/// Words on one core's sheet.
pub const SHEET_WORDS: usize = 46;

/// Bits of SR and ESR.
pub const SM: u32 = 1 << 0;
pub const TEE: u32 = 1 << 1;
pub const IEE: u32 = 1 << 2;
pub const F: u32 = 1 << 9;
pub const CY: u32 = 1 << 10;
pub const OV: u32 = 1 << 11;
pub const OVE: u32 = 1 << 12;
pub const DSX: u32 = 1 << 13;
/// "bit 15 is 1"
pub const FIXED_ONE: u32 = 1 << 15;
/// The bits that SR and ESR may have besides bit 15.
pub const SR_BITS: u32 = SM | TEE | IEE | F | CY | OV | OVE | DSX;
/// SR and ESR at reset.
pub const SR_RESET: u32 = FIXED_ONE | SM;

/// 02, note 4, of PICMR: "its bits 0 and 1 always 1", and "PICMR 3 at reset".
pub const UNMASKABLE: u32 = 3;

/// What a core does, by its sheet's mode word.
#[derive(Clone, Copy, Debug, PartialEq, Eq, Default)]
pub enum Mode {
    #[default]
    Halted,
    /// 02, note 8: it executes what core 0 fetches.
    Linked,
    Running,
}

impl Mode {
    /// The mode with this number, if there is one.
    pub fn of(number: u32) -> Option<Mode> {
        [Mode::Halted, Mode::Linked, Mode::Running].into_iter().find(|mode| mode.number() == number)
    }

    pub fn number(self) -> u32 {
        match self {
            Mode::Halted => 0,
            Mode::Linked => 1,
            Mode::Running => 3,
        }
    }

    /// "Mode 1 is allowed for cores 1 to 3."
    fn is_for(self, core: usize) -> bool {
        self != Mode::Linked || core != 0
    }
}

/// Places on a sheet after r0-r31.
pub mod place {
    pub const PC: usize = 32;
    pub const DELAY: usize = 33;
    pub const TARGET: usize = 34;
    pub const SR: usize = 35;
    pub const EPCR: usize = 36;
    pub const EEAR: usize = 37;
    pub const ESR: usize = 38;
    pub const LINK: usize = 39;
    pub const LINK_ADDRESS: usize = 40;
    pub const MODE: usize = 41;
    // 02, note 2: "MACHI then MACLO".
    pub const MACHI: usize = 42;
    pub const MACLO: usize = 43;
    // 02, note 4: "Each sheet ends with PICMR then PICSR".
    pub const PICMR: usize = 44;
    pub const PICSR: usize = 45;
}

/// One core while it runs.
#[derive(Clone, Copy, Debug, PartialEq, Eq, Default)]
pub struct Core {
    pub regs: [u32; 32],
    pub pc: u32,
    pub delay: bool,
    pub target: u32,
    pub sr: u32,
    pub epcr: u32,
    pub eear: u32,
    pub esr: u32,
    pub link: bool,
    pub link_address: u32,
    pub mode: Mode,
    pub machi: u32,
    pub maclo: u32,
    pub picmr: u32,
    pub picsr: u32,
}

impl Core {
    /// "Reset: PC the entry, SR and ESR 00008001, mode 3, the rest 0", but for
    /// PICMR.
    pub fn reset(entry: u32) -> Core {
        Core {
            pc: entry,
            sr: SR_RESET,
            esr: SR_RESET,
            mode: Mode::Running,
            picmr: UNMASKABLE,
            ..Core::default()
        }
    }

    /// Reads a sheet that `sheet_is_good` holds of.
    pub fn from_sheet(sheet: &[u32]) -> Core {
        let mut regs = [0; 32];
        regs.copy_from_slice(&sheet[..32]);
        Core {
            regs,
            pc: sheet[place::PC],
            delay: sheet[place::DELAY] == 1,
            target: sheet[place::TARGET],
            sr: sheet[place::SR],
            epcr: sheet[place::EPCR],
            eear: sheet[place::EEAR],
            esr: sheet[place::ESR],
            link: sheet[place::LINK] == 1,
            link_address: sheet[place::LINK_ADDRESS],
            mode: Mode::of(sheet[place::MODE]).unwrap_or_default(),
            machi: sheet[place::MACHI],
            maclo: sheet[place::MACLO],
            picmr: sheet[place::PICMR],
            picsr: sheet[place::PICSR],
        }
    }

    /// Writes the core back on its sheet.
    pub fn to_sheet(&self, sheet: &mut [u32]) {
        sheet[..32].copy_from_slice(&self.regs);
        sheet[place::PC] = self.pc;
        sheet[place::DELAY] = u32::from(self.delay);
        sheet[place::TARGET] = self.target;
        sheet[place::SR] = self.sr;
        sheet[place::EPCR] = self.epcr;
        sheet[place::EEAR] = self.eear;
        sheet[place::ESR] = self.esr;
        sheet[place::LINK] = u32::from(self.link);
        sheet[place::LINK_ADDRESS] = self.link_address;
        sheet[place::MODE] = self.mode.number();
        sheet[place::MACHI] = self.machi;
        sheet[place::MACLO] = self.maclo;
        sheet[place::PICMR] = self.picmr;
        sheet[place::PICSR] = self.picsr;
    }

    #[inline]
    pub fn is_running(&self) -> bool {
        self.mode == Mode::Running
    }

    #[inline]
    pub fn is_linked(&self) -> bool {
        self.mode == Mode::Linked
    }

    /// A register's value.
    #[inline]
    pub fn get(&self, register: Reg) -> u32 {
        self.regs[register.index()]
    }

    /// "Writes to r0 are dropped."
    #[inline]
    pub fn set(&mut self, register: Reg, value: u32) {
        self.regs[register.index()] = value;
        self.regs[0] = 0;
    }

    /// Whether a bit of SR is 1.
    #[inline]
    pub fn has(&self, bit: u32) -> bool {
        self.sr & bit != 0
    }

    /// Sets or clears a bit of SR.
    #[inline]
    pub fn put(&mut self, bit: u32, on: bool) {
        self.sr = if on { self.sr | bit } else { self.sr & !bit };
    }

    /// MACHI and MACLO as one number, MACHI above.
    #[inline]
    pub fn accumulator(&self) -> u64 {
        u64::from(self.machi) << 32 | u64::from(self.maclo)
    }

    #[inline]
    pub fn set_accumulator(&mut self, number: u64) {
        (self.machi, self.maclo) = ((number >> 32) as u32, number as u32);
    }

    /// "A cleared link has link address 0."
    #[inline]
    pub fn clear_link(&mut self) {
        self.link = false;
        self.link_address = 0;
    }
}

/// SR or ESR with the bits it may not have dropped and bit 15 kept 1.
pub fn allowed_sr(value: u32) -> u32 {
    value & SR_BITS | FIXED_ONE
}

/// Whether a sheet's SR or ESR may have a value.
pub fn sr_is_good(value: u32) -> bool {
    value == allowed_sr(value)
}

/// Whether a core's sheet of 46 words keeps every rule of "Sheets", "a PICMR without
/// its low two bits meets 3" and note 8's of its mode; MACHI, MACLO and PICSR may be
/// anything.
pub fn sheet_is_good(core: usize, sheet: &[u32]) -> bool {
    let aligned = [place::PC, place::TARGET, place::EPCR, place::LINK_ADDRESS];
    let status = [place::SR, place::ESR];
    let delay = sheet[place::DELAY];
    let link = sheet[place::LINK];
    sheet[0] == 0
        && aligned.iter().all(|&word| sheet[word].is_multiple_of(4))
        && delay <= 1
        && (delay == 1 || sheet[place::TARGET] == 0)
        && status.iter().all(|&word| sr_is_good(sheet[word]))
        && link <= 1
        && (link == 1 || sheet[place::LINK_ADDRESS] == 0)
        && Mode::of(sheet[place::MODE]).is_some_and(|mode| mode.is_for(core))
        && sheet[place::PICMR] & UNMASKABLE == UNMASKABLE
}
