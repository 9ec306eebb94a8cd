//! The list of vectors: the old one, the rules of a list, and the file that holds
//! one (02, note 6).

use crate::card::{Fault, Lines};
use crate::exec::Cause;

/// "seven lines bus, align, illegal, range, syscall, trap, interrupt, ... in that
/// order": the order of `Cause`.
pub const KEYS: [&str; 7] = ["bus", "align", "illegal", "range", "syscall", "trap", "interrupt"];

/// 01's "Vectors: bus 200, alignment 600, ..." and, last, note 4's 800.
pub const OLD: [u32; 7] = [0x200, 0x600, 0x700, 0xb00, 0xc00, 0xe00, 0x800];

/// "Addresses are multiples of 4 below 1,048,576", whatever memory there is.
pub const BOUND: u32 = 1_048_576;

/// The name of the file.
pub const FILE: &str = "vectors";

/// The refusal of a list, and of two equal addresses in the file.
const REFUSAL: u8 = 13;

/// A list that keeps the rules.
#[derive(Clone, Copy, Debug, PartialEq, Eq)]
pub struct Vectors([u32; 7]);

impl Vectors {
    /// "With no such file the old list holds."
    pub const OLD: Vectors = Vectors(OLD);

    /// The list as a run is handed it; nothing, if it breaks a rule.
    pub fn of_list(list: &[u32]) -> Option<Vectors> {
        let list: [u32; 7] = list.try_into().ok()?;
        let good = list.iter().all(|&address| is_good(address)) && first_repeat(&list).is_none();
        good.then_some(Vectors(list))
    }

    /// The list that a file holds. "under the card's form and length rules; faults
    /// are 9 and 10"; 13 "once the whole file passes these".
    pub fn of_file(file: &[u8]) -> Result<Vectors, Fault> {
        let mut lines = Lines::of(file)?;
        let mut list = [0; 7];
        for (address, key) in list.iter_mut().zip(KEYS) {
            *address = lines.hexadecimal(key, is_good)?;
        }
        lines.finish()?;
        match first_repeat(&list) {
            None => Ok(Vectors(list)),
            Some(place) => Err(Fault { refusal: REFUSAL, line: place + 1 }),
        }
    }

    pub fn list(&self) -> &[u32] {
        &self.0
    }

    /// Where an exception of some cause goes.
    #[inline]
    pub fn of(&self, cause: Cause) -> u32 {
        self.0[cause as usize]
    }
}

fn is_good(address: u32) -> bool {
    address.is_multiple_of(4) && address < BOUND
}

/// The first place whose address is an earlier one's too.
fn first_repeat(list: &[u32]) -> Option<usize> {
    (1..list.len()).find(|&place| list[..place].contains(&list[place]))
}
