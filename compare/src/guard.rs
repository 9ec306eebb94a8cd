//! Lends an engine copies with guard zones around them, so that a write
//! outside what is lent, or to what is only read, is noticed.

use crate::cases::Case;
use crate::check::{Codec, Engine};
use crate::dump;
use crate::runs::Lent;

/// Items before and after what is lent. It is odd, so that memory starts at an
/// odd address and words and entries are aligned no better than they must be.
const ZONE: usize = 257;

/// A copy of what is lent, between two zones full of one value.
struct Zoned<T> {
    items: Vec<T>,
    guard: T,
}

impl<T: Copy + PartialEq> Zoned<T> {
    fn around(lent: &[T], guard: T) -> Zoned<T> {
        let mut items = Vec::with_capacity(lent.len() + 2 * ZONE);
        items.resize(ZONE, guard);
        items.extend_from_slice(lent);
        items.resize(lent.len() + 2 * ZONE, guard);
        Zoned { items, guard }
    }

    fn lent(&mut self) -> &mut [T] {
        let end = self.items.len() - ZONE;
        &mut self.items[ZONE..end]
    }

    fn is_intact(&self) -> bool {
        let (before, rest) = self.items.split_at(ZONE);
        let after = &rest[rest.len() - ZONE..];
        before.iter().chain(after).all(|&item| item == self.guard)
    }
}

/// An engine that is lent nothing but guarded copies. Its runs panic, with the
/// whole case, if something beside what is lent changes.
pub struct Guarded<'a>(pub &'a dyn Engine);

impl Codec for Guarded<'_> {
    fn name(&self) -> &str {
        self.0.name()
    }
    fn decode(&self, word: u32) -> u64 {
        self.0.decode(word)
    }
    fn encode(&self, entry: u64) -> u64 {
        self.0.encode(entry)
    }
}

struct Zones {
    memory: Zoned<u8>,
    sheets: Zoned<u32>,
    schedule: Zoned<u8>,
    levels: Zoned<u32>,
    vectors: Zoned<u32>,
    table: Zoned<u64>,
}

impl Zones {
    fn around(lent: &Lent) -> Zones {
        Zones {
            memory: Zoned::around(lent.memory, 0xa5),
            sheets: Zoned::around(lent.sheets, 0xa5a5_5a5a),
            schedule: Zoned::around(lent.schedule, 0x5a),
            levels: Zoned::around(lent.levels, 0x5a5a_a5a5),
            vectors: Zoned::around(lent.vectors, 0x0005_a5a0),
            table: Zoned::around(lent.table, 0x5a5a_a5a5_5a5a_a5a5),
        }
    }

    /// The copies.
    fn lent(&mut self, limit: u32) -> Lent<'_> {
        Lent {
            memory: self.memory.lent(),
            sheets: self.sheets.lent(),
            schedule: self.schedule.lent(),
            levels: self.levels.lent(),
            limit,
            vectors: self.vectors.lent(),
            table: self.table.lent(),
        }
    }

    /// What changed that may not, if anything did.
    fn broken(&mut self, lent: &Lent) -> Option<&str> {
        let checks = [
            ("around memory", self.memory.is_intact()),
            ("around the sheets", self.sheets.is_intact()),
            ("around the schedule", self.schedule.is_intact()),
            ("around the levels", self.levels.is_intact()),
            ("around the vectors", self.vectors.is_intact()),
            ("around the table", self.table.is_intact()),
            ("the schedule", self.schedule.lent() == lent.schedule),
            ("the levels", self.levels.lent() == lent.levels),
            ("the vectors", self.vectors.lent() == lent.vectors),
        ];
        checks.iter().find(|(_, intact)| !intact).map(|&(place, _)| place)
    }
}

impl Guarded<'_> {
    /// Runs on the copies and hands back what they hold then.
    fn run(&self, lent: &mut Lent, run: impl FnOnce(&mut Lent) -> u64) -> u64 {
        let mut zones = Zones::around(lent);
        let answer = run(&mut zones.lent(lent.limit));
        if let Some(place) = zones.broken(lent) {
            let case = dump::write_case(&Case::of(lent));
            panic!("{}: {place} was written\n{case}", self.name());
        }
        lent.memory.copy_from_slice(zones.memory.lent());
        lent.sheets.copy_from_slice(zones.sheets.lent());
        lent.table.copy_from_slice(zones.table.lent());
        answer
    }
}

impl Engine for Guarded<'_> {
    fn plain_run(&self, lent: &mut Lent) -> u64 {
        // A plain run is lent no table.
        let lent = &mut Lent { table: &mut [], ..lent.again() };
        self.run(lent, |copies| self.0.plain_run(copies))
    }
    fn fast_run(&self, lent: &mut Lent) -> u64 {
        self.run(lent, |copies| self.0.fast_run(copies))
    }
}

#[cfg(test)]
mod tests {
    use super::{Lent, Zoned, Zones};

    #[test]
    fn a_write_beside_what_is_lent_is_noticed() {
        for lent in [0, 1, 8] {
            let mut zoned = Zoned::around(&vec![1u32; lent], 7);
            assert_eq!(zoned.lent(), vec![1; lent]);
            zoned.lent().fill(2);
            assert!(zoned.is_intact());
            for place in [super::ZONE - 1, super::ZONE + lent] {
                zoned.items[place] = 2;
                assert!(!zoned.is_intact());
                zoned.items[place] = 7;
            }
        }
    }
    /// What is only read may change nowhere.
    #[test]
    fn a_write_to_what_is_only_read_is_noticed() {
        let lent = Lent {
            memory: &mut [1; 8],
            sheets: &mut [2; 8],
            schedule: &[3; 8],
            levels: &[4; 8],
            limit: 0,
            vectors: &[5; 8],
            table: &mut [6; 8],
        };
        let mut zones = Zones::around(&lent);
        assert_eq!(zones.broken(&lent), None);
        zones.memory.lent().fill(0);
        zones.sheets.lent().fill(0);
        zones.table.lent().fill(0);
        assert_eq!(zones.broken(&lent), None);
        zones.vectors.lent()[6] = 0;
        assert_eq!(zones.broken(&lent), Some("the vectors"));
        zones.levels.lent()[7] = 0;
        assert_eq!(zones.broken(&lent), Some("the levels"));
        zones.schedule.lent()[0] = 0;
        assert_eq!(zones.broken(&lent), Some("the schedule"));
        zones.vectors.items[super::ZONE - 1] = 0;
        assert_eq!(zones.broken(&lent), Some("around the vectors"));
        zones.levels.items[super::ZONE + 8] = 0;
        assert_eq!(zones.broken(&lent), Some("around the levels"));
    }
}
