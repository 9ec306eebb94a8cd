//! What note 3 of document 02 is about: D, A and B in each of their values, and
//! entries that hold something where no word puts it.

use super::{list, show};
use compare::check::Codec;
use compare::isa::NO_WORD;
use compare::programs;
use compare::rng::Rng;
use std::collections::BTreeSet;

/// Kinds, each with a value of one field.
type Values = BTreeSet<(u64, u64)>;

#[derive(Default)]
pub struct Met {
    decoded: [Values; 3],
    encoded: [Values; 3],
    /// Turned back for a field that the kind has not.
    unused: [Values; 3],
    /// Turned back for bits 55-47.
    above: Values,
}

/// Asks for every value of each field. Every answer must be the list's.
pub fn ask(codec: &dyn Codec) -> Met {
    let mut rng = Rng::new(11);
    let mut met = Met::default();
    for word in programs::field_words(&mut rng) {
        met.decode(codec, word);
    }
    for entry in programs::field_entries(&mut rng) {
        met.encode(codec, entry);
    }
    met
}

/// Adds to each field's values the entry's, where `of` holds of its kind having
/// the field and of the value.
fn note(values: &mut [Values; 3], entry: u64, of: fn(bool, u64) -> bool) {
    let kind = entry >> 56;
    for (field, value) in list::registers(entry).into_iter().enumerate() {
        if of(list::has_fields(kind)[field], value) {
            values[field].insert((kind, value));
        }
    }
}

impl Met {
    fn decode(&mut self, codec: &dyn Codec, word: u32) {
        let (entry, name) = (codec.decode(word), codec.name());
        assert_eq!(entry >> 32, list::kind_and_registers(word), "{name}: word {word:08x}");
        note(&mut self.decoded, entry, |has, _| has);
    }

    fn encode(&mut self, codec: &dyn Codec, entry: u64) {
        let (word, name) = (codec.encode(entry), codec.name());
        if !list::some_word_has(entry) {
            assert_eq!(word, NO_WORD, "{name}: entry {entry:016x}");
            return self.turned_back(entry);
        }
        assert!(word < NO_WORD, "{name}: entry {entry:016x} is refused");
        let found = list::kind_and_registers(word as u32);
        assert_eq!(found, entry >> 32, "{name}: entry {entry:016x}, word {word:08x}");
        assert_eq!(codec.decode(word as u32), entry, "{name}: word {word:08x}");
        note(&mut self.encoded, entry, |has, _| has);
    }

    fn turned_back(&mut self, entry: u64) {
        let above = entry >> 47 & 0x1ff;
        if above != 0 {
            self.above.insert((entry >> 56, above));
        }
        note(&mut self.unused, entry, |has, value| !has && value != 0);
    }

    /// Shows how many kinds were met with how many values. Stops if a kind was
    /// not met with every value: 43 kinds have D, 72 A and 34 B; of these
    /// l.jalr has no 9.
    pub fn expect(&self, name: &str) {
        let used = [43 * 32, 72 * 32, 34 * 32 - 1];
        let unused = [(88 - 43) * 31, (88 - 72) * 31, (88 - 34) * 31];
        let fields = ["D", "A", "B"].into_iter().enumerate();
        let mut rows = vec![("bits 55-47", "turned back", self.above.len(), 88 * 511)];
        for (field, text) in fields {
            rows.push((text, "decoded", self.decoded[field].len(), used[field]));
            rows.push((text, "encoded", self.encoded[field].len(), used[field]));
            rows.push((text, "unused and turned back", self.unused[field].len(), unused[field]));
        }
        for (field, what, count, least) in rows {
            show(&format!("{name}: {field} {what}: {count} pairs of kind and value"));
            assert!(count >= least, "{name}: {field} {what}: {count} of {least}");
        }
    }
}
