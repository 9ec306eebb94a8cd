//! How often l.addi and l.addic meet what note 1 of document 02 tells apart.

use super::watch::Seen;
use super::{join, show};
use compare::isa::Kind;
use compare::state::{OV, OVE};
use std::collections::BTreeMap;

/// One step of either.
#[derive(Clone, Copy, PartialEq, Eq, PartialOrd, Ord)]
struct Met {
    kind: Kind,
    /// OVE was 1.
    enabled: bool,
    overflow: bool,
    raised: bool,
    slot: bool,
}

#[derive(Default)]
pub struct Sums(BTreeMap<Met, u32>);

impl Sums {
    pub fn note(&mut self, seen: &Seen) {
        if let kind @ (Kind::Addi | Kind::Addic) = seen.insn.kind {
            let met = Met {
                kind,
                enabled: seen.before.has(OVE),
                overflow: seen.after.has(OV),
                raised: seen.raised,
                slot: seen.before.delay,
            };
            *self.0.entry(met).or_default() += 1;
        }
    }

    /// Takes in what others counted.
    pub fn join(&mut self, other: Sums) {
        join(&mut self.0, other.0);
    }

    fn count(&self, of: impl Fn(&Met) -> bool) -> u32 {
        self.0.iter().filter(|(met, _)| of(met)).map(|(_, count)| count).sum()
    }

    /// Shows the counts. Stops if one is below `least`, or below a tenth of it
    /// in a slot: then the cases would say too little about the note.
    pub fn expect(&self, what: &str, least: u32) {
        for kind in [Kind::Addi, Kind::Addic] {
            let of = |enabled: bool, overflow: bool, raised: bool| {
                let class = move |met: &Met| (met.enabled, met.overflow, met.raised);
                self.count(|met| met.kind == kind && class(met) == (enabled, overflow, raised))
            };
            let in_slot = self.count(|met| met.kind == kind && met.raised && met.slot);
            let rows = [
                ("OVE and overflow, raised", of(true, true, true), least),
                ("of these in a slot", in_slot, least / 10),
                ("OVE and no overflow, not raised", of(true, false, false), least),
                ("overflow without OVE, not raised", of(false, true, false), least),
            ];
            for (class, count, least) in rows {
                show(&format!("{what}, {kind:?}, {class}: {count}"));
                assert!(count >= least, "{what}, {kind:?}, {class}: {count} of {least}");
            }
        }
        let otherwise = self.count(|met| met.raised != (met.enabled && met.overflow));
        assert_eq!(otherwise, 0, "{what}: raised otherwise than on OV with OVE");
    }
}
