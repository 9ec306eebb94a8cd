//! How often lists of vectors that are turned back break each rule of note 6 of
//! document 02, and beside which other refusals.

use super::show;
use compare::cases::{Case, ORDER};
use compare::vectors::{Vectors, BOUND, OLD};
use std::collections::BTreeMap;

#[derive(Default)]
pub struct WrongLists {
    rules: BTreeMap<String, u32>,
    beside: BTreeMap<u8, u32>,
}

/// The rules that a list breaks, each with where.
fn broken(list: &[u32]) -> Vec<String> {
    if list.len() != 7 {
        return match list.len() {
            length @ (0 | 6 | 8) => vec![format!("{length} addresses")],
            _ => vec!["another number of addresses".to_string()],
        };
    }
    let mut rules = vec![];
    for (place, &address) in list.iter().enumerate() {
        match address {
            _ if address % 4 != 0 => rules.push(format!("{} too many at {place}", address % 4)),
            BOUND => rules.push(format!("the bound at {place}")),
            _ if address > BOUND => rules.push(format!("past the bound at {place}")),
            _ => {}
        }
        for first in (0..place).filter(|&first| list[first] == address) {
            rules.push(format!("{first} and {place} equal"));
        }
    }
    rules
}

/// All that can be broken alone, and two that are more than one.
fn rules() -> Vec<String> {
    let mut rules = vec!["another number of addresses".to_string(), "several".to_string()];
    rules.extend([0, 6, 8].map(|length| format!("{length} addresses")));
    for place in 0..7 {
        rules.extend([1, 2, 3].map(|odd| format!("{odd} too many at {place}")));
        rules.push(format!("the bound at {place}"));
        rules.push(format!("past the bound at {place}"));
        rules.extend((0..place).map(|first| format!("{first} and {place} equal")));
    }
    rules
}

impl WrongLists {
    /// Counts the case, if its list is wrong.
    pub fn note(&mut self, case: &Case) {
        if Vectors::of_list(&case.vectors).is_some() {
            return;
        }
        let mut rules = broken(&case.vectors);
        let rule = if rules.len() == 1 { rules.remove(0) } else { "several".to_string() };
        *self.rules.entry(rule).or_default() += 1;
        let other = Case { vectors: OLD.to_vec(), ..case.clone() }.refusal();
        *self.beside.entry(other).or_default() += 1;
    }

    /// Shows the counts. Stops if a rule was broken less often than `least`, or less than
    /// 20 times as often beside each other refusal and beside none.
    pub fn expect(&self, what: &str, least: u32) {
        show(&format!("{what}, wrong lists beside each refusal: {:?}", self.beside));
        show(&format!("{what}, wrong lists by rule: {:?}", self.rules));
        let (rules, all) = (rules(), ORDER.len());
        assert_eq!((rules.len(), self.rules.len(), self.beside.len()), (61, 61, all), "{what}");
        for rule in rules {
            let count = self.rules.get(&rule).copied().unwrap_or(0);
            assert!(count >= least, "{what}, {rule}: {count} of {least}");
        }
        for (refusal, &count) in &self.beside {
            assert!(count >= 20 * least, "{what}, beside {refusal}: {count} of {}", 20 * least);
        }
    }
}
