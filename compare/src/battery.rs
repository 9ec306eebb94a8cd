//! All the random questions for two engines, each from seeds, so that any
//! engine behind `Engine` is asked the same ones. A message names the seed
//! and holds the whole case.

use crate::card::{self, File};
use crate::cards;
use crate::cases;
use crate::check::{self, Codec, Engine};
use crate::dump;
use crate::lists;
use crate::programs;
use crate::rng::Rng;
use std::ops::Range;

type Verdict = Result<(), String>;

/// Two engines that are to agree; the second is the one under test.
#[derive(Clone, Copy)]
pub struct Pair<'a> {
    pub one: &'a dyn Engine,
    pub other: &'a dyn Engine,
}

/// Puts the seed before a message.
fn of_seed(seed: u64, verdict: Verdict) -> Verdict {
    verdict.map_err(|text| format!("seed {seed}: {text}"))
}

/// Decodes words taken through all opcodes and registers and many random ones.
pub fn words(one: &dyn Codec, other: &dyn Codec, seed: u64, count: usize) -> Verdict {
    let mut rng = Rng::new(seed);
    let mut words = programs::systematic_words(&mut rng);
    words.extend(programs::field_words(&mut rng));
    words.extend((0..count).map(|_| programs::any_word(&mut rng)));
    let same = |&word: &u32| check::same_word(one, other, word);
    of_seed(seed, words.iter().try_for_each(same))
}

/// Encodes the forms of such words, entries near them, and every value in and
/// above the registers' fields.
pub fn entries(one: &dyn Codec, other: &dyn Codec, seed: u64, count: usize) -> Verdict {
    let mut rng = Rng::new(seed);
    let words = programs::systematic_words(&mut rng);
    let forms = words.iter().map(|&word| one.decode(word));
    let mut entries: Vec<u64> = forms.collect();
    entries.extend(programs::field_entries(&mut rng));
    entries.extend((0..count).map(|_| programs::any_entry(&mut rng)));
    let same = |&entry: &u64| check::same_entry(one, other, entry);
    of_seed(seed, entries.iter().try_for_each(same))
}

impl Pair<'_> {
    /// The questions on words.
    pub fn words(&self, seed: u64, count: usize) -> Verdict {
        words(self.one, self.other, seed, count)
    }

    /// The questions on entries.
    pub fn entries(&self, seed: u64, count: usize) -> Verdict {
        entries(self.one, self.other, seed, count)
    }

    /// Runs accepted cases, one a seed.
    pub fn accepted_cases(&self, seeds: Range<u64>, entries_most: usize) -> Verdict {
        for seed in seeds {
            let case = cases::accepted_case(&mut Rng::new(seed), entries_most);
            of_seed(seed, self.case(&case, 0))?;
        }
        Ok(())
    }

    /// Runs schedules of the greatest length, one a seed.
    pub fn long_schedules(&self, seeds: Range<u64>) -> Verdict {
        for seed in seeds {
            let case = cases::long_case(&mut Rng::new(seed));
            of_seed(seed, self.case(&case, 0))?;
        }
        Ok(())
    }

    /// Runs cases with the largest memory, one a seed.
    pub fn large_cases(&self, seeds: Range<u64>) -> Verdict {
        for seed in seeds {
            let case = cases::large_case(&mut Rng::new(seed));
            of_seed(seed, self.case(&case, 0))?;
        }
        Ok(())
    }

    /// Runs cases that must be refused by a known number, one a seed.
    pub fn broken_cases(&self, seeds: Range<u64>) -> Verdict {
        for seed in seeds {
            let (case, refusal) = cases::broken_case(&mut Rng::new(seed));
            of_seed(seed, self.case(&case, refusal))?;
        }
        Ok(())
    }

    /// Runs one case by both engines.
    pub fn case(&self, case: &cases::Case, refusal: u8) -> Verdict {
        let (left, of_other) =
            (check::after_both(self.one, case), check::after_both(self.other, case));
        check::same_left([self.one.name(), self.other.name()], case, &left, &of_other)?;
        check::left_as_promised(self.other.name(), case, &of_other)?;
        let found = of_other.fast.answer.refusal;
        if found == refusal {
            return Ok(());
        }
        Err(format!("refused by {found}, not {refusal}\n{}", dump::write_case(case)))
    }

    /// Runs good cards, one a seed, as read here, half of them with a file of vectors.
    pub fn good_cards(&self, seeds: Range<u64>) -> Verdict {
        for seed in seeds {
            let (card, mut far_aside) =
                (cards::good_card(&mut Rng::new(seed)), Rng::new(seed).far_aside());
            let file = lists::good_or_absent(&mut far_aside);
            of_seed(seed, check::same_card(self.one, self.other, &file, &card))?;
        }
        Ok(())
    }
}

/// A runner's whole output for a file of vectors and a card.
pub type Runner<'a> = &'a mut dyn FnMut(&File, &[u8]) -> String;

/// Holds a runner's whole output for good, faulty and damaged cards, one a seed,
/// against this engine's; two thirds of them have such a file of vectors beside them.
pub fn printed_cards(seeds: Range<u64>, runner: Runner) -> Verdict {
    for seed in seeds {
        let mut rng = Rng::new(seed);
        let file = lists::any_file(&mut rng.far_aside());
        let card = match rng.below(3) {
            0 => cards::good_card(&mut rng),
            1 => cards::faulty_card(&mut rng).0,
            _ => cards::damaged_card(&mut rng),
        };
        of_seed(seed, same_print(runner, &file, &card))?;
    }
    Ok(())
}

/// Holds a runner's whole output for a file and a card against this engine's.
pub fn same_print(runner: Runner, file: &File, card: &[u8]) -> Verdict {
    let (expected, printed) = (card::output(file, card), runner(file, card));
    if printed == expected {
        return Ok(());
    }
    let (shown, text) = (check::shown(file), String::from_utf8_lossy(card));
    Err(format!("printed\n{printed}not\n{expected}for {shown}the card\n{text}"))
}
