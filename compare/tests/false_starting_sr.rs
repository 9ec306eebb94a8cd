//! Runners that are wrong in one thing that note 7 of document 02 says: the same
//! comparison must stop each.

mod common;

use common::old_cards;
use common::sr_cards::{self, fixed_bits, BITS};
use common::wrong_reader::{
    self, ask, by_number, hexadecimal, reading, relined, Question, WrongReader,
};
use compare::card::{self, Fault, File, IMAGE_BYTES};
use compare::runs::{self, Lent};
use compare::state::{allowed_sr, place, CY, DSX, F, IEE, OV, OVE, SHEET_WORDS, SM, TEE};

/// SR at reset, and the place of the line, counted from 0.
const RESET: u32 = 0x8001;
const SR: usize = 3;
const FIXED_ONE: u32 = 1 << 15;

/// Runs a card with what it lends changed.
fn lending(file: &File, card: &[u8], change: impl Fn(&mut Lent)) -> String {
    card::output_with(file, card, &mut |lent| {
        change(lent);
        runs::fast_run(lent).pack()
    })
}

/// The same with each core's sheet changed, which is given with the core's number.
fn starting(file: &File, card: &[u8], change: impl Fn(usize, &mut [u32])) -> String {
    lending(file, card, |lent| {
        let sheets = lent.sheets.chunks_mut(SHEET_WORDS).enumerate();
        sheets.for_each(|(core, sheet)| change(core, sheet));
    })
}

/// The same with each core's SR changed.
fn with_sr(file: &File, card: &[u8], change: impl Fn(u32) -> u32) -> String {
    starting(file, card, |_, sheet| sheet[place::SR] = change(sheet[place::SR]))
}

/// Sets only some cores' SR.
fn of_cores(file: &File, card: &[u8], set: fn(usize) -> bool) -> String {
    starting(file, card, |core, sheet| {
        if !set(core) {
            sheet[place::SR] = RESET;
        }
    })
}

const WRONG_SETTINGS: [WrongReader; 24] = [
    reading("has 00008001 always", |file, card| with_sr(file, card, |_| RESET)),
    reading("sets ESR too", |file, card| {
        starting(file, card, |_, sheet| sheet[place::ESR] = sheet[place::SR])
    }),
    reading("sets ESR alone", |file, card| {
        starting(file, card, |_, sheet| {
            (sheet[place::SR], sheet[place::ESR]) = (RESET, sheet[place::SR]);
        })
    }),
    reading("has ESR 0 but for bit 15", |file, card| {
        starting(file, card, |_, sheet| sheet[place::ESR] = FIXED_ONE)
    }),
    reading("sets EPCR, the word after", |file, card| {
        starting(file, card, |_, sheet| sheet[place::EPCR] = sheet[place::SR] & !3)
    }),
    reading("sets core 0 alone", |file, card| of_cores(file, card, |core| core == 0)),
    reading("sets all but core 0", |file, card| of_cores(file, card, |core| core != 0)),
    reading("sets the first two cores alone", |file, card| of_cores(file, card, |core| core < 2)),
    reading("sets the first three cores alone", |file, card| of_cores(file, card, |core| core < 3)),
    reading("sets cores in the schedule alone", |file, card| {
        lending(file, card, |lent| {
            for (core, sheet) in lent.sheets.chunks_mut(SHEET_WORDS).enumerate() {
                if !lent.schedule.contains(&(core as u8)) {
                    sheet[place::SR] = RESET;
                }
            }
        })
    }),
    reading("sets nothing of a card without steps", |file, card| {
        lending(file, card, |lent| {
            if lent.schedule.is_empty() {
                lent.sheets.chunks_mut(SHEET_WORDS).for_each(|sheet| sheet[place::SR] = RESET);
            }
        })
    }),
    reading("adds it to reset's", |file, card| with_sr(file, card, |sr| sr | RESET)),
    reading("keeps what reset has of it", |file, card| with_sr(file, card, |sr| sr & RESET)),
    reading("changes reset's bits by it", |file, card| {
        with_sr(file, card, |sr| sr ^ RESET | FIXED_ONE)
    }),
    reading("sets the flags alone", |file, card| {
        with_sr(file, card, |sr| sr & (F | CY | OV) | RESET)
    }),
    reading("sets all but the flags", |file, card| with_sr(file, card, |sr| sr & !(F | CY | OV))),
    reading("drops OV without OVE", |file, card| {
        with_sr(file, card, |sr| if sr & OVE == 0 { sr & !OV } else { sr })
    }),
    reading("loses bit 15", |file, card| with_sr(file, card, |sr| sr & !FIXED_ONE)),
    reading("has its bytes the other way round", |file, card| {
        with_sr(file, card, |sr| allowed_sr(sr.swap_bytes() >> 16))
    }),
    reading("prints it whatever the run left", |file, card| {
        let started = starting_sr(card);
        let printed = card::output(file, card);
        let line = |line: &str| match (line.split_once(" sr="), started) {
            (Some((start, _)), Some(sr)) => format!("{start} sr={sr:08x}\n"),
            _ => format!("{line}\n"),
        };
        printed.lines().map(line).collect()
    }),
    reading("sets it after the run of reset's", |file, card| {
        card::output_with(file, card, &mut |lent| {
            let started = lent.sheets[place::SR];
            let set = |lent: &mut Lent, sr: u32| {
                lent.sheets.chunks_mut(SHEET_WORDS).for_each(|sheet| sheet[place::SR] = sr);
            };
            set(lent, RESET);
            let answer = runs::fast_run(lent).pack();
            set(lent, started);
            answer
        })
    }),
    reading("takes DSX for a pending slot", |file, card| {
        starting(file, card, |_, sheet| {
            sheet[place::DELAY] = u32::from(sheet[place::SR] & DSX != 0);
        })
    }),
    reading("halts cores without SM", |file, card| {
        starting(file, card, |_, sheet| {
            if sheet[place::SR] & SM == 0 {
                sheet[place::MODE] = 0;
            }
        })
    }),
    reading("has lines high if IEE is set", |file, card| {
        card::output_with(file, card, &mut |lent| {
            let enabled = lent.sheets[place::SR] & IEE != 0;
            let high = vec![u32::from(enabled); lent.schedule.len()];
            runs::fast_run(&mut Lent { levels: &high, ..lent.again() }).pack()
        })
    }),
];

/// The value on the line of a good card.
fn starting_sr(card: &[u8]) -> Option<u32> {
    Some(card::parse(card, &mut [0; IMAGE_BYTES]).ok()?.sr)
}

/// Reads a card with the line changed.
fn by_line(file: &File, card: &[u8], change: impl Fn(&str) -> String) -> String {
    let line = |place: usize, line: &str| if place == SR { change(line) } else { line.to_string() };
    card::output(file, &relined(card, line))
}

/// The same with its digits changed.
fn by_digits(file: &File, card: &[u8], change: impl Fn(&str) -> String) -> String {
    by_line(file, card, |line| match line.strip_prefix("sr=") {
        Some(digits) => format!("sr={}", change(digits)),
        None => line.to_string(),
    })
}

/// The same with its value changed.
fn by_value(file: &File, card: &[u8], change: impl Fn(u32) -> u32) -> String {
    by_digits(file, card, |digits| by_number(digits, &change))
}

const TAKEN_VALUES: [WrongReader; 8] = [
    reading("drops what may not be set", |file, card| by_value(file, card, allowed_sr)),
    reading("drops it, but asks for bit 15", |file, card| {
        by_value(file, card, |sr| if sr & FIXED_ONE == 0 { sr } else { allowed_sr(sr) })
    }),
    reading("does not ask for bit 15", |file, card| by_value(file, card, |sr| sr | FIXED_ONE)),
    reading("takes 0 for reset's", |file, card| {
        by_value(file, card, |sr| if sr == 0 { RESET } else { sr })
    }),
    reading("leaves the upper half aside", |file, card| by_value(file, card, |sr| sr & 0xffff)),
    reading("leaves the top bits aside", |file, card| by_value(file, card, |sr| sr & 0x0fff_ffff)),
    reading("leaves bits 3 to 8 aside", |file, card| by_value(file, card, |sr| sr & !0x1f8)),
    // As a sheet's rule: the run refuses, and its counts are 0.
    reading("takes any value and lets the run refuse", |file, card| {
        match hexadecimal(&digits(card)) {
            Some(sr) => {
                let lawful = relined(card, |place, line| match place {
                    SR => "sr=00008001".to_string(),
                    _ => line.to_string(),
                });
                with_sr(file, &lawful, |_| sr)
            }
            None => card::output(file, card),
        }
    }),
];

/// What stands after `sr=` on the line; nothing without it.
fn digits(card: &[u8]) -> String {
    let line = card.split_inclusive(|&byte| byte == b'\n').nth(SR).unwrap_or(b"");
    let text = String::from_utf8_lossy(line);
    let ended = text.strip_prefix("sr=").and_then(|text| text.strip_suffix('\n'));
    ended.unwrap_or("").to_string()
}

/// Refuses good cards by 10 at the line if `refuses` holds of the value.
fn refusing(file: &File, card: &[u8], refuses: impl Fn(u32) -> bool) -> String {
    match starting_sr(card) {
        Some(sr) if file.vectors().is_ok() && refuses(sr) => "refused=10 line=4\n".to_string(),
        _ => card::output(file, card),
    }
}

const REFUSED_VALUES: [WrongReader; 8] = [
    reading("asks for reset's value", |file, card| refusing(file, card, |sr| sr != RESET)),
    reading("refuses reset's value", |file, card| refusing(file, card, |sr| sr == RESET)),
    reading("asks for a multiple of 4", |file, card| refusing(file, card, |sr| sr % 4 != 0)),
    reading("refuses flags", |file, card| refusing(file, card, |sr| sr & (F | CY | OV) != 0)),
    reading("refuses OV with OVE", |file, card| {
        refusing(file, card, |sr| sr & OV != 0 && sr & OVE != 0)
    }),
    reading("refuses interrupts without SM", |file, card| {
        refusing(file, card, |sr| sr & SM == 0 && sr & (IEE | TEE) != 0)
    }),
    reading("refuses all bits together", |file, card| refusing(file, card, |sr| sr == 0xbe07)),
    reading("refuses none of the bits", |file, card| refusing(file, card, |sr| sr == FIXED_ONE)),
];

/// Another fault where the card has this one; the file's stay.
fn with_fault(file: &File, card: &[u8], other: impl Fn(Fault) -> Fault) -> String {
    match (file.vectors(), card::parse(card, &mut [0; IMAGE_BYTES])) {
        (Ok(_), Err(fault)) => other(fault).to_string(),
        _ => card::output(file, card),
    }
}

/// The same for faults of the line.
fn at_line(file: &File, card: &[u8], other: impl Fn(Fault) -> Fault) -> String {
    with_fault(file, card, |fault| if fault.line == SR + 1 { other(fault) } else { fault })
}

/// Says another number for one of the line.
fn saying(file: &File, card: &[u8], due: u8, other: u8) -> String {
    at_line(file, card, |fault| match fault.refusal {
        refusal if refusal == due => Fault { refusal: other, ..fault },
        _ => fault,
    })
}

/// The card with a good line in place of its own, if its own is well-formed.
fn with_good_value(card: &[u8]) -> Vec<u8> {
    relined(card, |place, line| match line.strip_prefix("sr=").and_then(hexadecimal) {
        Some(_) if place == SR => "sr=00008001".to_string(),
        _ => line.to_string(),
    })
}

/// Has 10 of the line after later faults of these numbers.
fn valued_late(file: &File, card: &[u8], before: &[u8]) -> String {
    let later = card::parse(&with_good_value(card), &mut [0; IMAGE_BYTES]).err();
    at_line(file, card, |fault| match (fault.refusal, later) {
        (10, Some(later)) if before.contains(&later.refusal) => later,
        _ => fault,
    })
}

const WRONG_FAULTS: [WrongReader; 18] = [
    reading("says 10 for ill-formed", |file, card| saying(file, card, 9, 10)),
    reading("says 9 for a value", |file, card| saying(file, card, 10, 9)),
    reading("says 3 for a value", |file, card| saying(file, card, 10, 3)),
    reading("says 3 for a value, at line 0", |file, card| {
        at_line(file, card, |it| match it.refusal {
            10 => Fault { refusal: 3, line: 0 },
            _ => it,
        })
    }),
    reading("says 13 for a value", |file, card| saying(file, card, 10, 13)),
    reading("does not count the line", |file, card| {
        with_fault(file, card, |it| match it.line {
            5.. => Fault { line: it.line - 1, ..it },
            _ => it,
        })
    }),
    reading("counts it for lines before it too", |file, card| {
        with_fault(file, card, |it| match it.line {
            1..=3 => Fault { line: it.line + 1, ..it },
            _ => it,
        })
    }),
    reading("counts it twice", |file, card| {
        with_fault(file, card, |it| match it.line {
            5.. => Fault { line: it.line + 1, ..it },
            _ => it,
        })
    }),
    reading("counts entry and the line as one", |file, card| {
        with_fault(file, card, |it| match it.line {
            4.. => Fault { line: it.line - 1, ..it },
            _ => it,
        })
    }),
    reading("has its faults at line 0", |file, card| {
        at_line(file, card, |it| Fault { line: 0, ..it })
    }),
    reading("has its values at line 0", |file, card| {
        at_line(file, card, |it| Fault { line: if it.refusal == 10 { 0 } else { 4 }, ..it })
    }),
    reading("has its values at the next line", |file, card| {
        at_line(file, card, |it| Fault { line: if it.refusal == 10 { 5 } else { 4 }, ..it })
    }),
    reading("has a missing line at the next", |file, card| {
        let missing = !card.split(|&byte| byte == b'\n').any(|line| line.starts_with(b"sr="));
        at_line(file, card, |it| Fault { line: if missing { 5 } else { 4 }, ..it })
    }),
    reading("has the value after the form of later lines", |file, card| {
        valued_late(file, card, &[9])
    }),
    reading("has the value after the values of later lines", |file, card| {
        valued_late(file, card, &[10])
    }),
    reading("has the value after the whole card", |file, card| valued_late(file, card, &[9, 10])),
    reading("has the value before the form of the line", |file, card| {
        let ended = [card, b"\n"].concat();
        let of_ended = card::parse(&ended, &mut [0; IMAGE_BYTES]).err();
        at_line(file, card, |it| match of_ended {
            Some(fault) if !card.ends_with(b"\n") => fault,
            _ => it,
        })
    }),
    reading("has the line before those before it", |file, card| {
        let good = relined(card, |place, line| {
            let good = ["cores=4", "memory=16384", "entry=00000000"];
            good.get(place).map_or(line.to_string(), |line| line.to_string())
        });
        let of_line = card::parse(&good, &mut [0; IMAGE_BYTES]).err();
        with_fault(file, card, |it| match of_line {
            Some(fault) if fault.line == 4 && it.line > 0 => fault,
            _ => it,
        })
    }),
];

const WRONG_FORMS: [WrongReader; 17] = [
    reading("takes upper-case digits", |file, card| {
        by_digits(file, card, |digits| digits.to_lowercase())
    }),
    reading("takes an upper-case key", |file, card| {
        by_line(file, card, |line| line.replace("SR=", "sr="))
    }),
    reading("takes fewer digits", |file, card| {
        by_digits(file, card, |digits| match digits.len() {
            1..8 => format!("{digits:0>8}"),
            _ => digits.to_string(),
        })
    }),
    reading("takes no digit for reset's value", |file, card| {
        by_digits(file, card, |digits| if digits.is_empty() { "00008001" } else { digits }.into())
    }),
    reading("takes more digits, if they are zeros", |file, card| {
        by_digits(file, card, |digits| match digits.strip_prefix('0') {
            Some(rest) if rest.len() == 8 => rest.to_string(),
            _ => digits.to_string(),
        })
    }),
    reading("takes the first eight digits", |file, card| {
        by_digits(file, card, |digits| digits.get(..8).unwrap_or(digits).to_string())
    }),
    reading("takes the last eight digits", |file, card| {
        by_digits(file, card, |digits| {
            let start = digits.len().saturating_sub(8);
            digits.get(start..).unwrap_or(digits).to_string()
        })
    }),
    reading("takes 0x", |file, card| {
        by_digits(file, card, |digits| match digits.strip_prefix("0x") {
            Some(rest) => format!("{rest:0>8}"),
            None => digits.to_string(),
        })
    }),
    reading("takes a sign", |file, card| {
        by_digits(file, card, |digits| match digits.strip_prefix('+') {
            Some(rest) => format!("{rest:0>8}"),
            None => digits.to_string(),
        })
    }),
    reading("takes a decimal number", |file, card| {
        by_digits(file, card, |digits| match (digits.len(), digits.parse::<u32>()) {
            (1..8, Ok(number)) => format!("{number:08x}"),
            _ => digits.to_string(),
        })
    }),
    reading("takes carriage returns", |file, card| {
        by_line(file, card, |line| line.trim_end_matches('\r').to_string())
    }),
    reading("takes blanks around the line", |file, card| {
        by_line(file, card, |line| line.trim_matches(' ').to_string())
    }),
    reading("takes blanks around the digits", |file, card| {
        by_digits(file, card, |digits| digits.trim_matches(' ').to_string())
    }),
    reading("takes any key", |file, card| {
        by_line(file, card, |line| match line.split_once('=') {
            Some((_, digits)) => format!("sr={digits}"),
            None => line.to_string(),
        })
    }),
    reading("takes a colon", |file, card| by_line(file, card, |line| line.replace("sr:", "sr="))),
    reading("takes the line without its line feed", |file, card| {
        let feeds = card.iter().filter(|&&byte| byte == b'\n').count();
        if feeds == SR && !digits(&[card, b"\n"].concat()).is_empty() {
            card::output(file, &[card, b"\n"].concat())
        } else {
            card::output(file, card)
        }
    }),
    reading("skips a blank line before it", |file, card| {
        let mut lines: Vec<&[u8]> = card.split_inclusive(|&byte| byte == b'\n').collect();
        if lines.get(SR) == Some(&b"\n".as_slice()) {
            lines.remove(SR);
        }
        card::output(file, &lines.concat())
    }),
];

/// The lines of a card, with their line feeds.
fn lines(card: &[u8]) -> Vec<&[u8]> {
    card.split_inclusive(|&byte| byte == b'\n').collect()
}

fn is_sr(line: &[u8]) -> bool {
    line.starts_with(b"sr=")
}

/// Reads cards that have the line in another place, counted from 0, and none at its own.
fn placed(file: &File, card: &[u8], place: usize) -> String {
    let mut lines = lines(card);
    if lines.len() > place.max(SR) {
        let moved = lines.remove(place);
        lines.insert(SR, moved);
    }
    card::output(file, &lines.concat())
}

/// Reads the card without those lines sr that `dropped` holds of, by their places, if it
/// leaves one.
fn dropping(file: &File, card: &[u8], dropped: fn(usize, &[usize]) -> bool) -> String {
    let all = lines(card);
    let places: Vec<usize> = (0..all.len()).filter(|&place| is_sr(all[place])).collect();
    let kept = |place: &usize| !(places.contains(place) && dropped(*place, &places));
    let kept: Vec<&[u8]> = (0..all.len()).filter(kept).map(|place| all[place]).collect();
    card::output(file, &kept.concat())
}

const WRONG_PLACES: [WrongReader; 15] = [
    reading("takes old cards", |file, card| {
        let lacks = !lines(card).iter().any(|line| is_sr(line));
        let card = if lacks { old_cards::with_sr(card) } else { card.to_vec() };
        card::output(file, &card)
    }),
    reading("takes old cards too, as they were read", |file, card| {
        let lacks = !lines(card).get(SR).is_some_and(|line| is_sr(line));
        match old_cards::fault(card) {
            None if lacks => old_cards::output(file, card),
            _ => card::output(file, card),
        }
    }),
    reading("knows no line sr", |file, card| old_cards::output(file, card)),
    reading("reads the line first of all", |file, card| placed(file, card, 0)),
    reading("reads the line after cores", |file, card| placed(file, card, 1)),
    reading("reads the line before entry", |file, card| placed(file, card, 2)),
    reading("reads the line after steps", |file, card| placed(file, card, 4)),
    reading("reads the line after schedule", |file, card| placed(file, card, 5)),
    reading("reads the line after words", |file, card| placed(file, card, 6)),
    reading("takes the line anywhere", |file, card| {
        let (mut sr, mut others): (Vec<&[u8]>, Vec<&[u8]>) =
            lines(card).into_iter().partition(|line| is_sr(line));
        let rest = others.split_off(others.len().min(SR));
        others.append(&mut sr);
        others.extend(rest);
        card::output(file, &others.concat())
    }),
    reading("takes the line last", |file, card| {
        let mut all = lines(card);
        if all.last().is_some_and(|line| is_sr(line)) && all.len() > SR {
            let last = all.pop().unwrap_or(b"");
            all.insert(SR, last);
        }
        card::output(file, &all.concat())
    }),
    reading("takes the line twice, the first one", |file, card| {
        dropping(file, card, |place, all| place != all[0])
    }),
    reading("takes the line twice, the last one", |file, card| {
        dropping(file, card, |place, all| place != all[all.len() - 1])
    }),
    reading("takes entry and the line in either order", |file, card| {
        let mut all = lines(card);
        if all.get(2).is_some_and(|line| is_sr(line)) && all.len() > SR {
            all.swap(2, SR);
        }
        card::output(file, &all.concat())
    }),
    reading("asks for a line for each core", |file, card| {
        match card::parse(card, &mut [0; IMAGE_BYTES]) {
            Ok(job) if job.cores > 1 && file.vectors().is_ok() => "refused=9 line=5\n".to_string(),
            _ => card::output(file, card),
        }
    }),
];

/// Reads a card as if its most bytes were another number.
fn limited(file: &File, card: &[u8], most: usize) -> String {
    match file.vectors() {
        Ok(_) if card.len() > most => "refused=9 line=0\n".to_string(),
        Ok(_) if card.len() > 65_536 => card::output(file, &card[..65_536]),
        _ => card::output(file, card),
    }
}

const WRONG_LENGTHS: [WrongReader; 3] = [
    reading("takes 12 bytes more", |file, card| limited(file, card, 65_548)),
    reading("takes 12 bytes fewer", |file, card| limited(file, card, 65_524)),
    reading("tests the length after the line", |file, card| {
        let start = &card[..card.len().min(400)];
        match card::parse(start, &mut [0; IMAGE_BYTES]) {
            Err(fault) if fault.line == 4 && file.vectors().is_ok() => fault.to_string(),
            _ => card::output(file, card),
        }
    }),
];

fn questions() -> Vec<Question> {
    wrong_reader::of_cards(sr_cards::rows())
}

/// The comparison stops each of these.
fn assert_stopped(readers: &[WrongReader], questions: &[Question]) {
    for WrongReader { name, mut output } in readers {
        assert!(ask(&mut output, questions).is_err(), "{name}");
    }
}

#[test]
fn wrong_settings_are_stopped() {
    assert_stopped(&WRONG_SETTINGS, &questions());
}

#[test]
fn wrong_values_are_stopped() {
    let questions = questions();
    assert_stopped(&TAKEN_VALUES, &questions);
    assert_stopped(&REFUSED_VALUES, &questions);
}

#[test]
fn wrong_faults_are_stopped() {
    assert_stopped(&WRONG_FAULTS, &questions());
}

#[test]
fn wrong_forms_are_stopped() {
    assert_stopped(&WRONG_FORMS, &questions());
}

#[test]
fn wrong_places_are_stopped() {
    assert_stopped(&WRONG_PLACES, &questions());
    assert_stopped(&WRONG_LENGTHS, &questions());
}

/// Each bit by itself: dropped, always set, refused or asked for, if it may be set; taken,
/// if it is wrong.
#[test]
fn wrong_bits_are_stopped() {
    type Output<'a> = Box<dyn FnMut(&File, &[u8]) -> String + 'a>;
    let questions = questions();
    let stopped = |name: String, mut output: Output| {
        assert!(ask(&mut *output, &questions).is_err(), "{name}");
    };
    for (bit, name) in BITS {
        let bit = 1 << bit;
        let output = move |file: &File, card: &[u8]| with_sr(file, card, |sr| sr & !bit);
        stopped(format!("drops {name}"), Box::new(output));
        let output = move |file: &File, card: &[u8]| with_sr(file, card, |sr| sr | bit);
        stopped(format!("sets {name}"), Box::new(output));
        let output = move |file: &File, card: &[u8]| refusing(file, card, |sr| sr & bit != 0);
        stopped(format!("refuses {name}"), Box::new(output));
        let output = move |file: &File, card: &[u8]| refusing(file, card, |sr| sr & bit == 0);
        stopped(format!("asks for {name}"), Box::new(output));
    }
    for bit in fixed_bits() {
        let lawful = (FIXED_ONE >> bit & 1) << bit;
        let output =
            move |file: &File, card: &[u8]| by_value(file, card, |sr| sr & !(1 << bit) | lawful);
        stopped(format!("takes a wrong bit {bit}"), Box::new(output));
    }
}

/// What these readers do is right where they spoil nothing.
#[test]
fn a_right_reader_passes() {
    let right: [WrongReader; 8] = [
        reading("sets what is set", |file, card| with_sr(file, card, |sr| sr)),
        reading("reads the same value", |file, card| by_value(file, card, |sr| sr)),
        reading("says what is due", |file, card| with_fault(file, card, |fault| fault)),
        reading("refuses nothing", |file, card| refusing(file, card, |_| false)),
        reading("has the value in time", |file, card| valued_late(file, card, &[])),
        reading("reads the line in its place", |file, card| placed(file, card, SR)),
        reading("has the same limit", |file, card| limited(file, card, 65_536)),
        reading("drops no line", |file, card| dropping(file, card, |_, _| false)),
    ];
    let questions = questions();
    for WrongReader { name, mut output } in right {
        assert_eq!(ask(&mut output, &questions), Ok(()), "{name}");
    }
}
