//! Engines and readers that are wrong in one thing that note 6 of document 02 says: the
//! battery must stop each.

mod common;

use common::files;
use common::wrong_reader::{self, ask, by_number, hexadecimal, reading, WrongReader};
use common::wrong_refusal::{self, turning, Asked, Turn, WrongRefusal};
use common::wrong_step::{assert_passed, assert_stopped};
use common::wrong_vector::{going, Raised, WrongVector};
use compare::card::{self, Fault, File};
use compare::cards;
use compare::exec::{self, Cause::*};
use compare::isa::Kind::{self, Div, Divu, Jalr, Jr, Mul, Muli, Sb, Sh, Sw, Swa};
use compare::lists;
use compare::state::{place, SHEET_WORDS};
use compare::vectors::{Vectors, BOUND, KEYS, OLD};

/// Two places of the list for each other.
fn exchanged(raised: &Raised, one: usize, other: usize) -> u32 {
    match raised.place() {
        place if place == one => raised.at(other),
        place if place == other => raised.at(one),
        place => raised.at(place),
    }
}

const WRONG_PLACES: [WrongVector; 20] = [
    going("has the old list", |it| it.old()),
    going("has the old bus vector", |it| it.old_if(it.cause == Bus)),
    going("has the old alignment vector", |it| it.old_if(it.cause == Alignment)),
    going("has the old illegal vector", |it| it.old_if(it.cause == Illegal)),
    going("has the old range vector", |it| it.old_if(it.cause == Range)),
    going("has the old syscall vector", |it| it.old_if(it.cause == Syscall)),
    going("has the old trap vector", |it| it.old_if(it.cause == Trap)),
    going("has the old interrupt vector", |it| it.old_if(it.cause == Interrupt)),
    going("exchanges bus and alignment", |it| exchanged(it, 0, 1)),
    going("exchanges alignment and illegal", |it| exchanged(it, 1, 2)),
    going("exchanges illegal and range", |it| exchanged(it, 2, 3)),
    going("exchanges range and syscall", |it| exchanged(it, 3, 4)),
    going("exchanges syscall and trap", |it| exchanged(it, 4, 5)),
    going("exchanges trap and interrupt", |it| exchanged(it, 5, 6)),
    going("exchanges bus and interrupt", |it| exchanged(it, 0, 6)),
    going("is one place on", |it| it.at(it.place() + 1)),
    going("is one place back", |it| it.at(it.place() + 6)),
    going("has the list backwards", |it| it.at(6 - it.place())),
    // Interrupts between illegal and range, as the old addresses rise.
    going("has the list in the old addresses' order", |it| {
        it.at([0, 1, 2, 4, 5, 6, 3][it.place()])
    }),
    going("sorts the list", |it| {
        let mut list = it.list.to_vec();
        list.sort_unstable();
        // As the old one would be sorted.
        list[[0, 1, 2, 4, 5, 6, 3][it.place()]]
    }),
];

const WRONG_ADDRESSES: [WrongVector; 19] = [
    going("keeps 12 bits", |it| it.due() & 0xfff),
    going("keeps 16 bits", |it| it.due() & 0xffff),
    going("keeps 19 bits", |it| it.due() & 0x7_ffff),
    going("drops the low byte", |it| it.due() & !0xff),
    going("drops bit 2", |it| it.due() & !7),
    going("sets bit 12", |it| it.due() | 0x1000),
    going("sets the upper bits", |it| it.due() | 0xf000_0000),
    going("adds the old vector", |it| it.due() + it.old()),
    going("goes one word on", |it| it.due() + 4),
    going("goes one word back", |it| it.due().wrapping_sub(4)),
    going("counts the vector in words", |it| 4 * it.due()),
    going("counts the address in words", |it| (it.due() / 4) & !3),
    going("turns over at memory's end", |it| (it.due() as usize % it.memory.len()) as u32),
    going("has the old vector for one outside memory", |it| it.old_if(it.is_outside())),
    going("has the bus vector for one outside memory", |it| {
        if it.is_outside() {
            it.at(0)
        } else {
            it.due()
        }
    }),
    going("has the last word for one outside memory", |it| {
        it.due().min(it.memory.len() as u32 - 4)
    }),
    going("has the old vector for 0", |it| it.old_if(it.due() == 0)),
    going("has the old vector for ffffc", |it| it.old_if(it.due() == BOUND - 4)),
    going("goes where the word at the vector says", |it| {
        exec::fetch(it.memory, it.due()).unwrap_or(it.due()) & !3
    }),
];

fn kind(it: &Raised) -> Option<Kind> {
    it.insn.map(|insn| insn.kind)
}

fn is_store(it: &Raised) -> bool {
    matches!(kind(it), Some(Sw | Sb | Sh | Swa))
}

fn is_jump(it: &Raised) -> bool {
    matches!(kind(it), Some(Jr | Jalr))
}

const WRONG_TIMES: [WrongVector; 29] = [
    going("has the list for the first exception alone", |it| it.old_if(it.earlier > 0)),
    going("has the list from the second exception on", |it| it.old_if(it.earlier == 0)),
    going("has the list for the first entries alone", |it| it.old_if(it.entry.0 >= 50)),
    going("has the list for half of the schedule", |it| it.old_if(2 * it.entry.0 >= it.entry.1)),
    going("has the list for core 0 alone", |it| it.old_if(it.who != 0)),
    going("has the list for other cores alone", |it| it.old_if(it.who == 0)),
    going("has the list in the plain run alone", |it| it.old_if(it.fast)),
    going("has the list in the fast run alone", |it| it.old_if(!it.fast)),
    going("has the old list in a slot", |it| it.old_if(it.before.delay)),
    going("has the old list but in a slot", |it| it.old_if(!it.before.delay)),
    going("has the old list after an exception in a slot", |it| {
        it.old_if(it.before.has(compare::state::DSX))
    }),
    going("has the old vector for a bus error of a fetch", |it| {
        it.old_if(it.cause == Bus && it.insn.is_none())
    }),
    going("has the old vector for a bus error of an access", |it| {
        it.old_if(it.cause == Bus && it.insn.is_some())
    }),
    going("has the old vector for a bus error of a load", |it| {
        it.old_if(it.cause == Bus && it.insn.is_some() && !is_store(it))
    }),
    going("has the old vector for a bus error of a store", |it| {
        it.old_if(it.cause == Bus && is_store(it))
    }),
    going("has the old vector for a store below the limit", |it| {
        it.old_if(it.cause == Bus && is_store(it) && it.after.eear < it.limit)
    }),
    going("has the old vector for a jump to an odd address", |it| {
        it.old_if(it.cause == Alignment && is_jump(it))
    }),
    going("has the old vector for a misaligned access", |it| {
        it.old_if(it.cause == Alignment && !is_jump(it))
    }),
    going("has the old vector for an illegal word", |it| {
        it.old_if(it.cause == Illegal && kind(it) == Some(Kind::Illegal))
    }),
    going("has the old vector for a jump in a slot", |it| {
        it.old_if(it.cause == Illegal && kind(it) != Some(Kind::Illegal))
    }),
    going("has the old vector for range of a product", |it| {
        it.old_if(it.cause == Range && matches!(kind(it), Some(Mul | Muli)))
    }),
    going("has the old vector for range of a division", |it| {
        it.old_if(it.cause == Range && matches!(kind(it), Some(Div | Divu)))
    }),
    going("has the old vector for range of l.add", |it| {
        it.old_if(it.cause == Range && kind(it) == Some(Kind::Add))
    }),
    going("has the old vector for range of l.addi", |it| {
        it.old_if(it.cause == Range && kind(it) == Some(Kind::Addi))
    }),
    going("has the old vector for a line that rises", |it| {
        it.old_if(it.cause == Interrupt && it.before.picsr == 0)
    }),
    going("has the old vector for a line latched before", |it| {
        it.old_if(it.cause == Interrupt && it.before.picsr != 0)
    }),
    going("has the old vector for an interrupt outside memory", |it| {
        it.old_if(it.cause == Interrupt && it.insn.is_none())
    }),
    going("has the old vector for a vector below the limit", |it| it.old_if(it.due() < it.limit)),
    going("has the old vector for one that is where it came from", |it| {
        it.old_if(it.due() == it.before.pc)
    }),
];

#[test]
fn wrong_places_of_the_list_are_stopped() {
    WRONG_PLACES.iter().for_each(|engine| assert_stopped(engine));
}

#[test]
fn wrong_addresses_are_stopped() {
    WRONG_ADDRESSES.iter().for_each(|engine| assert_stopped(engine));
}

#[test]
fn lists_not_used_throughout_are_stopped() {
    WRONG_TIMES.iter().for_each(|engine| assert_stopped(engine));
}

/// What these engines do is right where they spoil nothing.
#[test]
fn a_right_engine_passes() {
    assert_passed(&going("goes where it is due", |it| it.due()));
}

/// What turns a list back.
fn is_wrong(list: &[u32]) -> bool {
    Vectors::of_list(list).is_none()
}

/// Refuses by 13 where another number is due and the list is wrong too.
fn before(asked: &Asked, due: u8) -> Turn {
    if asked.due == due && is_wrong(asked.vectors) {
        Turn::Refuse(13)
    } else {
        Turn::Right
    }
}

/// Refuses by another number where 13 is due and that one would be after it.
fn after(asked: &Asked, other: u8) -> Turn {
    if asked.due == 13 && asked.with_vectors == other {
        Turn::Refuse(other)
    } else {
        Turn::Right
    }
}

/// Says another number where 13 is due.
fn saying(asked: &Asked, other: u8) -> Turn {
    match asked.due {
        13 => Turn::Refuse(other),
        _ => Turn::Right,
    }
}

/// Runs with a list made of the lent one where 13 is due and `takes` holds of that.
fn taking(
    asked: &Asked,
    takes: impl Fn(&[u32]) -> bool,
    list: impl Fn(&[u32]) -> Vec<u32>,
) -> Turn {
    if asked.due == 13 && takes(asked.vectors) {
        Turn::By(list(asked.vectors))
    } else {
        Turn::Right
    }
}

/// Refuses a good list by 13 if `refuses` holds of it.
fn refusing(asked: &Asked, refuses: impl Fn(&[u32]) -> bool) -> Turn {
    if asked.due == 0 && refuses(asked.vectors) {
        Turn::Refuse(13)
    } else {
        Turn::Right
    }
}

fn old(_: &[u32]) -> Vec<u32> {
    OLD.to_vec()
}

/// A list with each address made another.
fn each(list: &[u32], other: fn(u32) -> u32) -> Vec<u32> {
    list.iter().map(|&address| other(address)).collect()
}

fn are_seven(list: &[u32]) -> bool {
    list.len() == 7
}

/// Whether two of some places have equal addresses.
fn has_equal(list: &[u32], of: impl Fn(usize, usize) -> bool) -> bool {
    (0..list.len())
        .any(|later| (0..later).any(|first| of(first, later) && list[first] == list[later]))
}

/// Seven good addresses, two of them equal, but for two of some places.
fn equal_but(list: &[u32], of: impl Fn(usize, usize) -> bool) -> bool {
    let good = |&address: &u32| address.is_multiple_of(4) && address < BOUND;
    are_seven(list) && list.iter().all(good) && !has_equal(list, of)
}

const WRONG_ORDERS: [WrongRefusal; 13] = [
    turning("has 13 before 12", |asked| before(asked, 12)),
    turning("has 13 before 11", |asked| before(asked, 11)),
    turning("has 13 before 5", |asked| before(asked, 5)),
    turning("has 13 before 4", |asked| before(asked, 4)),
    turning("has 13 before 3", |asked| before(asked, 3)),
    turning("has 13 before 1", |asked| before(asked, 1)),
    turning("has 13 after 6", |asked| after(asked, 6)),
    turning("has 13 after 7", |asked| after(asked, 7)),
    turning("says 12 for 13", |asked| saying(asked, 12)),
    turning("says 3 for 13", |asked| saying(asked, 3)),
    turning("says 9 for 13", |asked| saying(asked, 9)),
    turning("says 10 for an address outside its limits", |asked| {
        match asked.vectors.iter().any(|&address| address % 4 != 0 || address >= BOUND) {
            true => saying(asked, 10),
            false => Turn::Right,
        }
    }),
    turning("runs before it refuses", |asked| match asked.due {
        13 => Turn::RunAndRefuse(13),
        _ => Turn::Right,
    }),
];

const WRONGLY_TAKEN: [WrongRefusal; 29] = [
    turning("takes any list", |asked| taking(asked, |_| true, old)),
    turning("takes odd addresses, cut down", |asked| {
        taking(asked, are_seven, |list| each(list, |address| address & !3))
    }),
    turning("takes multiples of 2", |asked| {
        let even = |list: &[u32]| list.iter().all(|address| address % 2 == 0);
        taking(asked, |list| are_seven(list) && even(list), |list| each(list, |it| it & !3))
    }),
    turning("takes odd addresses, rounded up", |asked| {
        taking(asked, are_seven, |list| each(list, |address| address.saturating_add(3) & !3))
    }),
    turning("takes 1,048,576", |asked| {
        taking(asked, are_seven, |list| each(list, |it| if it == BOUND { 0x5550 } else { it }))
    }),
    turning("takes any multiple of 4", |asked| {
        taking(asked, are_seven, |list| each(list, |address| address & (BOUND - 1)))
    }),
    turning("reads addresses as signed", |asked| {
        taking(asked, are_seven, |list| each(list, |it| if it >> 31 == 1 { 0x5550 } else { it }))
    }),
    turning("reads 16 bits of an address", |asked| {
        taking(asked, are_seven, |list| each(list, |address| address & 0xffff))
    }),
    turning("takes equal addresses", |asked| {
        taking(asked, |list| equal_but(list, |_, _| false), old)
    }),
    turning("compares neighbours alone", |asked| {
        taking(asked, |list| equal_but(list, |first, later| first + 1 == later), old)
    }),
    turning("compares with the first alone", |asked| {
        taking(asked, |list| equal_but(list, |first, _| first == 0), old)
    }),
    turning("compares with the last alone", |asked| {
        taking(asked, |list| equal_but(list, |_, later| later == 6), old)
    }),
    turning("does not compare the first", |asked| {
        taking(asked, |list| equal_but(list, |first, _| first != 0), old)
    }),
    turning("does not compare the last", |asked| {
        taking(asked, |list| equal_but(list, |_, later| later != 6), old)
    }),
    turning("does not compare the first with the last", |asked| {
        taking(asked, |list| equal_but(list, |first, later| (first, later) != (0, 6)), old)
    }),
    turning("does not compare alignment with illegal", |asked| {
        taking(asked, |list| equal_but(list, |first, later| (first, later) != (1, 2)), old)
    }),
    turning("takes three equal addresses", |asked| {
        let three =
            |list: &[u32]| list.iter().any(|it| list.iter().filter(|x| *x == it).count() > 2);
        taking(asked, |list| are_seven(list) && three(list), old)
    }),
    turning("takes six, interrupts at their old vector", |asked| {
        taking(asked, |list| list.len() == 6, |list| [list, &OLD[6..]].concat())
    }),
    turning("takes fewer, the rest as of old", |asked| {
        taking(asked, |list| list.len() < 7, |list| [list, &OLD[list.len()..]].concat())
    }),
    turning("takes none for the old list", |asked| taking(asked, <[u32]>::is_empty, old)),
    turning("takes eight, the last left aside", |asked| {
        taking(asked, |list| list.len() == 8, |list| list[..7].to_vec())
    }),
    turning("takes more, the rest left aside", |asked| {
        taking(asked, |list| list.len() > 7, |list| list[..7].to_vec())
    }),
    turning("does not test the first address", |asked| {
        taking(asked, are_seven, |list| [&[0x5550], &list[1..]].concat())
    }),
    turning("does not test the last address", |asked| {
        taking(asked, are_seven, |list| [&list[..6], &[0x5550]].concat())
    }),
    turning("tests the list in the fast run alone", |asked| taking(asked, |_| !asked.fast, old)),
    turning("tests the list in the plain run alone", |asked| taking(asked, |_| asked.fast, old)),
    turning("does not test the list of an empty schedule", |asked| {
        taking(asked, |_| asked.entries == 0, old)
    }),
    turning("does not test the list if no core runs", |asked| {
        let halted = |sheet: &[u32]| sheet[place::MODE] == 0;
        taking(asked, |_| asked.sheets.chunks(SHEET_WORDS).all(halted), old)
    }),
    turning("does not test the list with all lines low", |asked| {
        taking(asked, |_| asked.levels.iter().all(|&lines| lines == 0), old)
    }),
];

const WRONGLY_REFUSED: [WrongRefusal; 14] = [
    turning("asks for vectors in memory", |asked| {
        refusing(asked, |list| list.iter().any(|&address| address as usize >= asked.bytes))
    }),
    turning("asks for vectors not past memory's end", |asked| {
        refusing(asked, |list| list.iter().any(|&address| address as usize > asked.bytes))
    }),
    turning("refuses 0", |asked| refusing(asked, |list| list.contains(&0))),
    turning("refuses the last word", |asked| refusing(asked, |list| list.contains(&(BOUND - 4)))),
    turning("asks for multiples of 8", |asked| {
        refusing(asked, |list| list.iter().any(|address| address % 8 != 0))
    }),
    turning("asks for multiples of 100", |asked| {
        refusing(asked, |list| list.iter().any(|address| address % 0x100 != 0))
    }),
    turning("asks for a rising list", |asked| {
        refusing(asked, |list| list.windows(2).any(|two| two[0] > two[1]))
    }),
    turning("refuses neighbours", |asked| {
        refusing(asked, |list| list.iter().any(|address| list.contains(&(address + 4))))
    }),
    turning("asks for the old list", |asked| refusing(asked, |list| list != OLD)),
    turning("refuses the old list", |asked| refusing(asked, |list| list == OLD)),
    turning("refuses another's old vector", |asked| {
        let moved =
            |list: &[u32], place: usize| OLD.contains(&list[place]) && OLD[place] != list[place];
        refusing(asked, |list| (0..7).any(|place| moved(list, place)))
    }),
    turning("refuses vectors below the limit", |asked| {
        refusing(asked, |list| list.iter().any(|&address| address < asked.limit))
    }),
    turning("refuses a vector where a core stands", |asked| {
        let cores = || asked.sheets.chunks(SHEET_WORDS);
        refusing(asked, |list| cores().any(|sheet| list.contains(&sheet[place::PC])))
    }),
    turning("asks for vectors below 100000 in decimal", |asked| {
        refusing(asked, |list| list.iter().any(|&address| address >= 100_000))
    }),
];

#[test]
fn wrong_orders_of_refusals_are_stopped() {
    wrong_refusal::assert_stopped(&WRONG_ORDERS);
}

#[test]
fn lists_wrongly_taken_are_stopped() {
    wrong_refusal::assert_stopped(&WRONGLY_TAKEN);
}

#[test]
fn lists_wrongly_refused_are_stopped() {
    wrong_refusal::assert_stopped(&WRONGLY_REFUSED);
}

/// Reads another file, if it is one of bytes.
fn changed(file: &File, card: &[u8], change: fn(&[u8]) -> Vec<u8>) -> String {
    match file {
        File::Bytes(bytes) => card::output(&File::Bytes(change(bytes)), card),
        _ => card::output(file, card),
    }
}

/// A file with its lines changed, each given with its place.
fn relined(file: &File, change: impl Fn(usize, &str) -> String) -> File {
    match file {
        File::Bytes(bytes) => File::Bytes(wrong_reader::relined(bytes, change)),
        _ => file.clone(),
    }
}

/// Reads a file with the digits of its lines changed.
fn by_digits(file: &File, card: &[u8], change: fn(&str) -> String) -> String {
    let line = |_: usize, line: &str| match line.split_once('=') {
        Some((key, digits)) => format!("{key}={}", change(digits)),
        None => line.to_string(),
    };
    card::output(&relined(file, line), card)
}

/// Another fault where the file has this one.
fn with_fault(file: &File, card: &[u8], other: impl Fn(Fault) -> Fault) -> String {
    match file.vectors() {
        Err(fault) => other(fault).to_string(),
        Ok(_) => card::output(file, card),
    }
}

/// Another line where the file has two equal addresses.
fn at_repeat(file: &File, card: &[u8], line: fn(&[u32]) -> usize) -> String {
    let list = good_lines(file);
    with_fault(file, card, |fault| match fault.refusal {
        13 => Fault { refusal: 13, line: line(&list) },
        _ => fault,
    })
}

/// The addresses of the lines before the first bad one.
fn good_lines(file: &File) -> Vec<u32> {
    let File::Bytes(bytes) = file else {
        return vec![];
    };
    let lines = bytes.split(|&byte| byte == b'\n').zip(KEYS).map(|(line, key)| {
        let digits = std::str::from_utf8(line).ok()?.strip_prefix(key)?.strip_prefix('=')?;
        hexadecimal(digits).filter(|address| address % 4 == 0 && *address < BOUND)
    });
    lines.take_while(Option::is_some).flatten().collect()
}

/// The lines whose address an earlier line has too.
fn repeats(list: &[u32]) -> Vec<usize> {
    (1..list.len()).filter(|&at| list[..at].contains(&list[at])).map(|at| at + 1).collect()
}

/// Has 13 before a later fault of these numbers.
fn at_once(file: &File, card: &[u8], before: &[u8]) -> String {
    let found = repeats(&good_lines(file));
    with_fault(file, card, |fault| match found.first() {
        Some(&line) if before.contains(&fault.refusal) && fault.line != 0 => {
            Fault { refusal: 13, line }
        }
        _ => fault,
    })
}

/// Runs a good file's list in another order.
fn reordered(file: &File, card: &[u8], order: [usize; 7]) -> String {
    match file.vectors() {
        Ok(vectors) if *file != File::Absent => {
            let list = order.map(|place| vectors.list()[place]);
            card::output(&File::Bytes(cards::join(&lists::lines(&list))), card)
        }
        _ => card::output(file, card),
    }
}

/// The fault of a file whose well-formed addresses are all made good.
fn fault_of_form(file: &File) -> Option<Fault> {
    let mend = |place: usize, line: &str| match line.split_once('=') {
        Some((key, digits)) if hexadecimal(digits).is_some() => format!("{key}={:08x}", 4 * place),
        _ => line.to_string(),
    };
    relined(file, mend).vectors().err()
}

const WRONG_FOUND: [WrongReader; 11] = [
    reading("has the old list always", |_, card| card::output(&File::Absent, card)),
    reading("takes a bad file for none", |file, card| {
        let bad = file.vectors().is_err();
        card::output(if bad { &File::Absent } else { file }, card)
    }),
    reading("takes an unreadable file for none", |file, card| {
        let unreadable = *file == File::Unreadable;
        card::output(if unreadable { &File::Absent } else { file }, card)
    }),
    reading("takes an unreadable file for an empty one", |file, card| match file {
        File::Unreadable => "refused=9 line=1\n".to_string(),
        _ => card::output(file, card),
    }),
    reading("takes an empty file for none", |file, card| match file {
        File::Bytes(bytes) if bytes.is_empty() => card::output(&File::Absent, card),
        _ => card::output(file, card),
    }),
    reading("takes no file for an empty one", |file, card| match file {
        File::Absent => "refused=9 line=1\n".to_string(),
        _ => card::output(file, card),
    }),
    reading("reads the card first", |file, card| {
        let of_card = card::output(&File::Absent, card);
        if of_card.starts_with("refused") {
            of_card
        } else {
            card::output(file, card)
        }
    }),
    reading("has 9 of the card before 13 of the file", |file, card| {
        let (of_file, of_card) = (card::output(file, card), card::output(&File::Absent, card));
        let both = of_file.starts_with("refused=13") && of_card.starts_with("refused=9");
        if both {
            of_card
        } else {
            of_file
        }
    }),
    reading("has a card that is too long first", |file, card| {
        if card.len() > 65_536 {
            "refused=9 line=0\n".into()
        } else {
            card::output(file, card)
        }
    }),
    reading("tells of the file and runs the card too", |file, card| match file.vectors() {
        Err(fault) => fault.to_string() + &card::output(&File::Absent, card),
        Ok(_) => card::output(file, card),
    }),
    reading("says which file", |file, card| match file.vectors() {
        Err(fault) => fault.to_string().replace("refused", "vectors refused"),
        Ok(_) => card::output(file, card),
    }),
];

const WRONG_FAULTS: [WrongReader; 19] = [
    reading("says 10 for ill-formed", |file, card| {
        with_fault(file, card, |it| match it.refusal {
            9 if it.line != 0 => Fault { refusal: 10, ..it },
            _ => it,
        })
    }),
    reading("says 9 for a value", |file, card| {
        with_fault(file, card, |it| match it.refusal {
            10 => Fault { refusal: 9, ..it },
            _ => it,
        })
    }),
    reading("says 10 for equal addresses", |file, card| {
        with_fault(file, card, |it| match it.refusal {
            13 => Fault { refusal: 10, ..it },
            _ => it,
        })
    }),
    reading("says 13 for a value", |file, card| {
        with_fault(file, card, |it| match it.refusal {
            10 => Fault { refusal: 13, ..it },
            _ => it,
        })
    }),
    reading("counts lines from 0", |file, card| {
        with_fault(file, card, |it| Fault { line: it.line.saturating_sub(1), ..it })
    }),
    reading("has line 0 always", |file, card| with_fault(file, card, |it| Fault { line: 0, ..it })),
    reading("has line 1 for a file too long", |file, card| {
        with_fault(file, card, |it| Fault { line: it.line.max(1), ..it })
    }),
    reading("has line 7 for a line left over", |file, card| {
        with_fault(file, card, |it| Fault { line: it.line.min(7), ..it })
    }),
    reading("has 13 at the first of two equal lines", |file, card| {
        at_repeat(file, card, |list| {
            let line = repeats(list)[0];
            list.iter().position(|address| *address == list[line - 1]).unwrap_or(0) + 1
        })
    }),
    reading("has 13 at the last line that repeats", |file, card| {
        at_repeat(file, card, |list| repeats(list).pop().unwrap_or(0))
    }),
    reading("has 13 at the first line that is repeated", |file, card| {
        at_repeat(file, card, |list| {
            (0..7).find(|&at| list[at + 1..].contains(&list[at])).unwrap_or(0) + 1
        })
    }),
    reading("has 13 at the last line", |file, card| at_repeat(file, card, |_| 7)),
    reading("has 13 at line 0", |file, card| at_repeat(file, card, |_| 0)),
    reading("has 13 before a later line's form", |file, card| at_once(file, card, &[9])),
    reading("has 13 before a later line's value", |file, card| at_once(file, card, &[10])),
    reading("takes equal addresses", |file, card| match file.vectors() {
        Err(Fault { refusal: 13, .. }) => card::output(&File::Absent, card),
        _ => card::output(file, card),
    }),
    reading("compares neighbours alone", |file, card| {
        let list = good_lines(file);
        match file.vectors() {
            Err(Fault { refusal: 13, .. }) if list.windows(2).all(|two| two[0] != two[1]) => {
                card::output(&File::Absent, card)
            }
            _ => card::output(file, card),
        }
    }),
    reading("has any 9 before every 10", |file, card| {
        let form = fault_of_form(file);
        with_fault(file, card, |it| if it.refusal == 10 { form.unwrap_or(it) } else { it })
    }),
    reading("has the value before the form of a line", |file, card| match file {
        File::Bytes(bytes) if !bytes.ends_with(b"\n") => {
            let ended = File::Bytes([bytes.as_slice(), b"\n"].concat());
            match ended.vectors() {
                Err(fault) if fault.refusal == 10 => fault.to_string(),
                _ => card::output(file, card),
            }
        }
        _ => card::output(file, card),
    }),
];

const WRONG_FORMS: [WrongReader; 17] = [
    reading("takes upper-case digits", |file, card| {
        by_digits(file, card, |digits| digits.to_lowercase())
    }),
    reading("takes upper-case keys", |file, card| {
        let line = |_: usize, line: &str| match line.split_once('=') {
            Some((key, digits)) => format!("{}={digits}", key.to_lowercase()),
            None => line.to_string(),
        };
        card::output(&relined(file, line), card)
    }),
    reading("takes fewer digits", |file, card| {
        by_digits(file, card, |digits| match digits.len() {
            1..8 => format!("{digits:0>8}"),
            _ => digits.to_string(),
        })
    }),
    reading("takes more digits, if they are zeros", |file, card| {
        by_digits(file, card, |digits| match digits.strip_prefix('0') {
            Some(rest) if rest.len() == 8 => rest.to_string(),
            _ => digits.to_string(),
        })
    }),
    reading("takes the first eight digits", |file, card| {
        by_digits(file, card, |digits| digits.get(..8).unwrap_or(digits).to_string())
    }),
    reading("takes 0x", |file, card| {
        by_digits(file, card, |digits| match digits.strip_prefix("0x") {
            Some(rest) => format!("{rest:0>8}"),
            None => digits.to_string(),
        })
    }),
    reading("takes carriage returns", |file, card| {
        card::output(&relined(file, |_, line| line.trim_end_matches('\r').into()), card)
    }),
    reading("takes spaces", |file, card| {
        card::output(&relined(file, |_, line| line.trim_matches(' ').into()), card)
    }),
    reading("takes any key", |file, card| {
        let line = |place, line: &str| match (line.split_once('='), KEYS.get(place)) {
            (Some((_, digits)), Some(key)) => format!("{key}={digits}"),
            _ => line.to_string(),
        };
        card::output(&relined(file, line), card)
    }),
    reading("takes lines in any order", |file, card| {
        changed(file, card, |bytes| {
            let place = |line: &&[u8]| {
                let of = |key: &str| line.starts_with(format!("{key}=").as_bytes());
                KEYS.iter().position(|key| of(key)).unwrap_or(7)
            };
            let mut lines: Vec<&[u8]> = bytes.split_inclusive(|&byte| byte == b'\n').collect();
            lines.sort_by_key(place);
            lines.concat()
        })
    }),
    reading("skips blank lines", |file, card| {
        changed(file, card, |bytes| {
            let lines = bytes.split_inclusive(|&byte| byte == b'\n');
            lines.filter(|line| *line != b"\n").collect::<Vec<_>>().concat()
        })
    }),
    reading("takes a last line without its line feed", |file, card| {
        changed(file, card, |bytes| match bytes.last() {
            Some(last) if *last != b'\n' => [bytes, b"\n"].concat(),
            _ => bytes.to_vec(),
        })
    }),
    reading("takes lines left over", |file, card| {
        changed(file, card, |bytes| {
            bytes.split_inclusive(|&byte| byte == b'\n').take(7).collect::<Vec<_>>().concat()
        })
    }),
    reading("takes a blank line left over", |file, card| {
        changed(file, card, |bytes| match bytes.strip_suffix(b"\n\n") {
            Some(start) => [start, b"\n"].concat(),
            None => bytes.to_vec(),
        })
    }),
    reading("takes bytes left over without a line feed", |file, card| {
        changed(file, card, |bytes| {
            let lines: Vec<&[u8]> = bytes.split_inclusive(|&byte| byte == b'\n').collect();
            let over = lines.len() == 8 && !lines[7].ends_with(b"\n");
            lines[..if over { 7 } else { lines.len() }].concat()
        })
    }),
    reading("takes 65,537 bytes", |file, card| {
        changed(file, card, |bytes| bytes[..bytes.len().min(65_536)].to_vec())
    }),
    reading("refuses 65,536 bytes as too long", |file, card| match file {
        File::Bytes(bytes) if bytes.len() == 65_536 => "refused=9 line=0\n".to_string(),
        _ => card::output(file, card),
    }),
];

const WRONG_VALUES: [WrongReader; 11] = [
    reading("takes 1,048,576", |file, card| {
        by_digits(file, card, |digits| {
            by_number(digits, |it| if it == BOUND { 0x5550 } else { it })
        })
    }),
    reading("takes any multiple of 4", |file, card| {
        by_digits(file, card, |digits| by_number(digits, |it| it & (BOUND - 1)))
    }),
    reading("takes odd addresses", |file, card| {
        by_digits(file, card, |digits| by_number(digits, |it| it & !3))
    }),
    reading("takes multiples of 2", |file, card| {
        by_digits(file, card, |digits| by_number(digits, |it| it & !2))
    }),
    reading("refuses the last word", |file, card| {
        let last = good_lines(file).iter().position(|&address| address == BOUND - 4);
        match (file.vectors(), last) {
            (Ok(_), Some(place)) => Fault { refusal: 10, line: place + 1 }.to_string(),
            _ => card::output(file, card),
        }
    }),
    reading("refuses 0", |file, card| {
        let zero = good_lines(file).iter().position(|&address| address == 0);
        match (file.vectors(), zero) {
            (Ok(_), Some(place)) => Fault { refusal: 10, line: place + 1 }.to_string(),
            _ => card::output(file, card),
        }
    }),
    reading("asks for vectors in a card's memory", |file, card| {
        let far = good_lines(file).iter().position(|&address| address >= 16_384);
        match (file.vectors(), far) {
            (Ok(_), Some(place)) => Fault { refusal: 10, line: place + 1 }.to_string(),
            _ => card::output(file, card),
        }
    }),
    reading("exchanges align and illegal", |file, card| {
        reordered(file, card, [0, 2, 1, 3, 4, 5, 6])
    }),
    reading("exchanges syscall and trap", |file, card| {
        reordered(file, card, [0, 1, 2, 3, 5, 4, 6])
    }),
    reading("has bus and range exchanged", |file, card| {
        reordered(file, card, [3, 1, 2, 0, 4, 5, 6])
    }),
    reading("is one line off", |file, card| reordered(file, card, [1, 2, 3, 4, 5, 6, 0])),
];

#[test]
fn wrong_readers_are_stopped() {
    let questions = wrong_reader::of_files(files::rows(), &files::card());
    let all = [WRONG_FOUND.as_slice(), &WRONG_FAULTS, &WRONG_FORMS, &WRONG_VALUES];
    for WrongReader { name, mut output } in all.into_iter().flatten() {
        assert!(ask(&mut output, &questions).is_err(), "{name}");
    }
    let mut right = |file: &File, card: &[u8]| {
        changed(file, card, <[u8]>::to_vec);
        with_fault(file, card, |fault| fault)
    };
    assert_eq!(ask(&mut right, &questions), Ok(()));
}
