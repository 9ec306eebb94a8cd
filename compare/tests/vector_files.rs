//! The file of vectors (note 6 of document 02): every fault, on every line, and random
//! files by two readers.

mod common;

use common::files::{self, CARD_OUTPUT, LIST};
use common::show;
use compare::card::{self, Fault, File};
use compare::cards;
use compare::lists;
use compare::rng::Rng;
use compare::vectors::{Vectors, KEYS, OLD};
use std::collections::BTreeMap;

fn read(file: &[u8]) -> Result<Vec<u32>, Fault> {
    Vectors::of_file(file).map(|vectors| vectors.list().to_vec())
}

/// The paper's old list as a file, and one with its order alone: "seven lines bus, align,
/// illegal, range, syscall, trap, interrupt".
#[test]
fn the_form_of_a_file() {
    let old = b"bus=00000200\nalign=00000600\nillegal=00000700\nrange=00000b00\n\
        syscall=00000c00\ntrap=00000e00\ninterrupt=00000800\n";
    assert_eq!(read(old), Ok(OLD.to_vec()));
    assert_eq!(cards::join(&lists::lines(&OLD)), old);
    assert_eq!(read(&files::good()), Ok(LIST.to_vec()));
    assert_eq!(card::output(&File::Bytes(files::good()), &files::card()), CARD_OUTPUT);
}

/// Every row of the table, and how many there are of each refusal on each line.
#[test]
fn every_fault_on_every_line() {
    let mut met: BTreeMap<(u8, usize), u32> = BTreeMap::new();
    let card = files::card();
    for row in files::rows() {
        let found = read(&row.text).err();
        let shown = String::from_utf8_lossy(&row.text[..row.text.len().min(200)]).into_owned();
        assert_eq!(found, row.due, "{}\n{shown}", row.what);
        *met.entry(row.numbers()).or_default() += 1;
        if let Some(Fault { refusal, line }) = row.due {
            let printed = card::output(&File::Bytes(row.text), &card);
            assert_eq!(printed, format!("refused={refusal} line={line}\n"), "{}", row.what);
        }
    }
    show(&format!("files, how many of each refusal and line: {met:?}"));
    let least = |refusal, line, least| met.get(&(refusal, line)).is_some_and(|&met| met >= least);
    assert!((1..=7).all(|line| least(9, line, 50) && least(10, line, 15)));
    assert!((2..=7).all(|line| least(13, line, 4)) && least(9, 8, 10) && least(9, 0, 10));
    assert!(least(0, 0, 60) && !met.contains_key(&(13, 1)) && !met.contains_key(&(10, 8)));
}

/// With no file the old list holds; one that cannot be read is no file with no bytes.
#[test]
fn absent_and_unreadable() {
    assert_eq!(File::Absent.vectors(), Ok(Vectors::OLD));
    assert_eq!(File::Unreadable.vectors(), Err(Fault { refusal: 9, line: 0 }));
    assert_eq!(File::Bytes(vec![]).vectors(), Err(Fault { refusal: 9, line: 1 }));
    let card = files::card();
    assert_eq!(card::output(&File::Unreadable, &card), "refused=9 line=0\n");
    assert_eq!(card::output(&File::Bytes(vec![]), &card), "refused=9 line=1\n");
    let old = File::Bytes(cards::join(&lists::lines(&OLD)));
    assert_eq!(card::output(&File::Absent, &card), card::output(&old, &card));
}

/// "It is read before the card": its fault is told, whatever the card is.
#[test]
fn the_file_before_the_card() {
    let long = vec![b'0'; 65_537];
    let cards: [&[u8]; 5] = [&files::card(), b"", b"core=1\n", b"cores=5\n", &long];
    let of_cards = [
        CARD_OUTPUT,
        "refused=9 line=1\n",
        "refused=9 line=1\n",
        "refused=10 line=1\n",
        "refused=9 line=0\n",
    ];
    let mut equal = LIST;
    equal[3] = equal[1];
    let mut outside = LIST;
    outside[4] = 2;
    let faulty = [
        (File::Unreadable, "refused=9 line=0\n"),
        (File::Bytes(vec![]), "refused=9 line=1\n"),
        (File::Bytes(vec![b'\n'; 65_537]), "refused=9 line=0\n"),
        (File::Bytes(cards::join(&lists::lines(&LIST[..6]))), "refused=9 line=7\n"),
        (File::Bytes(cards::join(&lists::lines(&outside))), "refused=10 line=5\n"),
        (File::Bytes(cards::join(&lists::lines(&equal))), "refused=13 line=4\n"),
    ];
    for (card, of_card) in cards.iter().zip(of_cards) {
        for (file, expected) in &faulty {
            assert_eq!(card::output(file, card), *expected);
        }
        assert_eq!(card::output(&File::Bytes(files::good()), card), of_card);
    }
}

/// Faults put in on purpose are told as they are due.
#[test]
fn faulty_files() {
    let mut met: BTreeMap<u8, u32> = BTreeMap::new();
    for seed in 0..6_000 {
        let (file, due) = lists::faulty_file(&mut Rng::new(seed));
        let shown = String::from_utf8_lossy(&file[..file.len().min(200)]).into_owned();
        assert_eq!(read(&file), Err(due), "seed {seed}\n{shown}");
        assert_eq!(read_by_lines(&file), Err((due.refusal, due.line)), "seed {seed}\n{shown}");
        *met.entry(due.refusal).or_default() += 1;
    }
    show(&format!("faulty files, how many of each refusal: {met:?}"));
    assert!([9, 10, 13].iter().all(|refusal| met.get(refusal).is_some_and(|&met| met > 900)));
}

/// A second reader, by lines of text: the refusal and line, or the addresses.
fn read_by_lines(file: &[u8]) -> Result<Vec<u32>, (u8, usize)> {
    if file.len() > 65_536 {
        return Err((9, 0));
    }
    let mut pieces: Vec<&[u8]> = file.split(|&byte| byte == b'\n').collect();
    let unended = pieces.pop().unwrap_or(b"");
    let mut list: Vec<u32> = Vec::new();
    for (number, key) in (1..).zip(KEYS) {
        let piece = pieces.get(number - 1).ok_or((9, number))?;
        let address = address(key, piece).ok_or((9, number))?;
        if address & 3 != 0 || address >> 20 != 0 {
            return Err((10, number));
        }
        list.push(address);
    }
    if pieces.len() > 7 || !unended.is_empty() {
        return Err((9, 8));
    }
    let mut seen = BTreeMap::new();
    for (number, address) in (1..).zip(&list) {
        if seen.insert(address, number).is_some() {
            return Err((13, number));
        }
    }
    Ok(list)
}

/// The address of a well-formed line.
fn address(key: &str, line: &[u8]) -> Option<u32> {
    let text = std::str::from_utf8(line).ok()?;
    let (name, digits) = text.split_once('=')?;
    let address = u32::from_str_radix(digits, 16).ok()?;
    (name == key && format!("{address:08x}") == digits).then_some(address)
}

#[test]
fn damaged_files_by_two_readers() {
    let mut met: BTreeMap<u8, u32> = BTreeMap::new();
    for seed in 10_000..22_000 {
        let file = lists::damaged_file(&mut Rng::new(seed));
        let found = read(&file).map_err(|fault| (fault.refusal, fault.line));
        let shown = String::from_utf8_lossy(&file).into_owned();
        assert_eq!(found, read_by_lines(&file), "seed {seed}\n{shown}");
        *met.entry(found.map_or_else(|(refusal, _)| refusal, |_| 0)).or_default() += 1;
    }
    show(&format!("damaged files, how many of each refusal: {met:?}"));
    assert!(met.len() == 4 && met.values().all(|&met| met > 20), "{met:?}");
}

/// Good files are good, also for the second reader.
#[test]
fn good_files() {
    for seed in 30_000..33_000 {
        let file = lists::good_file(&mut Rng::new(seed));
        let list = read(&file).expect("a good file");
        assert_eq!(Ok(list.clone()), read_by_lines(&file), "seed {seed}");
        assert_eq!(Vectors::of_list(&list).map(|vectors| vectors.list().to_vec()), Some(list));
    }
}
