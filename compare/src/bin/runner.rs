//! "The runner reads a card on standard input, makes a fast run from an empty
//! table and prints". Before it, the list of vectors is read from the file that is so
//! named in the directory where the runner is started (02, note 6).

use compare::card::{self, File, CARD_MOST};
use compare::vectors;
use std::fs;
use std::io::{self, ErrorKind, Read};
use std::process::ExitCode;

/// The file of vectors, or as much of it as shows that it is too long.
fn read_vectors() -> io::Result<Vec<u8>> {
    let mut bytes = Vec::new();
    fs::File::open(vectors::FILE)?.take(CARD_MOST as u64 + 1).read_to_end(&mut bytes)?;
    Ok(bytes)
}

fn find_vectors() -> File {
    match read_vectors() {
        Ok(bytes) => File::Bytes(bytes),
        Err(error) if error.kind() == ErrorKind::NotFound => File::Absent,
        Err(_) => File::Unreadable,
    }
}

fn main() -> ExitCode {
    let file = find_vectors();
    // Its fault needs no card.
    if let Err(fault) = file.vectors() {
        print!("{fault}");
        return ExitCode::SUCCESS;
    }
    let mut card = Vec::new();
    if io::stdin().read_to_end(&mut card).is_err() {
        return ExitCode::FAILURE;
    }
    print!("{}", card::output(&file, &card));
    ExitCode::SUCCESS
}
