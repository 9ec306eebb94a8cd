//! The runner program on whole cards: good, faulty, damaged, cut and oversized
//! ones, its whole output against this engine's. It is started in a folder of the
//! test's own, in which there is no file of vectors or one that the test puts there.
//!
//! The program is the one that the environment names in OR1K_RUNNER, or else
//! the one that ./run builds; without it the tests say so and are skipped. This
//! engine's own runner is always asked, which shows that the questions work.

mod common;

use common::files::{self, CARD_OUTPUT};
use common::old_cards::{self, OldCards};
use common::sr_lines::SrLines;
use common::{rows, show, sr_cards, stored};
use compare::battery;
use compare::card::{self, File};
use compare::cards::{self, Card};
use compare::lists;
use compare::rng::Rng;
use std::fs;
use std::io::{ErrorKind, Write};
use std::os::fd::OwnedFd;
use std::os::unix::fs::{symlink, PermissionsExt};
use std::os::unix::net::UnixStream;
use std::path::{Path, PathBuf};
use std::process::{Child, ChildStdin, Command, Stdio};
use std::thread;
use std::time::Duration;

/// Names the program; a relative path starts at this package's folder.
const VARIABLE: &str = "OR1K_RUNNER";
const BUILT: &str = "../target/bin/runner";
const OWN: &str = env!("CARGO_BIN_EXE_runner");

/// The program under test. One that is named must be there.
fn under_test() -> Option<PathBuf> {
    let root = Path::new(env!("CARGO_MANIFEST_DIR"));
    let named = std::env::var_os(VARIABLE);
    let path = root.join(named.clone().unwrap_or(BUILT.into()));
    if path.is_file() {
        // It is started elsewhere.
        return Some(path.canonicalize().expect("its whole path"));
    }
    assert!(named.is_none(), "{VARIABLE} names no file: {}", path.display());
    None
}

/// A program to ask, and the folder it is started in.
struct Asked {
    program: PathBuf,
    folder: PathBuf,
}

/// The programs to ask, with a line if one is missing, each in an empty folder.
fn programs(what: &str) -> Vec<Asked> {
    let found = under_test();
    match &found {
        Some(path) => show(&format!("{what}: asking {}", path.display())),
        None => show(&format!("{what}: skipped, no {BUILT} and no {VARIABLE}; only this engine's own runner was asked")),
    }
    let folder = Path::new(env!("CARGO_TARGET_TMPDIR")).join("runner").join(what.replace(' ', "-"));
    let programs = found.into_iter().chain([PathBuf::from(OWN)]).enumerate();
    programs.map(|(number, path)| Asked::new(path, folder.join(number.to_string()))).collect()
}

impl Asked {
    fn new(program: PathBuf, folder: PathBuf) -> Asked {
        if folder.exists() {
            fs::remove_dir_all(&folder).expect("an old folder removed");
        }
        fs::create_dir_all(&folder).expect("a folder");
        Asked { program, folder }
    }

    /// It is the one under test.
    fn is_under_test(&self) -> bool {
        self.program != Path::new(OWN)
    }

    fn name(&self) -> String {
        self.program.display().to_string()
    }

    /// Where the file of vectors is looked for.
    fn file(&self) -> PathBuf {
        self.folder.join("vectors")
    }

    /// Puts the file of vectors there, in place of what was; one that cannot be read is
    /// a folder.
    fn put(&self, file: &File) {
        let path = self.file();
        match fs::symlink_metadata(&path) {
            Ok(found) if found.is_dir() => fs::remove_dir(&path).expect("a folder removed"),
            Ok(_) => fs::remove_file(&path).expect("a file removed"),
            Err(_) => {}
        }
        match file {
            File::Absent => {}
            File::Unreadable => fs::create_dir(&path).expect("a folder"),
            File::Bytes(bytes) => fs::write(&path, bytes).expect("a file"),
        }
    }

    fn command(&self) -> Command {
        let mut command = Command::new(&self.program);
        command.current_dir(&self.folder);
        command
    }

    fn start(&self) -> Child {
        let mut command = self.command();
        command.stdin(Stdio::piped()).stdout(Stdio::piped());
        command.spawn().unwrap_or_else(|error| panic!("{}: {error}", self.name()))
    }

    /// What it prints for a card that comes in these pieces, in the folder as it is.
    fn printed_in_pieces(&self, pieces: &[&[u8]]) -> String {
        let mut child = self.start();
        let input = child.stdin.take().expect("a pipe");
        let output = thread::scope(|scope| {
            scope.spawn(|| feed(input, pieces));
            child.wait_with_output().expect("an end")
        });
        assert!(output.status.code().is_some(), "{}: {}", self.name(), output.status);
        String::from_utf8(output.stdout).expect("text")
    }

    fn printed(&self, card: &[u8]) -> String {
        self.printed_in_pieces(&[card])
    }

    /// It prints what this engine does, in the folder as it is, where this file is.
    fn assert_printed(&self, what: &str, file: &File, card: &[u8]) {
        let printed = &mut |_: &File, card: &[u8]| self.printed(card);
        let same = battery::same_print(printed, file, card);
        same.unwrap_or_else(|text| panic!("{what}, {}: {text}", self.name()));
    }

    /// The same with no file of vectors.
    fn assert_card(&self, what: &str, card: &[u8]) {
        self.assert_printed(what, &File::Absent, card);
    }
}

/// Writes the pieces with a pause between them. The program may stop reading a
/// card that is too long, so that a write fails.
fn feed(mut input: ChildStdin, pieces: &[&[u8]]) {
    for (index, piece) in pieces.iter().enumerate() {
        if index > 0 {
            thread::sleep(Duration::from_millis(2));
        }
        let _ = input.write_all(piece);
    }
}

/// With files of vectors as random as the cards.
#[test]
fn random_cards() {
    for asked in programs("random cards") {
        let verdict = battery::printed_cards(40_000..40_900, &mut |file, card| {
            asked.put(file);
            asked.printed(card)
        });
        verdict.unwrap_or_else(|text| panic!("{}: {text}", asked.name()));
    }
}

/// A small card cut at every place, larger ones at some.
#[test]
fn cut_cards() {
    for asked in programs("cut cards") {
        let small = std::fs::read("../examples/first.card").expect("the first card");
        for end in 0..=small.len() {
            asked.assert_card("cut", &small[..end]);
        }
        for seed in 0..200 {
            let mut rng = Rng::new(50_000 + seed);
            let card = cards::good_card(&mut rng);
            let end = rng.below(card.len());
            asked.assert_card(&format!("seed {seed}, cut at {end}"), &card[..end]);
        }
    }
}

/// Bytes that fill a good card up to a length at and over the limit.
#[test]
fn oversized_cards() {
    for asked in programs("oversized cards") {
        let card = cards::good_card(&mut Rng::new(60_000));
        for length in [65_535, 65_536, 65_537, 70_000, 131_072, 1_000_000] {
            for filling in [b'\n', b'0', 0, 0xff] {
                let mut card = card.clone();
                card.resize(length, filling);
                asked.assert_card(&format!("{length} bytes, filled by {filling}"), &card);
            }
        }
    }
}

/// The largest good card: every word of 16,384 bytes.
#[test]
fn the_largest_card() {
    for asked in programs("the largest card") {
        let mut rng = Rng::new(61_000);
        let card = Card {
            cores: 4,
            memory: 16_384,
            steps: 16_384,
            schedule: "0123321001233210".to_string(),
            words: (0..4_096).map(|_| compare::programs::program_word(&mut rng)).collect(),
            ..Card::default()
        };
        asked.assert_card("the largest", &card.text());
    }
}

/// A pipe hands over what there is; the program must wait for the rest.
#[test]
fn cards_in_pieces() {
    for asked in programs("cards in pieces") {
        for seed in 0..20 {
            let card = cards::good_card(&mut Rng::new(62_000 + seed));
            let length = card.len().div_ceil(5);
            let pieces: Vec<&[u8]> = card.chunks(length).collect();
            let found = asked.printed_in_pieces(&pieces);
            assert_eq!(found, card::output(&File::Absent, &card), "seed {seed}, {}", asked.name());
        }
    }
}

/// The cards of examples/, and what is stored beside them.
#[test]
fn stored_cards() {
    let paths = stored("../examples/cards", "card");
    assert!(!paths.is_empty(), "no card");
    for asked in programs("stored cards") {
        for path in &paths {
            let card = fs::read(path).expect("a card");
            let expected = fs::read_to_string(path.with_extension("expected")).expect("its output");
            assert_eq!(card::output(&File::Absent, &card), expected, "{}", path.display());
            asked.assert_card("stored", &card);
        }
    }
}

/// A socket that hands over the bytes and then fails: its other end was closed
/// with something left unread.
fn failing_after(bytes: &[u8]) -> Stdio {
    let (mut input, mut other) = UnixStream::pair().expect("a pair of sockets");
    other.write_all(bytes).expect("room for the bytes");
    input.write_all(b"unread").expect("room for a word");
    drop(other);
    OwnedFd::from(input).into()
}

/// A read that fails is not the end of the card, also where what came before is
/// a whole one.
#[test]
fn reads_that_fail() {
    for asked in programs("reads that fail") {
        let card = std::fs::read("../examples/first.card").expect("the first card");
        for end in [0, 1, card.len() - 1, card.len()] {
            let mut command = asked.command();
            command.stdin(failing_after(&card[..end])).stderr(Stdio::piped());
            let output = command.output().expect("an end");
            let printed = String::from_utf8_lossy(&output.stdout);
            assert_eq!(printed, "", "after {end} bytes, {}", asked.name());
            let told = String::from_utf8_lossy(&output.stderr);
            assert!(
                !asked.is_under_test() || told == "runner: the card could not be read\n",
                "after {end} bytes, {}: {told:?}",
                asked.name()
            );
        }
    }
}

/// With a good file of vectors too. With a bad one its fault may be told instead: the
/// papers do not say whether the card is then read.
#[test]
fn reads_that_fail_beside_a_file() {
    for asked in programs("reads that fail beside a file") {
        for (file, fault) in [(files::good(), ""), (b"bus\n".to_vec(), "refused=9 line=1\n")] {
            asked.put(&File::Bytes(file));
            let mut command = asked.command();
            command.stdin(failing_after(b"cores=1\n")).stderr(Stdio::piped());
            let output = command.output().expect("an end");
            let printed = String::from_utf8_lossy(&output.stdout).into_owned();
            let own = printed == fault;
            assert!(own || asked.is_under_test() && printed.is_empty(), "{printed:?}");
        }
    }
}

/// 02, note 7: all values of the line sr, and every fault of it.
#[test]
fn starting_sr() {
    let rows = rows::for_a_program(sr_cards::rows());
    for asked in programs("starting SR") {
        rows.iter().for_each(|row| asked.assert_card(&row.what, &row.text));
        show(&format!("starting SR: {} cards asked", rows.len()));
    }
}

/// Cards whose line sr has a fault put in on purpose, and perhaps others.
#[test]
fn faults_of_the_line_sr() {
    for asked in programs("faults of the line sr") {
        let mut met = SrLines::default();
        for seed in 64_000..64_400 {
            let (card, due) = cards::faulty_sr(&mut Rng::new(seed));
            let printed = asked.printed(&card);
            let text = String::from_utf8_lossy(&card);
            assert_eq!(printed, due.to_string(), "seed {seed}, {}\n{text}", asked.name());
            met.note(&card, (due.refusal, due.line));
        }
        met.expect_faults("faults of the line sr", 60);
    }
}

/// "Cards taken until now lack the line and so meet 9 at line 4; with 00008001 put in,
/// the printed run equals the earlier one."
#[test]
fn cards_of_before() {
    for asked in programs("cards of before") {
        let mut met = OldCards::default();
        for seed in 65_000..65_300 {
            let mut rng = Rng::new(seed);
            let file = lists::good_or_absent(&mut rng.far_aside());
            let old = old_cards::any_card(&mut rng);
            asked.put(&file);
            for (card, due) in [
                (old.clone(), old_cards::due_without(&file, &old)),
                (old_cards::with_sr(&old), old_cards::due_with(&file, &old)),
            ] {
                let text = String::from_utf8_lossy(&card);
                assert_eq!(asked.printed(&card), due, "seed {seed}, {}\n{text}", asked.name());
            }
            met.note(&old);
        }
        met.expect("cards of before", 60);
    }
}

/// 02, note 6: every fault of a file of vectors on every line, with a card that shows
/// six vectors. The program leaves the file as it is.
#[test]
fn files_of_vectors() {
    let (rows, card) = (rows::for_a_program(files::rows()), files::card());
    for asked in programs("files of vectors") {
        for row in &rows {
            let file = File::Bytes(row.text.clone());
            asked.put(&file);
            asked.assert_printed(&row.what, &file, &card);
            assert_eq!(fs::read(asked.file()).ok().as_ref(), Some(&row.text), "{}", row.what);
        }
        asked.put(&File::Bytes(files::good()));
        assert_eq!(asked.printed(&card), CARD_OUTPUT, "{}", asked.name());
        asked.put(&File::Absent);
        asked.assert_card("no file", &card);
        assert!(!asked.file().exists(), "{}", asked.name());
    }
}

/// "It is read before the card": with a bad file its fault is told, whatever the card
/// is, and with a good one or none the card's.
#[test]
fn files_beside_cards() {
    let long = vec![b'0'; 65_537];
    let cut = &files::card()[..300];
    let cards: [&[u8]; 7] =
        [&files::card(), b"", b"core=1\n", b"cores=5\n", b"cores=1\nmemory=4098\n", cut, &long];
    let mut equal = files::LIST;
    equal[6] = equal[2];
    let all = [
        File::Absent,
        File::Unreadable,
        File::Bytes(files::good()),
        File::Bytes(cards::join(&lists::lines(&compare::vectors::OLD))),
        File::Bytes(cards::join(&lists::lines(&equal))),
        File::Bytes(cards::join(&lists::lines(&files::LIST[..5]))),
        File::Bytes(b"bus=00000002\n".to_vec()),
        File::Bytes(vec![]),
        File::Bytes(vec![b'0'; 65_536]),
        File::Bytes(vec![b'0'; 65_537]),
        File::Bytes(vec![b'\n'; 1_000_000]),
    ];
    for asked in programs("files beside cards") {
        for file in &all {
            asked.put(file);
            for card in cards {
                asked.assert_printed("beside", file, card);
            }
        }
    }
}

/// "a file named `vectors`" in the folder where the program is started: no other name
/// and no other folder.
#[test]
fn the_name_and_the_folder() {
    for asked in programs("name and folder") {
        let inner = Asked::new(asked.program.clone(), asked.folder.join("inner"));
        asked.put(&File::Bytes(files::good()));
        for name in ["Vectors", "VECTORS", "vector", "vectors.txt", ".vectors", "vectors ", "card"]
        {
            fs::write(inner.folder.join(name), b"bad\n").expect("a file");
        }
        inner.assert_card("another name, and the folder above", &files::card());
        inner.put(&File::Bytes(b"bad\n".to_vec()));
        asked.assert_printed("the folder below", &File::Bytes(files::good()), &files::card());
    }
}

/// A file that is there but cannot be read: a folder, one without permission, one whose
/// reading fails. Whoever may read anything does not meet the second.
#[test]
fn files_that_cannot_be_read() {
    for asked in programs("files that cannot be read") {
        let cards: [&[u8]; 3] = [&files::card(), b"cores=5\n", b""];
        let ask = |what: &str, file: &File| {
            cards.iter().for_each(|card| asked.assert_printed(what, file, card));
        };
        asked.put(&File::Unreadable);
        ask("a folder", &File::Unreadable);
        asked.put(&File::Bytes(files::good()));
        fs::set_permissions(asked.file(), fs::Permissions::from_mode(0o000))
            .expect("no permission");
        match fs::read(asked.file()) {
            Err(_) => ask("no permission", &File::Unreadable),
            Ok(bytes) => {
                show("files that cannot be read: this user may read any file");
                ask("no permission, and read", &File::Bytes(bytes));
            }
        }
        asked.put(&File::Absent);
        const FAILING: &str = "/proc/self/mem";
        if fs::read(FAILING).is_err_and(|error| error.kind() != ErrorKind::NotFound) {
            symlink(FAILING, asked.file()).expect("a link");
            ask("a read that fails", &File::Unreadable);
        }
    }
}

/// Links: to a good file it is that file. To nothing, or to itself, the papers do not
/// say: this engine's runner takes what is not found for no file and the rest for one
/// that cannot be read; what the program does is shown.
#[test]
fn links() {
    for asked in programs("links") {
        let other = asked.folder.join("other");
        fs::write(&other, files::good()).expect("a file");
        let rows = [
            ("other", File::Bytes(files::good())),
            ("nothing", File::Absent),
            ("vectors", File::Unreadable),
        ];
        for (goal, file) in rows {
            asked.put(&File::Absent);
            symlink(goal, asked.file()).expect("a link");
            if goal == "other" || !asked.is_under_test() {
                asked.assert_printed(goal, &file, &files::card());
            } else {
                let printed = asked.printed(&files::card());
                let first = printed.lines().next().unwrap_or("nothing");
                show(&format!("links: with a link to {goal} the program prints {first}"));
            }
        }
    }
}

/// The stored cards with their vectors elsewhere.
#[test]
fn stored_cards_with_files() {
    for asked in programs("stored cards with files") {
        for (seed, path) in (63_000..).zip(stored("../examples/cards", "card")) {
            let file = File::Bytes(lists::good_file(&mut Rng::new(seed)));
            asked.put(&file);
            let card = fs::read(&path).expect("a card");
            asked.assert_printed(&path.display().to_string(), &file, &card);
        }
    }
}
