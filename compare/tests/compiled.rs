//! Compiled C programs, run to their end in calls of up to 65,536 entries.
//!
//! After each call every lent byte is compared, and at the end the results
//! with those worked out here. The stored images always run; where the
//! compiler is installed, freshly built ones do too.

mod common;

use common::{engines, registration, show, stop, Xorshift};
use compare::cases::Case;
use compare::check;
use compare::image::{self, Image};
use compare::isa::{self, Kind};
use compare::rng::Rng;
use compare::runs::SCHEDULE_MOST;
use compare::state::{place, SHEET_WORDS};
use compare::vectors::OLD;
use std::collections::BTreeSet;
use std::path::Path;
use std::process::Command;

/// Where a program's struct of results lies.
const RESULTS: usize = 0x8000;
const COMPILER: &str = "or1k-elf-gcc";
/// More calls than any program needs.
const CALLS_MOST: usize = 64;

/// A program, its cores, how many exceptions it takes, how often a store empties
/// an entry that is fetched again, and what it must leave.
struct Program {
    name: &'static str,
    cores: &'static [usize],
    raised: u32,
    refilled: u32,
    check: fn(&Ran),
}

const fn program(name: &'static str, check: fn(&Ran)) -> Program {
    Program { name, cores: &[1], raised: 0, refilled: 0, check }
}

impl Program {
    /// A limit that makes no difference: the end of the code or, where the program
    /// patches that, its start, so that the vectors alone are read-only.
    fn limit(&self, image: &Image) -> u32 {
        if self.refilled == 0 {
            image.code_end()
        } else {
            image::TEXT
        }
    }
}

const ANY: [usize; 4] = [1, 2, 3, 4];

const PROGRAMS: [Program; 11] = [
    program("sieve", sieve),
    program("crc32", crc32),
    program("sort", sort),
    program("strings", strings),
    program("histogram", histogram),
    // Two words for each lamp but the first.
    Program { refilled: 8, ..program("bands", bands) },
    program("digest", digest),
    Program { raised: 25, ..program("calls", calls) },
    Program { cores: &ANY, ..program("cores", cores) },
    // One word for each lamp but the first.
    Program { cores: &ANY, refilled: 29, ..program("patch", patch) },
    // Two zero divisors and a product, with overflow traps.
    Program { raised: 3, ..program("products", products) },
];

/// Each program is there twice: by the least instructions, and by all.
const SUFFIXES: [&str; 2] = ["", "-full"];

/// What a program left when all its cores had halted.
struct Ran {
    case: Case,
    executed: u32,
    raised: u32,
    reused: u32,
    /// Exceptions beyond the program's own.
    interrupts: u32,
}

impl Ran {
    /// Fetches that filled an entry, beyond the first of each word. By "History"
    /// an entry is filled at the end if its word was fetched after its last store.
    fn refilled(&self) -> u32 {
        let held = self.case.table.iter().filter(|&&entry| entry != 0).count();
        self.executed - self.interrupts - self.reused - held as u32
    }

    /// What main returned on a core.
    fn result(&self, core: usize) -> u32 {
        self.case.sheets[core * SHEET_WORDS + 11]
    }
    fn byte(&self, offset: usize) -> u8 {
        self.case.memory[RESULTS + offset]
    }
    fn half(&self, offset: usize) -> u16 {
        u16::from_be_bytes([self.byte(offset), self.byte(offset + 1)])
    }
    fn word(&self, offset: usize) -> u32 {
        self.case.word((RESULTS + offset) / 4)
    }
    fn words(&self, offset: usize, count: usize) -> Vec<u32> {
        (0..count).map(|index| self.word(offset + 4 * index)).collect()
    }
    fn halves(&self, offset: usize, count: usize) -> Vec<u16> {
        (0..count).map(|index| self.half(offset + 2 * index)).collect()
    }
}

/// How several cores take turns.
#[derive(Clone, Copy, Debug)]
enum Manner {
    Turns,
    Dice,
    Bursts,
}

fn schedule(rng: &mut Rng, manner: Manner, cores: usize, entries: usize) -> Vec<u8> {
    let mut core = 0;
    let mut entry = |index: usize| {
        core = match manner {
            Manner::Turns => index % cores,
            Manner::Bursts if !rng.one_in(40) => core,
            _ => rng.below(cores),
        };
        core as u8
    };
    (0..entries).map(&mut entry).collect()
}

fn is_running(case: &Case) -> bool {
    case.sheets.chunks(SHEET_WORDS).any(|sheet| sheet[place::MODE] != 0)
}

/// One call by both runs of every engine; the answer and what is left.
fn call(case: &Case) -> Result<check::Left, String> {
    let engines = engines();
    let one = check::after_both(engines[0], case);
    for other in &engines[1..] {
        let left = check::after_both(*other, case);
        check::same_left([engines[0].name(), other.name()], case, &one, &left)?;
        check::left_as_promised(other.name(), case, &left)?;
    }
    Ok(one.fast)
}

/// How a program is run.
#[derive(Clone, Copy, Debug)]
struct Way {
    cores: usize,
    manner: Manner,
    /// Of each call.
    entries: usize,
    /// A line is high once in so many entries; with 0 all lines are low.
    rare: usize,
    board: Board,
}

/// What a program is run on.
#[derive(Clone, Copy, Debug)]
struct Board {
    bytes: usize,
    limit: u32,
    vectors: [u32; 7],
}

const BOARD: Board = Board { bytes: image::BYTES, limit: 0, vectors: OLD };
/// The vectors elsewhere in their page, some where others were.
const IN_THE_PAGE: Board =
    Board { vectors: [0xe00, 0x200, 0x600, 0x708, 0xff8, 0x108, 0xb00], ..BOARD };
/// The vectors after everything else, in more memory, one at its end.
const AT_THE_END: Board = Board {
    bytes: 2 * image::BYTES,
    vectors: [0x1_4000, 0x1_fff8, 0x1_0000, 0x1_2340, 0x1_f00c, 0x1_0008, 0x1_0010],
    ..BOARD
};
/// The vectors outside memory, for programs that do not need them.
const NOWHERE: Board = Board {
    vectors: [0xf_fffc, 0x1_0000, 0x8_0000, 0xf_fff8, 0x1_0004, 0x2_0000, 0xf_0000],
    ..BOARD
};
/// The vectors in the code.
const IN_THE_CODE: Board =
    Board { vectors: [0x1000, 0x1004, 0x1008, 0x100c, 0x1010, 0x1014, 0x1018], ..BOARD };

impl Way {
    fn start(&self, image: &Image) -> Case {
        let Board { bytes, limit, vectors } = self.board;
        let case = if self.rare == 0 {
            image.case(bytes, self.cores)
        } else {
            image.clone().with_handler(vectors[6]).interruptible(bytes, self.cores)
        };
        Case { limit, vectors: vectors.to_vec(), ..case }
    }

    /// Lines 0 and 1 now and then, and any masked ones.
    fn lines(&self, rng: &mut Rng) -> u32 {
        if self.rare == 0 {
            return 0;
        }
        let pulse = if rng.one_in(self.rare) { rng.pick(&[1, 2, 3]) } else { 0 };
        rng.next_u32() & !3 | pulse
    }
}

/// Calls until every core has halted.
fn run(name: &str, image: &Image, way: Way, raised: u32) -> Ran {
    let case = way.start(image);
    let mut ran = Ran { case, executed: 0, raised: 0, reused: 0, interrupts: 0 };
    let mut rng = Rng::new(way.entries as u64);
    for _ in 0..CALLS_MOST * SCHEDULE_MOST / way.entries {
        ran.case.schedule = schedule(&mut rng, way.manner, way.cores, way.entries);
        ran.case.levels = (0..way.entries).map(|_| way.lines(&mut rng)).collect();
        let left = call(&ran.case).unwrap_or_else(|text| stop(name, &text));
        ran.executed += left.answer.executed;
        ran.raised += left.answer.raised;
        ran.reused += left.answer.reused;
        ran.case = left.case;
        if !is_running(&ran.case) {
            ran.interrupts = ran.raised - raised;
            return ran;
        }
    }
    panic!("{name}: still running after {} instructions", ran.executed);
}

/// "Any word that no row fits ... is kind 1": code has none.
fn assert_code_is_legal(name: &str, image: &Image) {
    for index in image.code() {
        let word = image.words[index];
        let kind = isa::decode_insn(word).kind;
        assert_ne!(kind, Kind::Illegal, "{name}: {word:08x} at {:x}", 4 * index);
    }
}

/// The manners that make a difference with so many cores.
fn manners(cores: usize) -> &'static [Manner] {
    match cores {
        1 => &[Manner::Turns],
        _ => &[Manner::Turns, Manner::Dice, Manner::Bursts],
    }
}

/// Runs a program's image in every manner, by calls of these lengths and on a board,
/// and checks what it left.
fn run_image(program: &Program, file: &str, image: &Image, calls: &[usize], board: Board) {
    let (mut runs, mut executed) = (0, 0);
    for &cores in program.cores {
        for &manner in manners(cores) {
            for &entries in calls {
                let way = Way { cores, manner, entries, rare: 0, board };
                let ran = run(file, image, way, program.raised);
                assert_eq!(ran.raised, program.raised, "{file}");
                assert_eq!(ran.refilled(), program.refilled, "{file}");
                (program.check)(&ran);
                runs += 1;
                executed += ran.executed;
            }
        }
    }
    let (limit, vector) = (board.limit, board.vectors[0]);
    show(&format!("{file}: right {runs} times at the limit {limit:x}, bus errors to {vector:x}, {executed} instructions in all"));
}

/// Lamp changes while the program runs: the same results.
fn run_interrupted(program: &Program, file: &str, image: &Image, board: Board) {
    let (mut executed, mut interrupts) = (0, 0);
    for &cores in program.cores {
        for &manner in manners(cores) {
            let way = Way { cores, manner, entries: 9_973, rare: 40, board };
            let ran = run(file, image, way, program.raised);
            assert_eq!(ran.refilled(), program.refilled, "{file}");
            (program.check)(&ran);
            executed += ran.executed;
            interrupts += ran.interrupts;
        }
    }
    show(&format!("{file}: right with {interrupts} interrupts, {executed} instructions in all"));
    assert!(interrupts >= executed / 100, "{file}: only {interrupts} interrupts");
}

#[test]
fn stored_images_with_interrupts() {
    for program in &PROGRAMS {
        for suffix in SUFFIXES {
            let file = format!("{}{suffix}", program.name);
            run_interrupted(program, &file, &Image::load(&image::folder(), &file), BOARD);
        }
    }
}

fn run_folder(folder: &Path, program: &Program) {
    for suffix in SUFFIXES {
        let file = format!("{}{suffix}", program.name);
        let image = Image::load(folder, &file);
        assert_code_is_legal(&file, &image);
        run_image(program, &file, &image, &[SCHEDULE_MOST, 9_973], BOARD);
    }
}

#[test]
fn stored_images() {
    for program in &PROGRAMS {
        run_folder(&image::folder(), program);
    }
}

/// A read-only start of memory: the same results, exceptions and fetches.
#[test]
fn stored_images_with_a_limit() {
    for program in &PROGRAMS {
        for suffix in SUFFIXES {
            let file = format!("{}{suffix}", program.name);
            let image = Image::load(&image::folder(), &file);
            let board = Board { limit: program.limit(&image), ..BOARD };
            run_image(program, &file, &image, &[SCHEDULE_MOST], board);
        }
    }
}

/// 02, note 6: the vectors elsewhere, with the jumps to the handlers moved there, and
/// half the time with interrupts: the same results, exceptions and fetches.
#[test]
fn stored_images_with_other_vectors() {
    for program in &PROGRAMS {
        for (suffix, board) in SUFFIXES.into_iter().zip([IN_THE_PAGE, AT_THE_END]) {
            let file = format!("{}{suffix}", program.name);
            let image = Image::load(&image::folder(), &file).with_vectors(&board.vectors);
            match suffix {
                "" => run_image(program, &file, &image, &[SCHEDULE_MOST], board),
                _ => run_interrupted(program, &file, &image, board),
            }
        }
    }
}

/// A program that raises nothing is the same with any list, one that leads nowhere or
/// into its code too.
#[test]
fn programs_without_exceptions() {
    let mut count = 0;
    for program in PROGRAMS.iter().filter(|program| program.raised == 0) {
        for (suffix, board) in SUFFIXES.into_iter().zip([NOWHERE, IN_THE_CODE]) {
            let file = format!("{}{suffix}", program.name);
            let image = Image::load(&image::folder(), &file);
            run_image(program, &file, &image, &[SCHEDULE_MOST], board);
            count += 1;
        }
    }
    assert_eq!(count, 18);
}

/// One that raises does need its vectors: left where they were, its handlers are not
/// found, and it halts with another result or never.
#[test]
fn handlers_left_behind() {
    for name in ["calls", "products"] {
        let image = Image::load(&image::folder(), name);
        let mut case = image.case(NOWHERE.bytes, 1);
        case.vectors = NOWHERE.vectors.to_vec();
        case.set_schedule(vec![0; SCHEDULE_MOST]);
        let left = call(&case).unwrap_or_else(|text| stop(name, &text));
        let core = &left.case.sheets;
        assert_eq!((core[place::PC], core[place::EEAR]), (0xf_fffc, 0xf_fffc), "{name}");
        assert!(is_running(&left.case) && left.answer.raised > 1_000, "{name}");
    }
}

/// With all code read-only a program that patches it stops at its first patch: the
/// start file halts the core.
#[test]
fn patches_of_read_only_code() {
    for program in PROGRAMS.iter().filter(|program| program.refilled != 0) {
        for suffix in SUFFIXES {
            let file = format!("{}{suffix}", program.name);
            let image = Image::load(&image::folder(), &file);
            let limit = image.code_end();
            let board = Board { limit, ..BOARD };
            let way =
                Way { cores: 1, manner: Manner::Turns, entries: SCHEDULE_MOST, rare: 0, board };
            let ran = run(&file, &image, way, 1);
            let (result, failing) = (ran.result(0), ran.case.sheets[place::EEAR]);
            assert_eq!((ran.raised, result >> 16), (1, 0xdead), "{file}");
            assert!((image::TEXT..limit).contains(&failing), "{file}: {failing:x}");
            let code = image.code().all(|index| ran.case.word(index) == image.words[index]);
            assert!(code, "{file}: code was written");
        }
    }
}

/// Builds with the script that made the stored images.
fn build(folder: &Path) {
    let script = image::folder().join("build");
    let made = Command::new(script).arg(folder).output().expect("bash runs the script");
    assert!(made.status.success(), "{}", String::from_utf8_lossy(&made.stderr));
}

#[test]
fn fresh_images() {
    if Command::new(COMPILER).arg("--version").output().is_err() {
        return show(&format!("fresh images: skipped, {COMPILER} is not installed"));
    }
    let folder = Path::new(env!("CARGO_TARGET_TMPDIR")).join("programs");
    build(&folder);
    let mut same = 0;
    for program in &PROGRAMS {
        run_folder(&folder, program);
        for suffix in SUFFIXES {
            let file = format!("{}{suffix}", program.name);
            let stored = Image::load(&image::folder(), &file);
            same += usize::from(stored == Image::load(&folder, &file));
        }
    }
    let all = PROGRAMS.len() * SUFFIXES.len();
    show(&format!("fresh images: {same} of {all} are the stored ones word for word"));
}

/// The kinds that stand in the stored programs' code.
#[test]
fn kinds_in_the_code() {
    let mut kinds = BTreeSet::new();
    for program in &PROGRAMS {
        for suffix in SUFFIXES {
            let image = Image::load(&image::folder(), &format!("{}{suffix}", program.name));
            kinds.extend(image.code().map(|index| isa::decode_insn(image.words[index]).kind));
        }
    }
    let count = kinds.len();
    show(&format!("the stored programs have {count} kinds: {kinds:?}"));
    assert!(count >= 63, "only {count} kinds");
    let of_note_2 = kinds.iter().filter(|kind| **kind >= Kind::Mul).count();
    assert_eq!(of_note_2, 9, "every kind of note 2 of document 02");
}

const NATIVE_COMPILER: &str = "cc";

/// The same source as this computer's own compiler and processor have it.
#[test]
fn products_by_native_c() {
    if Command::new(NATIVE_COMPILER).arg("--version").output().is_err() {
        return show(&format!("products by native C: skipped, no {NATIVE_COMPILER}"));
    }
    let source = image::folder().join("products.c");
    for level in ["-O0", "-O2"] {
        let program = Path::new(env!("CARGO_TARGET_TMPDIR")).join(format!("products{level}"));
        let mut compile = Command::new(NATIVE_COMPILER);
        compile.args(["-std=gnu11", "-Wall", level, "-o"]).arg(&program).arg(&source);
        let made = compile.output().expect("the compiler runs");
        assert!(made.status.success(), "{}", String::from_utf8_lossy(&made.stderr));
        let printed = Command::new(&program).output().expect("the program runs");
        let text = String::from_utf8(printed.stdout).expect("text");
        let word = |line: &str| u32::from_str_radix(line, 16).expect("a word");
        let words: Vec<u32> = text.lines().map(word).collect();
        assert_eq!(words, registration::results(), "{level}");
        show(&format!("products by native C, {level}: {} words as worked out", words.len()));
    }
}

fn sieve(ran: &Ran) {
    let is_prime = |n: &u32| (2..).take_while(|d| d * d <= *n).all(|d| !n.is_multiple_of(d));
    assert_eq!(ran.result(0), (2..8_192).filter(is_prime).count() as u32);
}

/// By long division of the reflected message, not by shifts to the right.
fn crc_of(bytes: &[u8]) -> u32 {
    let mut rest = 0xffff_ffffu32;
    for byte in bytes {
        rest ^= u32::from(byte.reverse_bits()) << 24;
        for _ in 0..8 {
            let carry = rest >> 31;
            rest = (rest << 1) ^ (carry * 0x04c1_1db7);
        }
    }
    !rest.reverse_bits()
}

fn crc32(ran: &Ran) {
    let mut bytes = Xorshift(1);
    let band: Vec<u8> = (0..4_096).map(|_| (bytes.next() >> 24) as u8).collect();
    assert_eq!(ran.words(0, 2), [0xcbf4_3926, crc_of(&band)]);
    assert_eq!(crc_of(b"123456789"), 0xcbf4_3926);
}

fn sort(ran: &Ran) {
    let mut numbers = Xorshift(2);
    let mut words: Vec<i32> = (0..1_024).map(|_| numbers.next() as i32).collect();
    let mut halves: Vec<i16> = (0..512).map(|_| numbers.next() as i16).collect();
    words.sort_unstable();
    halves.sort_unstable();
    let sum = words.iter().fold(0i32, |sum, &word| sum.wrapping_add(word));
    let found: Vec<i32> = ran.words(0, 1_024).iter().map(|&word| word as i32).collect();
    assert_eq!(found, words);
    let found: Vec<i16> = ran.halves(4_096, 512).iter().map(|&half| half as i16).collect();
    assert_eq!(found, halves);
    assert_eq!(ran.result(0), sum as u32);
}

fn strings(ran: &Ran) {
    let text = b"0 fibres, 9 bands; 10 fibres, 65536 bands; 4294967295 fibres, ";
    let mut bytes = [0; 256];
    bytes[..text.len()].copy_from_slice(text);
    bytes.copy_within(0..20, 3);
    // This one takes the string's end along.
    bytes.copy_within(43..63, 40);
    let length = bytes.iter().position(|&byte| byte == 0).expect("an end");
    assert_eq!((0..256).map(|index| ran.byte(index)).collect::<Vec<u8>>(), bytes);
    let half = |index: usize| u16::from_le_bytes([bytes[2 * index], bytes[2 * index + 1]]);
    assert_eq!(ran.halves(256, 64), (0..64).map(half).collect::<Vec<u16>>());
    let ordered = [0, -i32::from(b's'), -128 - 127, i32::from(b'm') - i32::from(b'M')];
    assert_eq!(ran.words(384, 4), ordered.map(|difference| difference as u32));
    assert_eq!(ran.result(0), length as u32);
}

/// The band that the histogram's program makes: 64 rows of 96 bytes.
fn exposed_band() -> Vec<Vec<u8>> {
    let mut noise = Xorshift(3);
    let mut row = |y: usize| {
        let mut byte = |x: usize| (noise.next() as u8 & 0x7f) | u8::from((x + y) & 12 == 12) << 7;
        (0..96).map(&mut byte).collect()
    };
    (0..64).map(&mut row).collect()
}

fn histogram(ran: &Ran) {
    let band = exposed_band();
    let mut all: Vec<u8> = band.concat();
    let count = |value: u8| all.iter().filter(|&&byte| byte == value).count() as u32;
    assert_eq!(ran.words(0, 256), (0..=255).map(count).collect::<Vec<u32>>());
    all.sort_unstable();
    let threshold = all[all.len() / 4 * 3 - 1] + 1;
    let bright: Vec<Vec<bool>> =
        band.iter().map(|row| row.iter().map(|&byte| byte >= threshold).collect()).collect();
    let starts = |row: &Vec<bool>| {
        usize::from(row[0]) + row.windows(2).filter(|pair| !pair[0] && pair[1]).count()
    };
    let fibres: usize = bright.iter().map(starts).sum();
    assert_eq!(ran.words(1_024, 2), [u32::from(threshold), fibres as u32]);
    let place = |found: Option<usize>| found.map_or(0, |index| index as u32 + 1);
    let first = |row: &Vec<bool>| place(row[..32].iter().position(|&bright| bright));
    let last = |row: &Vec<bool>| place(row[..32].iter().rposition(|&bright| bright));
    assert_eq!(ran.words(1_032, 64), bright.iter().map(first).collect::<Vec<u32>>());
    assert_eq!(ran.words(1_288, 64), bright.iter().map(last).collect::<Vec<u32>>());
    assert_eq!(ran.result(0), fibres as u32);
}

fn bands(ran: &Ran) {
    let mut numbers = Xorshift(4);
    let band: Vec<i32> = (0..200).map(|_| numbers.next() as i32 & 0xff).collect();
    let of_lamp = |lamp: i32| band.iter().map(move |byte| ((byte + 17 - 10 * lamp) << lamp) as u16);
    let exposed: Vec<u16> = (0..5).flat_map(of_lamp).collect();
    assert_eq!(ran.halves(0, 1_000), exposed);
    assert_eq!(ran.result(0), exposed.iter().map(|&half| u32::from(half)).sum::<u32>());
}

fn digest(ran: &Ran) {
    let mut numbers = Xorshift(5);
    let (mut by_seven, mut by_itself, mut wide, mut borrows) = (0u32, 0u32, 0u64, 0);
    let (mut bytes, mut halves) = (0, 0);
    for _ in 0..500 {
        let x = numbers.next();
        by_seven = (by_seven ^ x).rotate_right(7);
        by_itself = by_itself.wrapping_add(x).rotate_right(x);
        wide = wide.wrapping_add(u64::from(x)).wrapping_sub(1);
        borrows += u32::from(x < wide as u32);
        bytes += i32::from((x >> 3) as i8);
        halves += i32::from((x >> 5) as i16);
    }
    let results = [by_seven, by_itself, (wide >> 32) as u32, wide as u32, borrows];
    assert_eq!(ran.words(0, 5), results);
    assert_eq!(ran.words(20, 2), [bytes as u32, halves as u32]);
    assert_eq!(ran.result(0), by_seven ^ by_itself);
}

fn calls(ran: &Ran) {
    let mut taken = [0; 16];
    (taken[2], taken[6], taken[7], taken[11], taken[12], taken[14]) = (1, 1, 1, 1, 20, 1);
    assert_eq!(ran.words(0, 16), taken);
    assert_eq!(ran.word(64 + 4 * 6), RESULTS as u32 + 2);
    assert_eq!(ran.word(64 + 4 * 2), 0xffff_fff0);
    // Answers: the calls' sum, sums with and without OVE, loads that raise.
    let answers = [190 + 2_000, 0x8000_0000, 0x8000_0001, 1, 0x55, 0x55, 0, 0];
    assert_eq!(ran.words(128, 8), answers);
    assert_eq!(ran.result(0), 20);
}

fn cores(ran: &Ran) {
    let cores = ran.case.cores() as u32;
    let row_sum = |row: u32| {
        let mut bytes = Xorshift(row + 1);
        (0..64).map(|_| bytes.next() & 0xff).sum::<u32>()
    };
    let total: u32 = (0..64).map(row_sum).sum();
    let counter = (1..=cores).sum::<u32>() * 100;
    assert_eq!(ran.words(0, 4), [counter, 100 * cores, 100 * cores, total]);
    for core in 0..cores {
        assert_eq!(ran.result(core as usize), total + core);
    }
}

fn patch(ran: &Ran) {
    let sum: u32 = (1..=30).map(|lamp: i32| (7 * lamp - 100) as u32).fold(0, u32::wrapping_add);
    for core in 0..ran.case.cores() {
        assert_eq!(ran.word(4 * core), sum << core);
        assert_eq!(ran.result(core), sum << core);
    }
}

fn products(ran: &Ran) {
    let results = registration::results();
    assert_eq!(ran.words(0, results.len()), results);
    let board = registration::BOARD;
    assert_eq!(ran.words(4 * results.len(), board.len()), board);
    let best = results.len() - 5;
    assert_eq!(ran.result(0), results[best]);
}
