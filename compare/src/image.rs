//! Compiled programs: the images in `programs/` and the cases that run them.

use crate::card::reset_sheets;
use crate::cases::Case;
use crate::isa::{self, Insn, Kind};
use crate::state::{place, IEE, SHEET_WORDS};
use crate::vectors::OLD;
use std::ops::Range;
use std::path::{Path, PathBuf};

/// Where every core of a compiled program starts.
pub const RESET: u32 = 0x100;
/// Where code starts that is not the vectors'.
pub const TEXT: u32 = 0x1000;
/// The memory that the linker script lays out.
pub const BYTES: usize = 65_536;

/// A program's words from address 0.
#[derive(Clone, Debug, PartialEq, Eq)]
pub struct Image {
    pub words: Vec<u32>,
}

/// The folder of the sources and of the stored images.
pub fn folder() -> PathBuf {
    Path::new(env!("CARGO_MANIFEST_DIR")).join("programs")
}

impl Image {
    /// Lines of an address and words, all hexadecimal; what no line gives is 0.
    /// Nothing, if a line is damaged.
    pub fn parse(text: &str) -> Option<Image> {
        let mut words = Vec::new();
        for line in text.lines() {
            let mut numbers = line.split(' ').map(|number| u32::from_str_radix(number, 16));
            let first = numbers.next()?.ok()? as usize / 4;
            words.resize(first, 0);
            for word in numbers {
                words.push(word.ok()?);
            }
        }
        Some(Image { words })
    }

    /// The image in a file of a folder.
    pub fn load(folder: &Path, name: &str) -> Image {
        let file = folder.join(format!("{name}.hex"));
        let text = std::fs::read_to_string(&file);
        let image = text.ok().and_then(|text| Image::parse(&text));
        image.unwrap_or_else(|| panic!("no image in {}", file.display()))
    }

    /// The end of its code, which the word at 0 names; its data comes after it.
    pub fn code_end(&self) -> u32 {
        self.words[0]
    }

    /// The indices of its code, from the reset vector on.
    pub fn code(&self) -> Range<usize> {
        RESET as usize / 4..self.code_end() as usize / 4
    }

    /// The program with a handler for interrupts (02, note 4) at their vector. It clears
    /// what is latched and returns, and so needs no register.
    pub fn with_handler(mut self, vector: u32) -> Image {
        let clear = Insn::new(Kind::Mtspr, 0, 0, 0, 0x4802);
        let back = Insn::new(Kind::Rfe, 0, 0, 0, 0);
        let handler = [clear, back].map(|form| isa::encode(form.entry()) as u32);
        self.put(vector, handler);
        self
    }

    /// The program with what stands at its vectors, a jump and its slot each, moved to
    /// where a list has them (02, note 6). An illegal word is left behind.
    pub fn with_vectors(mut self, list: &[u32; 7]) -> Image {
        // It has none for interrupts.
        let moved = [0, 1, 2, 3, 4, 5].map(|place| self.jump_from(OLD[place], list[place]));
        for old in &OLD[..6] {
            self.put(*old, [isa::ILLEGAL_WORD; 2]);
        }
        for (jump, &vector) in moved.into_iter().zip(list) {
            self.put(vector, jump);
        }
        self
    }

    /// The jump at an address and its slot, as they must be at another.
    fn jump_from(&self, from: u32, to: u32) -> [u32; 2] {
        let at = from as usize / 4;
        let Insn { kind, imm, .. } = isa::decode_insn(self.words[at]);
        let away = imm.wrapping_add(from).wrapping_sub(to);
        [isa::encode(Insn::new(kind, 0, 0, 0, away).entry()) as u32, self.words[at + 1]]
    }

    /// Puts two words at an address, if need be after the end.
    fn put(&mut self, address: u32, words: [u32; 2]) {
        let at = address as usize / 4;
        self.words.resize(self.words.len().max(at + 2), 0);
        self.words[at..at + 2].copy_from_slice(&words);
    }

    /// Cores just reset, the image in memory, no schedule, no limit and an empty
    /// table.
    pub fn case(&self, bytes: usize, cores: usize) -> Case {
        let mut case = Case {
            memory: vec![0; bytes],
            sheets: reset_sheets(cores, RESET),
            schedule: vec![],
            levels: vec![],
            limit: 0,
            vectors: OLD.to_vec(),
            table: vec![0; bytes / 4],
        };
        for (index, &word) in self.words.iter().enumerate() {
            case.set_word(index, word);
        }
        case
    }

    /// The same with interrupts enabled on every core.
    pub fn interruptible(&self, bytes: usize, cores: usize) -> Case {
        let mut case = self.case(bytes, cores);
        for sheet in case.sheets.chunks_mut(SHEET_WORDS) {
            sheet[place::SR] |= IEE;
        }
        case
    }
}
