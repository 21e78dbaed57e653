//! The stored answers of docs/TESTS.md: records of words of 64 bits, the lowest byte first, an f64 by its pattern and every NaN as one.
use std::fs;
use std::path::Path;

/// The pattern of every NaN, and what a place of a lent area holds before a call.
const NAN: u64 = 0x7ff8_0000_0000_0000;
const MARK: u64 = 0x4730_0000_0000_0000;
pub const MARK_BYTE: u8 = 99;

pub fn pattern(x: f64) -> u64 {
    if x.is_nan() {
        NAN
    } else {
        x.to_bits()
    }
}

pub fn mark(at: usize) -> u64 {
    MARK + at as u64
}

/// An area before a call: each place has a mark of its own.
pub fn marked(length: usize) -> Vec<f64> {
    (0..length).map(|at| f64::from_bits(mark(at))).collect()
}

/// Whether an area holds what is told, and past what is written its marks.
pub fn holds(area: &[f64], told: &[u64], written: usize) -> bool {
    let here: Vec<u64> = area.iter().map(|&x| pattern(x)).collect();
    here.starts_with(told) && (written..area.len()).all(|at| here[at] == mark(at))
}

pub fn same(xs: &[f64], patterns: &[u64]) -> bool {
    xs.iter().map(|&x| pattern(x)).eq(patterns.iter().copied())
}

/// A file's words, taken one after another.
pub struct Words {
    words: Vec<u64>,
    at: usize,
}

impl Words {
    /// The words of crates/NAME/stdin, if this repository has it.
    pub fn of(name: &str) -> Option<Self> {
        let bytes = fs::read(Path::new(env!("CARGO_MANIFEST_DIR")).join("../../crates").join(name).join("stdin")).ok()?;
        let words = bytes.chunks_exact(8).map(|b| u64::from_le_bytes(b.try_into().unwrap())).collect();
        Some(Self { words, at: 0 })
    }

    pub fn more(&self) -> bool {
        self.at < self.words.len()
    }

    pub fn word(&mut self) -> u64 {
        self.at += 1;
        self.words[self.at - 1]
    }

    pub fn count(&mut self) -> usize {
        self.word() as usize
    }

    pub fn counts<const N: usize>(&mut self) -> [usize; N] {
        std::array::from_fn(|_| self.count())
    }

    pub fn number(&mut self) -> f64 {
        f64::from_bits(self.word())
    }

    pub fn words(&mut self, count: usize) -> Vec<u64> {
        (0..count).map(|_| self.word()).collect()
    }

    pub fn numbers(&mut self, count: usize) -> Vec<f64> {
        (0..count).map(|_| self.number()).collect()
    }

    pub fn bytes(&mut self, count: usize) -> Vec<u8> {
        (0..count).map(|_| u8::try_from(self.word()).expect("a byte")).collect()
    }
}
