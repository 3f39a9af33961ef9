//! A section of an answer file: one function, its operands and what it answers.

use std::fmt::Write;

pub struct Section {
    pub name: &'static str,
    width: u8,
    operands: u8,
    answers: u8,
    /// For each case the operands, then the answers.
    words: Vec<u64>,
}

/// The section of a function of N operands and one answer; a word is `width` bytes, 4 or 8.
pub fn section<const N: usize>(
    name: &'static str,
    width: u8,
    cases: Vec<[u64; N]>,
    answer: impl Fn([u64; N]) -> u64,
) -> Section {
    answers(name, width, cases, |case| [answer(case)])
}

/// The same of K answers.
pub fn answers<const N: usize, const K: usize>(
    name: &'static str,
    width: u8,
    cases: Vec<[u64; N]>,
    answer: impl Fn([u64; N]) -> [u64; K],
) -> Section {
    assert!(name.len() <= 16 && N <= 20);
    let mut words = Vec::new();
    for case in cases {
        words.extend(case);
        words.extend(answer(case));
    }
    Section { name, width, operands: N as u8, answers: K as u8, words }
}

/// A section of 4-byte words.
pub fn raw(name: &'static str, operands: usize, answers: usize, words: Vec<u64>) -> Section {
    assert!(name.len() <= 16 && operands <= 20);
    Section { name, width: 4, operands: operands as u8, answers: answers as u8, words }
}

impl Section {
    fn cases(&self) -> usize {
        self.words.len() / (self.operands + self.answers) as usize
    }

    /// The section's place, the operands, the answers and the width, a byte each; how many cases there are (u32); the
    /// name, filled up with blanks to 16 bytes; the words.
    fn put(&self, place: u8, file: &mut Vec<u8>) {
        file.extend([place, self.operands, self.answers, self.width]);
        file.extend((self.cases() as u32).to_le_bytes());
        file.extend(format!("{:16}", self.name).bytes());
        for word in &self.words {
            file.extend(&word.to_le_bytes()[..self.width as usize]);
        }
    }
}

/// The answer file, and what the program that finds no difference prints.
pub fn files(sections: &[Section]) -> (Vec<u8>, String) {
    let (mut answers, mut report) = (Vec::new(), String::new());
    for (place, section) in sections.iter().enumerate() {
        section.put(place as u8, &mut answers);
        writeln!(report, "{:16} {} cases, 0 differences", section.name, section.cases()).unwrap();
    }
    (answers, report)
}

/// The f32 of a pattern, in a word.
pub fn single(bits: u64) -> f32 {
    f32::from_bits(bits as u32)
}

pub fn double(bits: u64) -> f64 {
    f64::from_bits(bits)
}

/// The pattern of an f32. Rust leaves a NaN's bits open, so every NaN is one pattern.
pub fn of_single(x: f32) -> u64 {
    if x.is_nan() {
        return 0x7fc0_0000;
    }
    x.to_bits() as u64
}

pub fn of_double(x: f64) -> u64 {
    if x.is_nan() {
        return 0x7ff8_0000_0000_0000;
    }
    x.to_bits()
}
