//! The operands of the kernels: of each the numbers at which a kernel can go wrong, any pattern, and what it is in use.

use crate::cases::{around32, pattern32, specials32};
use crate::rng::Rng;
use crate::section::{of_single, raw, single, Section};

type Draw = Box<dyn Fn(&mut Rng) -> u64>;

pub struct Operand {
    /// Whether it takes two words of 4 bytes, the low one first.
    wide: bool,
    /// How many choices it is one of.
    choices: Option<u64>,
    edges: Vec<u64>,
    any: Draw,
    usual: Draw,
}

fn bits(x: f64) -> u64 {
    (x as f32).to_bits() as u64
}

fn narrow(
    edges: Vec<u64>,
    any: impl Fn(&mut Rng) -> u64 + 'static,
    usual: impl Fn(&mut Rng) -> u64 + 'static,
) -> Operand {
    Operand { wide: false, choices: None, edges, any: Box::new(any), usual: Box::new(usual) }
}

/// An f32. The edges are those of every f32, and `at` with both neighbours and signs.
pub fn float(at: &[f64], usual: impl Fn(&mut Rng) -> f64 + 'static) -> Operand {
    let edges = [specials32(), around32(at)].concat();
    narrow(edges, pattern32, move |r| bits(usual(r)))
}

/// An f32 from lo to hi in use, with its edges at the two, at 0 and at 1.
pub fn between(lo: f64, hi: f64) -> Operand {
    float(&[lo, hi, 0.0, 1.0], move |r| r.range(lo, hi))
}

/// A phase: in use from 0 to below 1, now and then 1 and past it.
pub fn phase() -> Operand {
    float(&[0.0, 0.01, 0.25, 0.5, 0.75, 0.99, 1.0, 2.0], |r| match r.below(8) {
        0 => r.range(-1.0, 2.0),
        _ => r.range(0.0, 1.0),
    })
}

pub fn frequency() -> Operand {
    float(&[1.0, 20.0, 440.0, 20_000.0, 24_000.0], |r| match r.below(3) {
        0 => r.range(0.0, 100.0),
        1 => r.range(20.0, 2_000.0),
        _ => r.range(20.0, 24_000.0),
    })
}

pub const RATES: [u32; 11] = [8_000, 11_025, 16_000, 22_050, 32_000, 44_100, 48_000, 88_200, 96_000, 176_400, 192_000];

/// A sample rate as the f32 that the kernels divide by.
pub fn rate() -> Operand {
    float(&RATES.map(f64::from), |r| RATES[r.below(11)] as f64)
}

/// A sample rate that some code of the Rust turns into an f32: as on file it is that f32.
pub fn whole_rate() -> Operand {
    let edges = [0, 1, 2, 3, 100, 1 << 24, (1 << 24) + 1, u32::MAX].into_iter().chain(RATES);
    let any = |r: &mut Rng| (r.word() as u32 as f32).to_bits() as u64;
    let usual = |r: &mut Rng| (RATES[r.below(11)] as f32).to_bits() as u64;
    let edges = edges.map(|n| (n as f32).to_bits() as u64).collect();
    narrow(edges, any, usual)
}

/// A whole number: any below 2^32, and from lo to hi in use.
pub fn number(edges: &[u64], lo: u64, hi: u64) -> Operand {
    let edges = edges.iter().copied().chain([lo, hi]).collect();
    let usual = move |r: &mut Rng| lo + r.below((hi - lo + 1) as usize) as u64;
    narrow(edges, |r| r.word() >> 32, usual)
}

/// A whole number from lo to hi.
pub fn within(lo: u64, hi: u64) -> Operand {
    let draw = move |r: &mut Rng| lo + r.below((hi - lo + 1) as usize) as u64;
    narrow(vec![lo, hi], draw, draw)
}

/// A sample rate in the bounds of a document.
pub fn valid_rate() -> Operand {
    let mut rate = within(8_000, 192_000);
    rate.edges = RATES.into_iter().flat_map(|n| [n - 1, n, n + 1]).map(u64::from).collect();
    rate.edges.retain(|n| (8_000..=192_000).contains(n));
    rate
}

/// One of n choices.
pub fn choice(n: u64) -> Operand {
    let draw = move |r: &mut Rng| r.below(n as usize) as u64;
    Operand { choices: Some(n), ..narrow((0..n).collect(), draw, draw) }
}

/// The word of a generator.
pub fn word() -> Operand {
    let edges = vec![0, 1, u64::MAX, 1 << 63, 0x61c8_8646_80b5_83eb, 0x9e37_79b9_7f4a_7c15];
    Operand { wide: true, ..narrow(edges, |r| r.word(), |r| r.next()) }
}

/// The index of a sample: of the first seconds, and of an hour, in use.
pub fn position() -> Operand {
    let mut edges = vec![0, 1, 2, 255, 256, (1 << 24) - 1, 1 << 24, (1 << 24) + 1, (1 << 24) + 3, 1 << 32, u64::MAX];
    edges.extend(RATES.map(u64::from));
    let usual = |r: &mut Rng| r.next() >> (64 - 14 - r.below(16));
    Operand { wide: true, ..narrow(edges, |r| r.word(), usual) }
}

/// A result: an f32, a number below 2^32, or a word of 64 bits.
pub enum Answer {
    Float(f32),
    Number(u64),
    Word(u64),
}

pub fn floats<const K: usize>(list: [f32; K]) -> Vec<Answer> {
    list.into_iter().map(Answer::Float).collect()
}

fn halves(word: u64) -> [u64; 2] {
    [word & 0xffff_ffff, word >> 32]
}

/// A kernel's name, how many cases it has, and its operands.
pub struct Kernel {
    pub name: &'static str,
    pub count: usize,
    pub operands: Vec<Operand>,
}

impl Kernel {
    /// Each edge of each operand among usual ones, at every choice if the cases are enough for that.
    fn edges(&self, r: &mut Rng) -> Vec<Vec<u64>> {
        let number: usize = self.operands.iter().map(|o| o.edges.len()).sum();
        let of_choices = self.operands.iter().enumerate().find_map(|(k, o)| o.choices.map(|n| (k, n)));
        let of_choices = of_choices.filter(|(_, n)| number * *n as usize <= self.count * 5 / 8);
        let mut list = Vec::new();
        for (k, operand) in self.operands.iter().enumerate() {
            for edge in &operand.edges {
                for choice in 0..of_choices.map_or(1, |(_, n)| n) {
                    let mut case = self.usual(r);
                    if let Some((place, _)) = of_choices {
                        case[place] = choice;
                    }
                    case[k] = *edge;
                    list.push(case);
                }
            }
        }
        list
    }

    fn usual(&self, r: &mut Rng) -> Vec<u64> {
        self.operands.iter().map(|o| (o.usual)(r)).collect()
    }

    /// The edges; an eighth of all edges only, an eighth any patterns; for half of what is left `related`, where operands
    /// that belong together make an edge; and usual ones.
    fn cases(&self, related: impl Fn(&mut Rng) -> Vec<u64>) -> Vec<Vec<u64>> {
        // The seed is the name's, so that one kernel's cases do not depend on the others.
        let mut rng = Rng::new(self.name.bytes().fold(7, |h, b| h * 131 + b as u64));
        let r = &mut rng;
        let mut list = self.edges(r);
        let count = self.count;
        assert!(list.len() + count / 4 <= count, "{}: {} edges for {count} cases", self.name, list.len());
        for _ in 0..count / 8 {
            list.push(self.operands.iter().map(|o| o.edges[r.below(o.edges.len())]).collect());
            list.push(self.operands.iter().map(|o| (o.any)(r)).collect());
        }
        let turn = (list.len() + count) / 2;
        while list.len() < turn {
            let case = related(r);
            list.push(if case.is_empty() { self.usual(r) } else { case });
        }
        while list.len() < count {
            list.push(self.usual(r));
        }
        list
    }

    /// The section of the cases that `answer` has an answer for.
    pub fn section(
        self,
        related: impl Fn(&mut Rng) -> Vec<u64>,
        answer: impl Fn(&[u64]) -> Option<Vec<Answer>>,
    ) -> Section {
        let (mut words, mut before, mut after) = (Vec::new(), 0, 0);
        for case in self.cases(related) {
            let Some(results) = answer(&case) else { continue };
            let start = words.len();
            for (operand, x) in self.operands.iter().zip(case) {
                words.extend(&halves(x)[..1 + operand.wide as usize]);
            }
            before = words.len() - start;
            for result in results {
                match result {
                    Answer::Float(x) => words.push(of_single(x)),
                    Answer::Number(n) => words.extend([u32::try_from(n).unwrap() as u64]),
                    Answer::Word(w) => words.extend(halves(w)),
                }
            }
            after = words.len() - start - before;
        }
        raw(self.name, before, after, words)
    }

    /// The same of a kernel whose operands make no edge together.
    pub fn plain(self, answer: impl Fn(&[u64]) -> Vec<Answer>) -> Section {
        self.section(|_| vec![], |x| Some(answer(x)))
    }

    /// The same of one that gives one f32.
    pub fn float(self, answer: impl Fn(&[u64]) -> f32) -> Section {
        self.plain(|x| vec![Answer::Float(answer(x))])
    }
}

pub fn kernel(name: &'static str, count: usize, operands: Vec<Operand>) -> Kernel {
    Kernel { name, count, operands }
}

/// The f32s of N operands from place `from` on.
pub fn take<const N: usize>(x: &[u64], from: usize) -> [f32; N] {
    std::array::from_fn(|k| single(x[from + k]))
}
