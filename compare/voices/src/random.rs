//! Random sheets and scripts. The same seed gives the same ones.

use crate::script::{Move, Script};
use crate::sheet::{Record, Sheet};

/// SplitMix64, and how often a number is any number in place of a usual one: one time in `odd`; 0: never.
pub struct Random {
    state: u64,
    odd: u64,
}

const EDGES: [u32; 22] = [
    0,
    0x8000_0000,
    0x3f80_0000,
    0xbf80_0000,
    0x3f00_0000,
    0x4000_0000,
    0x7fc0_0000,
    0xffc0_0001,
    0x7f80_0000,
    0xff80_0000,
    0x7f7f_ffff,
    0xff7f_ffff,
    1,
    0x8000_0001,
    0x0080_0000,
    0x3f7f_ffff,
    0x3f80_0001,
    0x4b80_0000,
    0x5f00_0000,
    0x5f80_0000,
    0x322b_cc77,
    0xc2c8_0000,
];

impl Random {
    pub fn new(seed: u64) -> Random {
        Random { state: seed, odd: 0 }
    }
    pub fn word(&mut self) -> u64 {
        self.state = self.state.wrapping_add(0x9e37_79b9_7f4a_7c15);
        let z = (self.state ^ (self.state >> 30)).wrapping_mul(0xbf58_476d_1ce4_e5b9);
        let z = (z ^ (z >> 27)).wrapping_mul(0x94d0_49bb_1331_11eb);
        z ^ (z >> 31)
    }
    pub fn below(&mut self, n: u64) -> u64 {
        self.word() % n
    }
    pub fn one_in(&mut self, n: u64) -> bool {
        self.below(n) == 0
    }
    pub fn pick<T: Copy>(&mut self, xs: &[T]) -> T {
        xs[self.below(xs.len() as u64) as usize]
    }
    /// A number of the range, or now and then one of its ends.
    fn usual(&mut self, lo: f32, hi: f32) -> f32 {
        match self.below(12) {
            0 => lo,
            1 => hi,
            _ => lo + (hi - lo) * (self.below(1 << 24) as f32 / (1 << 24) as f32),
        }
    }
    pub fn any(&mut self) -> f32 {
        match self.below(3) {
            0 => f32::from_bits(self.word() as u32),
            1 => f32::from_bits(self.pick(&EDGES)),
            _ => self.usual(-1.0, 1.0) * self.pick(&[1e-3, 1.0, 100.0, 1e6, 1e12]),
        }
    }
    fn number(&mut self, lo: f32, hi: f32) -> f32 {
        if self.odd != 0 && self.one_in(self.odd) {
            self.any()
        } else {
            self.usual(lo, hi)
        }
    }
    fn numbers(&mut self, ranges: &[(f32, f32)]) -> Vec<u32> {
        ranges.iter().map(|(lo, hi)| self.number(*lo, *hi).to_bits()).collect()
    }
}

const ENVELOPE: [(f32, f32); 5] = [(0.0, 0.05), (0.0, 0.1), (0.0, 1.0), (0.0, 0.1), (0.0, 1.0)];

pub fn record(kind: u8, option: u64, numbers: Vec<u32>, chain: Vec<Record>) -> Record {
    Record { kind, option: option as u8, numbers, chain }
}

/// A value about the range.
pub fn value(r: &mut Random, lo: f32, hi: f32) -> Record {
    let own = (lo, hi);
    match if r.one_in(2) { 41 } else { 41 + r.below(6) as u8 } {
        42 => record(42, r.below(2), r.numbers(&[own, own, (0.0, 0.1)]), vec![]),
        43 => record(43, r.below(4), r.numbers(&[(-5.0, 60.0), (0.0, (hi - lo) / 3.0), own]), vec![]),
        44 => {
            let steps = (0..r.below(5)).map(|_| record(52, 0, r.numbers(&[own]), vec![])).collect();
            record(44, 0, r.numbers(&[(0.0, 300.0)]), steps)
        }
        45 => record(45, 0, r.numbers(&[&ENVELOPE[..], &[own, own]].concat()), vec![]),
        46 => {
            let mut numbers = r.numbers(&[own, own, (0.0, 3000.0)]);
            let seed = if r.one_in(2) { r.below(10) } else { r.word() };
            numbers.extend([seed as u32, (seed >> 32) as u32]);
            record(46, 0, numbers, vec![])
        }
        _ => record(41, 0, r.numbers(&[own]), vec![]),
    }
}

pub fn source(r: &mut Random) -> Record {
    let kind = 1 + r.below(10) as u8;
    let freq = if (1..=6).contains(&kind) { vec![value(r, 20.0, 3000.0)] } else { vec![] };
    let and = |mut chain: Vec<Record>, v: Record| {
        chain.push(v);
        chain
    };
    match kind {
        2 => record(2, 0, vec![], and(freq, value(r, 0.0, 1.0))),
        5 => record(5, 0, r.numbers(&[(0.25, 8.0)]), and(freq, value(r, 0.0, 10.0))),
        6 => {
            let voices = if r.one_in(8) { r.word() as u32 } else { r.below(18) as u32 };
            record(6, r.below(2), [vec![voices], r.numbers(&[(0.0, 50.0)])].concat(), freq)
        }
        7 => record(7, 0, r.numbers(&[(0.0, 1.0), (0.0, 1.0)]), vec![]),
        8 => record(8, 0, r.numbers(&ENVELOPE), vec![]),
        9 => record(9, r.below(3), vec![], vec![]),
        10 => record(10, 0, r.numbers(&[(0.0, 4000.0), (0.0, 0.02)]), vec![]),
        _ => record(kind, 0, vec![], freq),
    }
}

pub fn processor(r: &mut Random) -> Record {
    let kind = 21 + r.below(15) as u8;
    let unit = (0.0, 1.0);
    let (numbers, chain) = match kind {
        21 => (vec![], vec![value(r, -1.0, 1.5)]),
        22..=25 => (r.numbers(&[(0.1, 8.0)]), vec![value(r, 20.0, 9000.0)]),
        26 => (r.numbers(&[(0.1, 8.0), (-24.0, 24.0)]), vec![value(r, 20.0, 9000.0)]),
        27 | 28 => (r.numbers(&[(-24.0, 24.0)]), vec![value(r, 20.0, 9000.0)]),
        29 => (r.numbers(&[(0.0, 0.05), (-0.9, 0.9)]), vec![]),
        30 => (r.numbers(&[unit, unit]), vec![]),
        31 => {
            let modes = (0..r.below(5))
                .map(|_| record(51, 0, r.numbers(&[(50.0, 6000.0), (0.0, 1.0), unit]), vec![]))
                .collect();
            (r.numbers(&[unit]), modes)
        }
        32 => (vec![], vec![value(r, 0.0, 12.0)]),
        33 => (r.numbers(&[(0.0, 20.0), unit]), vec![]),
        34 => (r.numbers(&[(0.0, 10.0), unit, unit]), vec![]),
        _ => (r.numbers(&[(-40.0, 0.0), (0.5, 20.0), (0.0, 0.05), (0.0, 0.2), (-6.0, 12.0)]), vec![]),
    };
    let option = if kind == 32 { r.below(6) } else { 0 };
    record(kind, option, numbers, chain)
}

/// A node at this depth, of at most 5.
pub fn node(r: &mut Random, depth: u32) -> Record {
    let choice = if depth >= 5 { 10 + r.below(10) } else { r.below(20) };
    match choice {
        0..=4 => chain(r, depth),
        5..=7 => record(11, 0, vec![], (0..r.below(5)).map(|_| node(r, depth + 1)).collect()),
        8..=9 => record(12, 0, vec![], (0..r.below(4)).map(|_| node(r, depth + 1)).collect()),
        10 => record(11 + r.below(3) as u8, 0, vec![], vec![]),
        11 => processor(r),
        _ => source(r),
    }
}

/// Mostly a source and processors after it, else stages of any sort.
fn chain(r: &mut Random, depth: u32) -> Record {
    let stages = if r.one_in(4) {
        (0..r.below(6)).map(|_| if r.one_in(2) { processor(r) } else { node(r, depth + 1) }).collect()
    } else {
        let first = node(r, depth + 1);
        [vec![first], (0..r.below(5)).map(|_| processor(r)).collect()].concat()
    };
    record(13, 0, vec![], stages)
}

/// Numbers for the records in which links climb.
fn numbering(r: &mut Random, root: &Record) -> Vec<u16> {
    let from = root.linked_from();
    let mut order = vec![0; from.len()];
    let mut ready = vec![0];
    for place in 0..from.len() {
        let i = ready.swap_remove(r.below(ready.len() as u64) as usize);
        order[i] = place as u16;
        ready.extend((1..from.len()).filter(|j| from[*j] == i));
    }
    order
}

pub fn sheet(r: &mut Random) -> Sheet {
    around(r, |r| {
        let mut root = if r.one_in(3) { node(r, 1) } else { chain(r, 1) };
        while root.count() > 256 {
            root = chain(r, 1);
        }
        root
    })
}

/// A sheet of a random tree.
pub fn around(r: &mut Random, tree: impl Fn(&mut Random) -> Record) -> Sheet {
    r.odd = r.pick(&[0, 0, 0, 200, 50, 50, 15, 4]);
    let root = tree(r);
    let rate = match r.below(8) {
        0 => 8000 + r.below(184_001) as u32,
        _ => r.pick(&[8000, 8000, 11025, 16000, 22050, 44100, 48000, 48000, 96000, 192000]),
    };
    let length = match r.below(6) {
        0 => 0,
        1 => r.word(),
        2 => r.below(100),
        _ => r.below(20_000),
    };
    let path = if r.one_in(2) { r.below(4) } else { r.word() };
    let order = if r.one_in(3) { Some(numbering(r, &root)) } else { None };
    Sheet { rate, length, path, root, order }
}

pub fn script(r: &mut Random) -> Script {
    r.odd = r.pick(&[0, 0, 0, 30, 8, 3]);
    let position = match r.below(12) {
        0 => r.below(1 << 24),
        1 => (1 << 24) - 700 + r.below(400),
        2 => r.below((1 << 62) - 100_000),
        3 => (1 << 62) - 100_000,
        _ => 0,
    };
    let moves = (0..4 + r.below(14)).map(|_| match r.below(9) {
        0 => Move::Pitch(r.number(0.25, 4.0), r.number(0.0, 1.0)),
        1 => Move::Pitch(r.number(0.25, 4.0), r.number(0.0, 0.01)),
        2 => Move::Bend(r.number(-0.5, 2.0)),
        3 => Move::Cutoff(r.number(0.1, 4.0)),
        _ if r.one_in(30) => Move::Fill(8000),
        _ => Move::Fill(r.pick(&[0, 1, 7, 64, 255, 256, 257, 300, 1000])),
    });
    Script { position, moves: moves.collect() }
}
