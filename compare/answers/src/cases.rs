//! The operands: first those at which an implementation is likely to go wrong, then patterns of every exponent,
//! then numbers of the size that a synthesizer works with.

use crate::rng::Rng;

/// NaNs of several payloads, zeros, infinities, and the ends of the subnormal and the normal numbers.
pub fn specials32() -> Vec<u64> {
    let positive = [0x7fc0_0000, 0x7f80_0001, 0x7fbf_ffff, 0x7fff_ffff, 0, 0x7f80_0000, 1, 2, 0x007f_ffff, 0x0080_0000];
    let more = [0x0080_0001, 0x7f7f_ffff, 0x7f7f_fffe];
    both_signs(positive.into_iter().chain(more), 1 << 31)
}

fn specials64() -> Vec<u64> {
    let infinity = 0x7ff0_0000_0000_0000;
    let normal = 0x0010_0000_0000_0000;
    let nans = [0x7ff8_0000_0000_0000, infinity + 1, 0x7ff7_ffff_ffff_ffff, 0x7fff_ffff_ffff_ffff];
    let rest = [0, infinity, 1, 2, normal - 1, normal, normal + 1, infinity - 1, infinity - 2];
    both_signs(nans.into_iter().chain(rest), 1 << 63)
}

fn both_signs(patterns: impl Iterator<Item = u64>, sign: u64) -> Vec<u64> {
    patterns.flat_map(|p| [p, p | sign]).collect()
}

/// Each value with its two neighbours, and their negatives.
pub fn around32(values: &[f64]) -> Vec<u64> {
    let bits = values.iter().map(|v| (*v as f32).abs().to_bits() as u64);
    both_signs(bits.flat_map(|b| [b, b + 1, b.saturating_sub(1)]), 1 << 31)
}

pub fn around64(values: &[f64]) -> Vec<u64> {
    let bits = values.iter().map(|v| v.abs().to_bits());
    both_signs(bits.flat_map(|b| [b, b + 1, b.saturating_sub(1)]), 1 << 63)
}

/// 2^k, by its bits: what `powi` gives may differ from one compiler to the next.
pub fn power(k: i32) -> f64 {
    assert!((-1_074..1_024).contains(&k));
    f64::from_bits(if k < -1_022 { 1 << (k + 1_074) } else { ((k + 1_023) as u64) << 52 })
}

/// Halves, whole numbers, and the powers of two at which a format or a cast changes its ways.
fn centres() -> Vec<f64> {
    let mut values =
        vec![0.1, 0.25, 0.5, 0.75, 1.0, 1.5, 2.0, 2.5, 3.0, 3.5, 4.0, 4.5, 5.5, 99.5, 100.5, 32767.5, 65535.5];
    for k in [21, 22, 23, 24, 25, 31, 32, 51, 52, 53, 54, 62, 63, 64, 65] {
        values.extend([power(k) - 1.0, power(k) - 0.5, power(k), power(k) + 0.5, power(k) + 1.0, power(k) + 2.0]);
    }
    values.extend([power(-10), power(-30), power(-100), power(-125), power(100), power(126), 1e10, 1e20, 1e30]);
    values
}

pub fn edges32() -> Vec<u64> {
    distinct([specials32(), around32(&centres())].concat())
}

pub fn edges64() -> Vec<u64> {
    let mut values = centres();
    values.extend([1e15, 1e16, 1e18, 1e19, 1e50, 1e100, 1e150, 1e200, 1e250, 1e300, 1e308, 1e-300, power(-1021)]);
    distinct([specials64(), around64(&values)].concat())
}

/// The f64s that lie on an f32, half way between two, and next to those: where rounding to f32 turns.
pub fn half_ways() -> Vec<u64> {
    let mut values = Vec::new();
    for b in edges32().into_iter().filter(|b| *b < 0x7f7f_ffff) {
        let (low, high) = (f32::from_bits(b as u32) as f64, f32::from_bits(b as u32 + 1) as f64);
        values.push((low + high) / 2.0);
    }
    // Half a step above the largest f32 is where infinity begins.
    values.extend([f32::MAX as f64 + power(103), f32::MAX as f64, power(-150), power(-151), power(-149)]);
    distinct([edges64(), around64(&values)].concat())
}

/// Whole numbers around each power of two, and around the half ways of the f32 and the f64 above it.
pub fn edge_words() -> Vec<u64> {
    let mut words = vec![0, u64::MAX, u64::MAX - 1];
    for k in 0..64 {
        let top = 1u64 << k;
        words.extend([top - 1, top, top + 1]);
        for half in [24, 53].into_iter().filter(|h| k >= *h) {
            let step = 1u64 << (k - half);
            for tie in [step, 3 * step, top - step] {
                words.extend([top + tie - 1, top + tie, top.wrapping_add(tie).wrapping_add(1)]);
            }
        }
    }
    words.extend([16_777_217, 16_777_219, 0xbf58_476d_1ce4_e5b9, 0x94d0_49bb_1331_11eb, 0x9e37_79b9_7f4a_7c15]);
    distinct(words)
}

/// A short list for pairs and triples.
pub fn few32() -> Vec<u64> {
    let bits = |x: f32| x.to_bits() as u64;
    let mut list = vec![0, 1, 0x007f_ffff, 0x0080_0000, bits(0.1), bits(0.5), bits(1.0), bits(1.0) - 1, bits(1.0) + 1];
    list.extend([1.5, 2.0, 3.0, 4.0, 8_388_608.0, 16_777_215.0, f32::MAX, f32::INFINITY].map(bits));
    let mut list = both_signs(list.into_iter(), 1 << 31);
    list.extend([0x7fc0_0000, 0xff80_0001]);
    list
}

pub fn pairs(first: &[u64], second: &[u64]) -> Vec<[u64; 2]> {
    first.iter().flat_map(|a| second.iter().map(|b| [*a, *b])).collect()
}

fn distinct(list: Vec<u64>) -> Vec<u64> {
    let mut seen = std::collections::HashSet::new();
    list.into_iter().filter(|b| seen.insert(*b)).collect()
}

/// Any pattern of an f32. A random word has every exponent alike often.
pub fn pattern32(rng: &mut Rng) -> u64 {
    rng.next() >> 32
}

pub fn pattern64(rng: &mut Rng) -> u64 {
    rng.next()
}

/// The edges, then `any` for half of what is left of `count`, then `usual`.
pub fn cases<const N: usize>(
    seed: u64,
    count: usize,
    edges: Vec<[u64; N]>,
    any: impl Fn(&mut Rng) -> [u64; N],
    usual: impl Fn(&mut Rng) -> [u64; N],
) -> Vec<[u64; N]> {
    assert!(edges.len() <= count, "{} edges for {count} cases", edges.len());
    let mut rng = Rng::new(seed);
    let mut list = edges;
    let turn = list.len() + (count - list.len()) / 2;
    while list.len() < turn {
        list.push(any(&mut rng));
    }
    while list.len() < count {
        list.push(usual(&mut rng));
    }
    list
}

pub fn singles(list: Vec<u64>) -> Vec<[u64; 1]> {
    list.into_iter().map(|b| [b]).collect()
}

/// Cases of a function of one f32, from the edges of every such function and `more` of its own.
pub fn unary32(seed: u64, count: usize, more: Vec<u64>, usual: impl Fn(&mut Rng) -> f64) -> Vec<[u64; 1]> {
    let edges = singles(distinct([edges32(), more].concat()));
    cases(seed, count, edges, |r| [pattern32(r)], |r| [(usual(r) as f32).to_bits() as u64])
}

pub fn unary64(seed: u64, count: usize, more: Vec<u64>, usual: impl Fn(&mut Rng) -> f64) -> Vec<[u64; 1]> {
    let edges = singles(distinct([edges64(), more].concat()));
    cases(seed, count, edges, |r| [pattern64(r)], |r| [usual(r).to_bits()])
}

/// Phases, values of both signs, and positions.
pub fn musical(rng: &mut Rng) -> f64 {
    match rng.below(4) {
        0 => rng.range(0.0, 2.0),
        1 => rng.range(-4.0, 4.0),
        2 => rng.range(-20_000.0, 20_000.0),
        _ => rng.range(-1.0, 1.0) * power(rng.below(26) as i32),
    }
}
