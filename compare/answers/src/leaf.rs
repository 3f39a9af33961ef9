//! The leaves: rustc's own operations give the answers.

use crate::cases::*;
use crate::rng::Rng;
use crate::section::{double, of_double, of_single, section, single, Section};

/// A NaN is passed over; of two zeros of unlike sign `max` gives +0 and `min` -0, which Rust leaves open.
fn max(a: f32, b: f32) -> f32 {
    if a == 0.0 && b == 0.0 {
        return if a.is_sign_positive() { a } else { b };
    }
    a.max(b)
}

fn min(a: f32, b: f32) -> f32 {
    if a == 0.0 && b == 0.0 {
        return if a.is_sign_negative() { a } else { b };
    }
    a.min(b)
}

fn float32(name: &'static str, seed: u64, count: usize, f: fn(f32) -> f32) -> Section {
    section(name, 4, unary32(seed, count, vec![], musical), |[x]| of_single(f(single(x))))
}

fn test32(name: &'static str, seed: u64, f: fn(f32) -> bool) -> Section {
    section(name, 4, unary32(seed, 1_500, vec![], musical), |[x]| f(single(x)) as u64)
}

fn pair32(name: &'static str, seed: u64, f: fn(f32, f32) -> f32) -> Section {
    let usual = |r: &mut Rng| [musical(r), musical(r)].map(|x| (x as f32).to_bits() as u64);
    let list = cases(seed, 3_000, pairs(&few32(), &few32()), |r| [pattern32(r), pattern32(r)], usual);
    section(name, 4, list, |[a, b]| of_single(f(single(a), single(b))))
}

/// The remainder by any divisor, by one of about x's size, and by those of the phases and of the fold curve.
fn rem_euclid(seed: u64) -> Section {
    let any = |r: &mut Rng| {
        let (x, y) = (pattern32(r), pattern32(r));
        let field = ((x >> 23) & 0xff).saturating_sub(r.below(26) as u64);
        [x, if r.below(2) == 0 { y } else { (y & 0x807f_ffff) | (field << 23) }]
    };
    let usual = |r: &mut Rng| {
        let y = [1.0f32, 4.0, 2.0, 0.1, std::f32::consts::TAU, -3.0][r.below(6)];
        [(musical(r) as f32).to_bits() as u64, y.to_bits() as u64]
    };
    let list = cases(seed, 3_000, pairs(&few32(), &few32()), any, usual);
    section("rem_euclid", 4, list, |[x, y]| of_single(single(x).rem_euclid(single(y))))
}

/// Rust's `clamp` panics where lo is not at most hi, so such bounds have no answer and are left out.
fn clamp(seed: u64) -> Section {
    let bounds = [f32::NEG_INFINITY, -1.0, -0.0, 0.0, f32::MIN_POSITIVE, 0.5, 1.0, 20_000.0, f32::INFINITY];
    let mut edges = Vec::new();
    for (lo, hi) in bounds.iter().flat_map(|lo| bounds.iter().map(move |hi| (*lo, *hi))).filter(|(lo, hi)| lo <= hi) {
        edges.extend(few32().into_iter().map(|x| [x, lo.to_bits() as u64, hi.to_bits() as u64]));
    }
    let any = |r: &mut Rng| loop {
        let [x, lo, hi] = [pattern32(r), pattern32(r), pattern32(r)];
        if single(lo) <= single(hi) {
            break [x, lo, hi];
        }
    };
    let usual = |r: &mut Rng| {
        let (lo, hi) =
            [(20.0f32, 20_000.0f32), (-1.0, 1.0), (0.0, 1.0), (f32::MIN_POSITIVE, 1.0), (0.1, 10.0)][r.below(5)];
        [musical(r) as f32, lo, hi].map(|x| x.to_bits() as u64)
    };
    let list = cases(seed, 3_000, edges, any, usual);
    section("clamp", 4, list, |[x, lo, hi]| of_single(single(x).clamp(single(lo), single(hi))))
}

fn floats() -> Vec<Section> {
    vec![
        float32("floor", 1, 3_000, f32::floor),
        float32("trunc", 2, 3_000, f32::trunc),
        float32("round", 3, 3_000, f32::round),
        float32("fract", 4, 3_000, f32::fract),
        float32("abs", 5, 1_500, f32::abs),
        float32("wrap", 6, 3_000, |x| x - x.floor()),
        float32("max0", 7, 1_500, |x| max(x, 0.0)),
        test32("is_nan", 8, f32::is_nan),
        test32("is_finite", 9, f32::is_finite),
        pair32("max", 10, max),
        pair32("min", 11, min),
        clamp(12),
        rem_euclid(13),
        float32("bits", 14, 1_500, |x| x),
        section("round_f64", 8, unary64(15, 3_000, vec![], musical), |[x]| of_double(double(x).round())),
        section("is_nan_f64", 8, unary64(16, 1_500, vec![], musical), |[x]| double(x).is_nan() as u64),
        section("bits_f64", 8, unary64(17, 1_500, vec![], musical), |[x]| of_double(double(x))),
    ]
}

/// Whole numbers of every length; `usual` ones are positions and sample rates.
fn words(seed: u64, count: usize, mask: u64) -> Vec<[u64; 1]> {
    let mut edges = edge_words();
    edges.retain(|w| *w <= mask);
    cases(seed, count, singles(edges), |r| [r.word() & mask], |r| [r.next() >> (64 - 32 + r.below(16))])
}

/// The same, with the negative ones of each.
fn signed_words(seed: u64, count: usize) -> Vec<[u64; 1]> {
    let edges = edge_words().into_iter().filter(|w| *w <= 1 << 63).flat_map(|w| [[w], [w.wrapping_neg()]]);
    let sign = |r: &mut Rng, w: u64| if r.below(2) == 0 { w } else { w.wrapping_neg() };
    let any = |r: &mut Rng| {
        let w = r.word();
        [sign(r, w)]
    };
    let usual = |r: &mut Rng| {
        let w = r.next() >> (64 - 32 + r.below(16));
        [sign(r, w)]
    };
    cases(seed, count, edges.collect(), any, usual)
}

fn casts() -> Vec<Section> {
    let all = u64::MAX;
    let half = u32::MAX as u64;
    vec![
        section("u64_to_f32", 8, words(21, 3_000, all), |[n]| of_single(n as f32)),
        section("u32_to_f32", 4, words(22, 2_000, half), |[n]| of_single(n as u32 as f32)),
        section("u32_to_f64", 8, words(23, 1_500, half), |[n]| of_double(n as u32 as f64)),
        section("u64_to_f64", 8, words(24, 3_000, all), |[n]| of_double(n as f64)),
        section("i64_to_f64", 8, signed_words(25, 3_000), |[n]| of_double(n as i64 as f64)),
        section("f64_to_f32", 8, narrowed(26), |[x]| of_single(double(x) as f32)),
        section("f32_to_f64", 8, unary32(27, 2_000, vec![], musical), |[x]| of_double(single(x) as f64)),
        section("f32_to_u64", 8, unary32(28, 3_000, vec![], musical), |[x]| single(x) as u64),
        section("f64_to_i64", 8, unary64(29, 3_000, vec![], musical), |[x]| double(x) as i64 as u64),
    ]
}

/// An f64 whose pattern is random is nearly always out of an f32's range: half of these are in it.
fn narrowed(seed: u64) -> Vec<[u64; 1]> {
    let any = |r: &mut Rng| {
        let bits = pattern64(r);
        let exponent = 1023 - 152 + r.below(282) as u64;
        [if r.below(4) == 0 { bits } else { bits & !(0x7ff << 52) | exponent << 52 }]
    };
    cases(seed, 5_000, singles(half_ways()), any, |r| [musical(r).to_bits()])
}

fn products(seed: u64) -> Section {
    let few = [0, 1, 2, 3, 0xffff_fffe, 0xffff_ffff, 1 << 32, (1 << 32) + 1, 1 << 63, (1 << 63) - 1, u64::MAX];
    let mixer = [0xbf58_476d_1ce4_e5b9, 0x94d0_49bb_1331_11eb, 0x9e37_79b9_7f4a_7c15];
    let edges = [&few[..], &mixer[..]].concat();
    let usual = |r: &mut Rng| [r.next(), mixer[r.below(3)]];
    let list = cases(seed, 2_000, pairs(&edges, &edges), |r| [r.word(), r.word()], usual);
    section("wrapping_mul", 8, list, |[a, b]| a.wrapping_mul(b))
}

/// The numbers whose roots come nearest to half way between two f32s: whole numbers d 2^23 or d 2^24, d of 24 bits,
/// next to s^2 + s, which is (s + 1/2)^2 less a quarter.
fn near_half_way_roots() -> Vec<u64> {
    let mut list = Vec::new();
    for s in 1u64 << 23..1 << 24 {
        let middle = s * s + s;
        for shift in [23, 24] {
            let d = (middle + (1 << (shift - 1))) >> shift;
            let near = (d << shift).abs_diff(middle) <= 24;
            if near && (1 << 23..1 << 24).contains(&d) {
                list.push(((d << shift) as f32).to_bits() as u64);
            }
        }
    }
    list
}

pub fn sections() -> Vec<Section> {
    let mut list = floats();
    list.extend(casts());
    let roots = unary32(31, 4_000, near_half_way_roots(), |r| musical(r).abs());
    list.push(section("sqrt", 4, roots, |[x]| of_single(single(x).sqrt())));
    list.push(products(32));
    list
}
