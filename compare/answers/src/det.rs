//! The kernels of det.rs: the file itself gives the answers.

use crate::cases::*;
use crate::rng::Rng;
use crate::section::{double, of_double, of_single, section, single, Section};
use original::det::{self, inner};
use std::f64::consts::{FRAC_PI_4, LN_2, SQRT_2, TAU};

/// Where sine folds: the multiples of an eighth of the circle, near and far, and past what the reduction can do.
fn angles() -> Vec<f64> {
    let mut list: Vec<f64> = (1..34).map(|k| k as f64 * FRAC_PI_4).collect();
    list.extend([1e3, 1e6, 1e9, 1e12].map(|k| (k * TAU).round() + FRAC_PI_4));
    let mut far = 1.234567e14;
    while far < 1e300 {
        list.push(far);
        far *= 1e11;
    }
    list
}

/// The ends of exp's range, and the half ways of its reduction by ln 2.
fn exponents() -> Vec<f64> {
    let mut list = vec![709.782712893383, 709.7827128933841, 745.133219101941, 745.1332191019412, 708.3964185322641];
    list.extend([-20.5, 0.5, 1.5, 2.5, 9.5, 100.5, 1022.5, 1023.5].map(|k| k * LN_2));
    list.extend([88.7, 87.3, 103.97, 710.0, 746.0, 744.44]);
    list
}

/// Powers of two, the subnormal ones too, and mantissas around the square root of 2, where ln folds.
fn magnitudes() -> Vec<u64> {
    let mut list: Vec<u64> = (0..52).step_by(3).map(|k| 1u64 << k).collect();
    for k in [-1070, -1022, -1021, -500, -64, -2, -1, 0, 1, 2, 10, 64, 500, 1023] {
        list.extend(around64(&[power(k), power(k) * SQRT_2, power(k) * 0.75]));
    }
    list.extend(around64(&[10.0, 100.0, 1000.0, 0.1, 0.01, 1e-5]));
    list
}

/// Where tanh changes its form.
fn bends() -> Vec<f64> {
    vec![0.125, 0.25, 0.5, 10.0, 20.0, 19.0, 22.0, 1e-5, 1e-10, 1e-20, 1e-300, 18.714973875118524]
}

fn phase(r: &mut Rng) -> f64 {
    match r.below(3) {
        0 => r.range(0.0, 2.0 * TAU),
        1 => r.range(-TAU, TAU),
        _ => r.range(-1.0, 1.0) * power(r.below(41) as i32),
    }
}

fn exponent(r: &mut Rng) -> f64 {
    match r.below(3) {
        0 => r.range(-10.0, 2.0),
        1 => r.range(-1.0, 1.0),
        _ => r.range(-750.0, 720.0),
    }
}

/// Rates, times and gains.
fn magnitude(r: &mut Rng) -> f64 {
    match r.below(3) {
        0 => r.range(20.0, 20_000.0),
        1 => r.range(1e-6, 2.0),
        _ => power(r.below(80) as i32 - 40) * r.range(1.0, 2.0),
    }
}

fn drive(r: &mut Rng) -> f64 {
    match r.below(3) {
        0 => r.range(-0.5, 0.5),
        1 => r.range(-4.0, 4.0),
        _ => r.range(-25.0, 25.0),
    }
}

/// Semitones, decibels and decays.
fn base_and_exponent(r: &mut Rng) -> [f64; 2] {
    match r.below(4) {
        0 => [2.0, r.range(-48.0, 48.0) / 12.0],
        1 => [10.0, r.range(-60.0, 24.0) / 20.0],
        2 => [magnitude(r), r.range(-3.0, 3.0)],
        _ => [0.001, r.range(0.0, 2.0)],
    }
}

/// The exponent whose power of two the Rust takes for 0 (docs/DIFFERENCES.md): no case here scales by it.
const LOST: i64 = -1023;

/// Whether exp of this scales by that power.
fn scales_by_lost_power(x: f64) -> bool {
    (x / LN_2).round() as i64 == LOST
}

fn exponentials(seed: u64, more: &[u64]) -> Section {
    let mut list = unary64(seed, 3_000, more.to_vec(), exponent);
    list.retain(|[x]| !scales_by_lost_power(double(*x)));
    section("exp", 8, list, |[x]| of_double(det::exp(double(x))))
}

fn kernel(name: &'static str, seed: u64, more: &[u64], usual: fn(&mut Rng) -> f64, f: fn(f64) -> f64) -> Section {
    let list = unary64(seed, 3_000, more.to_vec(), usual);
    section(name, 8, list, |[x]| of_double(f(double(x))))
}

fn wrapper(name: &'static str, seed: u64, more: &[f64], usual: fn(&mut Rng) -> f64, f: fn(f32) -> f32) -> Section {
    let list = unary32(seed, 3_000, around32(more), usual);
    section(name, 4, list, |[x]| of_single(f(single(x))))
}

fn powers(seed: u64) -> Section {
    let bases = [0.0, -0.0, 5e-324, f64::MIN_POSITIVE, 0.5, 1.0, 2.0, 10.0, 1e300, f64::MAX, f64::INFINITY];
    let other = [-1.0, -2.0, -5e-324, f64::NEG_INFINITY, f64::NAN, 1.0 - f64::EPSILON, 1.0 + f64::EPSILON];
    let exponents = [0.0, -0.0, 1.0, -1.0, 0.5, -0.5, 2.0, -2.0, 1.0 / 12.0, 10.0, 1000.0, -1000.0, 1074.0, -1075.0];
    let far = [1e-300, 1e300, -1e300, 5e-324, f64::INFINITY, f64::NEG_INFINITY, f64::NAN];
    let bits = |list: &[f64]| list.iter().map(|x| x.to_bits()).collect::<Vec<_>>();
    let edges = pairs(&bits(&[&bases[..], &other[..]].concat()), &bits(&[&exponents[..], &far[..]].concat()));
    let mut list =
        cases(seed, 3_000, edges, |r| [pattern64(r), pattern64(r)], |r| base_and_exponent(r).map(f64::to_bits));
    list.retain(|[x, y]| !scales_by_lost_power(double(*y) * det::ln(double(*x))));
    section("powf", 8, list, |[x, y]| of_double(det::powf(double(x), double(y))))
}

fn powers32(seed: u64) -> Section {
    let any = |r: &mut Rng| [pattern32(r), pattern32(r)];
    let list = cases(seed, 3_000, pairs(&few32(), &few32()), any, |r| {
        base_and_exponent(r).map(|x| (x as f32).to_bits() as u64)
    });
    section("powff", 4, list, |[x, y]| of_single(det::powff(single(x), single(y))))
}

/// Every exponent of a double and the ends of an i64. The operand is on file as the f64 that casts to it.
fn scales(seed: u64) -> Section {
    let ends = [i64::MIN, i64::MIN + 1024, i64::MAX, i64::MAX - 1023, -(1 << 31), 1 << 31, -(1 << 52), 1 << 52];
    let operand = |k: i64| [(k as f64).to_bits()];
    let edges = (-1_100..=1_100).chain(ends).map(operand).collect();
    let near = |r: &mut Rng| operand(r.below(4_096) as i64 - 2_048);
    let mut list = cases(seed, 2_500, edges, |r| operand(r.next() as i64), near);
    list.retain(|[k]| double(*k) as i64 != LOST);
    section("ldexp2", 8, list, |[k]| of_double(inner::ldexp2(double(k) as i64)))
}

pub fn sections() -> Vec<Section> {
    let turns = around64(&angles());
    let ends = around64(&exponents());
    let sizes = magnitudes();
    let curve = around64(&bends());
    let small = |r: &mut Rng| r.range(-FRAC_PI_4, FRAC_PI_4);
    vec![
        kernel("sin", 101, &turns, phase, det::sin),
        kernel("cos", 102, &turns, phase, det::cos),
        exponentials(103, &ends),
        kernel("ln", 104, &sizes, magnitude, det::ln),
        powers(105),
        kernel("tanh", 106, &curve, drive, det::tanh),
        kernel("log10", 107, &sizes, magnitude, det::log10),
        kernel("expm1_small", 108, &curve, drive, inner::expm1_small),
        scales(109),
        kernel("reduce_2pi", 110, &turns, phase, inner::reduce_2pi),
        kernel("sin_poly", 111, &turns, small, inner::sin_poly),
        kernel("cos_poly", 112, &turns, small, inner::cos_poly),
        wrapper("sinf", 113, &angles(), phase, det::sinf),
        wrapper("cosf", 114, &angles(), phase, det::cosf),
        wrapper("expf", 115, &exponents(), exponent, det::expf),
        wrapper("lnf", 116, &[10.0, 100.0, SQRT_2, 0.01], magnitude, det::lnf),
        powers32(117),
        wrapper("tanhf", 118, &bends(), drive, det::tanhf),
        wrapper("log10f", 119, &[10.0, 100.0, SQRT_2, 0.01], magnitude, det::log10f),
    ]
}
