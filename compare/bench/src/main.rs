//! The port beside the Rust: markdown tables of best times. Leaves and det's functions call by call, or with the word `blocks`
//! each kind's kernel over blocks.

mod blocks;
mod functions;
mod timing;

use functions::*;
use std::f64::consts::{FRAC_PI_4, TAU};
use std::process::ExitCode;
use timing::{compare, Callee, Same, Times, INPUTS};

/// SplitMix64: the same inputs on every run.
struct Rng(u64);

impl Rng {
    fn next(&mut self) -> u64 {
        self.0 = self.0.wrapping_add(0x9e37_79b9_7f4a_7c15);
        let z = (self.0 ^ (self.0 >> 30)).wrapping_mul(0xbf58_476d_1ce4_e5b9);
        let z = (z ^ (z >> 27)).wrapping_mul(0x94d0_49bb_1331_11eb);
        z ^ (z >> 31)
    }
}

fn words<T>(make: impl Fn(u64) -> T) -> Vec<T> {
    let mut rng = Rng(1);
    (0..INPUTS).map(|_| make(rng.next())).collect()
}

fn doubles(lo: f64, hi: f64) -> Vec<f64> {
    words(|w| lo + (hi - lo) * ((w >> 11) as f64 / (1u64 << 53) as f64))
}

fn singles(lo: f32, hi: f32) -> Vec<f32> {
    doubles(lo as f64, hi as f64).into_iter().map(|x| x as f32).collect()
}

/// The angles of an oscillator at 440 Hz and 48,000 samples a second, one after the other.
fn angles() -> Vec<f64> {
    (0..INPUTS).map(|k| TAU * (k as f64 * 440.0 / 48_000.0).fract()).collect()
}

/// Pairs of which the first is from the list.
fn with<T: Copy, U: Copy>(list: Vec<T>, second: U) -> Vec<(T, U)> {
    list.into_iter().map(|x| (x, second)).collect()
}

#[derive(Default)]
struct Table {
    compared: usize,
    differ: usize,
}

impl Table {
    fn row(&mut self, name: &str, inputs: &str, times: Times) {
        let Times { rust, rattle, differ } = times;
        println!("| {name} | {inputs} | {rust:.2} | {rattle:.2} | {:.2} |", rattle / rust);
        self.compared += INPUTS;
        self.differ += differ;
        if differ > 0 {
            eprintln!("{name}, {inputs}: {differ} results differ");
        }
    }

    fn one<A: Copy, R: Same + Copy + Default>(
        &mut self,
        name: &str,
        inputs: &str,
        list: Vec<A>,
        rust: extern "C" fn(A) -> R,
        rattle: extern "C" fn(A) -> R,
    ) where
        extern "C" fn(A) -> R: Callee<(A,), Out = R>,
    {
        let list: Vec<(A,)> = list.into_iter().map(|x| (x,)).collect();
        self.row(name, inputs, compare(&list, rust, rattle));
    }

    fn two<A: Copy, R: Same + Copy + Default>(
        &mut self,
        name: &str,
        inputs: &str,
        list: Vec<(A, A)>,
        rust: extern "C" fn(A, A) -> R,
        rattle: extern "C" fn(A, A) -> R,
    ) where
        extern "C" fn(A, A) -> R: Callee<(A, A), Out = R>,
    {
        self.row(name, inputs, compare(&list, rust, rattle));
    }
}

#[inline(never)]
extern "C" fn nothing(x: f32) -> f32 {
    x
}

fn floats(t: &mut Table) {
    let phases = || singles(0.0, 2.0);
    let mixed = || singles(-100.0, 100.0);
    t.one("a call alone", "", phases(), nothing, nothing);
    t.one("floor", "0 to 2", phases(), rust::floor, leaf_floor);
    t.one("floor", "-100 to 100", mixed(), rust::floor, leaf_floor);
    t.one("trunc", "0 to 2", phases(), rust::trunc, leaf_trunc);
    t.one("trunc", "-100 to 100", mixed(), rust::trunc, leaf_trunc);
    t.one("round", "0 to 2", phases(), rust::round, leaf_round);
    t.one("round", "-100 to 100", mixed(), rust::round, leaf_round);
    t.one("fract", "0 to 2", phases(), rust::fract, leaf_fract);
    t.one("fract", "-100 to 100", mixed(), rust::fract, leaf_fract);
    t.one("wrap", "0 to 2", phases(), rust::wrap, leaf_wrap);
    t.one("wrap", "-100 to 100", mixed(), rust::wrap, leaf_wrap);
    t.one("abs", "-1 to 1", singles(-1.0, 1.0), rust::abs, leaf_abs);
    t.one("max0", "20 to 20,000", singles(20.0, 20_000.0), rust::max0, leaf_max0);
    t.one("max0", "-1 to 1", singles(-1.0, 1.0), rust::max0, leaf_max0);
    let pairs = || mixed().into_iter().zip(mixed().into_iter().rev()).collect();
    t.two("max", "-100 to 100", pairs(), rust::max, leaf_max);
    t.two("min", "-100 to 100", pairs(), rust::min, leaf_min);
    let clamped: Vec<_> = singles(-2.0, 2.0).into_iter().map(|x| (x, -1.0, 1.0)).collect();
    type Three = extern "C" fn(f32, f32, f32) -> f32;
    t.row("clamp", "-2 to 2, to -1 and 1", compare(&clamped, rust::clamp as Three, leaf_clamp as Three));
    t.two("rem_euclid", "0 to 8, by 4", with(singles(0.0, 8.0), 4.0), rust::rem_euclid, leaf_rem_euclid);
    t.two("rem_euclid", "-8 to 8, by 4", with(singles(-8.0, 8.0), 4.0), rust::rem_euclid, leaf_rem_euclid);
    t.one("sqrt", "0 to 4", singles(0.0, 4.0), rust::sqrt, leaf_sqrt);
    t.one("is_nan", "-100 to 100", mixed(), rust::is_nan, leaf_is_nan);
    t.one("is_finite", "-100 to 100", mixed(), rust::is_finite, leaf_is_finite);
    t.one("from_bits", "-100 to 100", mixed().into_iter().map(f32::to_bits).collect(), rust::from_bits, leaf_from_bits);
    t.one("to_bits", "-100 to 100", mixed(), rust::to_bits, leaf_to_bits);
    let wide = || doubles(-100.0, 100.0);
    t.one("round_f64", "-100 to 100", wide(), rust::round_f64, leaf_round_f64);
    t.one("is_nan_f64", "-100 to 100", wide(), rust::is_nan_f64, leaf_is_nan_f64);
    let bits = wide().into_iter().map(f64::to_bits).collect();
    t.one("from_bits_f64", "-100 to 100", bits, rust::from_bits_f64, leaf_from_bits_f64);
    t.one("to_bits_f64", "-100 to 100", wide(), rust::to_bits_f64, leaf_to_bits_f64);
}

fn numbers(t: &mut Table) {
    let mixer = 0xbf58_476d_1ce4_e5b9;
    t.two("wrapping_mul", "any word", with(words(|w| w), mixer), rust::wrapping_mul, leaf_wrapping_mul);
    t.one("u64_to_f32", "below 2^24", words(|w| w >> 40), rust::u64_to_f32, leaf_u64_to_f32);
    t.one("u64_to_f32", "below 2^40", words(|w| w >> 24), rust::u64_to_f32, leaf_u64_to_f32);
    t.one("u32_to_f32", "any word", words(|w| w as u32), rust::u32_to_f32, leaf_u32_to_f32);
    t.one("u32_to_f64", "any word", words(|w| w as u32), rust::u32_to_f64, leaf_u32_to_f64);
    t.one("u64_to_f64", "below 2^40", words(|w| w >> 24), rust::u64_to_f64, leaf_u64_to_f64);
    t.one("i64_to_f64", "-2^40 to 2^40", words(|w| w as i64 >> 23), rust::i64_to_f64, leaf_i64_to_f64);
    t.one("f64_to_f32", "-1 to 1", doubles(-1.0, 1.0), rust::f64_to_f32, leaf_f64_to_f32);
    t.one("f32_to_f64", "-1 to 1", singles(-1.0, 1.0), rust::f32_to_f64, leaf_f32_to_f64);
    t.one("f32_to_u64", "0 to 1,000,000", singles(0.0, 1e6), rust::f32_to_u64, leaf_f32_to_u64);
    t.one("f64_to_i64", "-1,000 to 1,000", doubles(-1e3, 1e3), rust::f64_to_i64, leaf_f64_to_i64);
}

fn kernels(t: &mut Table) {
    let turns = || doubles(0.0, 2.0 * TAU);
    let far = || doubles(-1e4, 1e4);
    t.one("sin", "440 Hz in order", angles(), rust::sin, det_sin);
    t.one("sin", "0 to 4 pi", turns(), rust::sin, det_sin);
    t.one("sin", "-10,000 to 10,000", far(), rust::sin, det_sin);
    t.one("cos", "440 Hz in order", angles(), rust::cos, det_cos);
    t.one("cos", "0 to 4 pi", turns(), rust::cos, det_cos);
    t.one("cos", "-10,000 to 10,000", far(), rust::cos, det_cos);
    t.one("exp", "-10 to 2", doubles(-10.0, 2.0), rust::exp, det_exp);
    t.one("ln", "0.000,001 to 2", doubles(1e-6, 2.0), rust::ln, det_ln);
    t.one("ln", "20 to 20,000", doubles(20.0, 2e4), rust::ln, det_ln);
    let semitones = || doubles(-4.0, 4.0).into_iter().map(|y| (2.0, y)).collect();
    t.two("powf", "2 to -4 to 4", semitones(), rust::powf, det_powf);
    t.one("tanh", "-0.25 to 0.25", doubles(-0.25, 0.25), rust::tanh, det_tanh);
    t.one("tanh", "-4 to 4", doubles(-4.0, 4.0), rust::tanh, det_tanh);
    t.one("log10", "0.000,001 to 2", doubles(1e-6, 2.0), rust::log10, det_log10);
    t.one("expm1_small", "-0.5 to 0.5", doubles(-0.5, 0.5), rust::expm1_small, det_expm1_small);
    t.one("ldexp2", "-64 to 63", words(|w| (w >> 57) as i64 - 64), rust::ldexp2, det_ldexp2);
    t.one("reduce_2pi", "0 to 4 pi", turns(), rust::reduce_2pi, det_reduce_2pi);
    let eighth = || doubles(-FRAC_PI_4, FRAC_PI_4);
    t.one("sin_poly", "-pi/4 to pi/4", eighth(), rust::sin_poly, det_sin_poly);
    t.one("cos_poly", "-pi/4 to pi/4", eighth(), rust::cos_poly, det_cos_poly);
}

fn wrappers(t: &mut Table) {
    let turns = || singles(0.0, 2.0 * TAU as f32);
    let far = || singles(-1e4, 1e4);
    let in_order = || angles().into_iter().map(|x| x as f32).collect();
    t.one("sinf", "440 Hz in order", in_order(), rust::sinf, det_sinf);
    t.one("sinf", "0 to 4 pi", turns(), rust::sinf, det_sinf);
    t.one("sinf", "-10,000 to 10,000", far(), rust::sinf, det_sinf);
    t.one("cosf", "440 Hz in order", in_order(), rust::cosf, det_cosf);
    t.one("cosf", "0 to 4 pi", turns(), rust::cosf, det_cosf);
    t.one("expf", "-10 to 2", singles(-10.0, 2.0), rust::expf, det_expf);
    t.one("lnf", "20 to 20,000", singles(20.0, 2e4), rust::lnf, det_lnf);
    let semitones = || singles(-4.0, 4.0).into_iter().map(|y| (2.0, y)).collect();
    t.two("powff", "2 to -4 to 4", semitones(), rust::powff, det_powff);
    t.one("tanhf", "-0.25 to 0.25", singles(-0.25, 0.25), rust::tanhf, det_tanhf);
    t.one("tanhf", "-4 to 4", singles(-4.0, 4.0), rust::tanhf, det_tanhf);
    t.one("log10f", "0.000,001 to 2", singles(1e-6, 2.0), rust::log10f, det_log10f);
}

fn calls() -> ExitCode {
    println!("| function | inputs | Rust ns | Rattle ns | ratio |");
    println!("|---|---|---|---|---|");
    let mut table = Table::default();
    floats(&mut table);
    numbers(&mut table);
    kernels(&mut table);
    wrappers(&mut table);
    println!("\n{} results compared, {} differ.", table.compared, table.differ);
    if table.differ > 0 {
        return ExitCode::FAILURE;
    }
    ExitCode::SUCCESS
}

fn main() -> ExitCode {
    let words: Vec<String> = std::env::args().skip(1).collect();
    match words.first().map(String::as_str) {
        Some("blocks") => blocks::run(words.get(1).map(String::as_str)),
        _ => calls(),
    }
}
