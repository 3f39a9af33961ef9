//! Both sides of each function: the port's, under its C name, and the Rust's own behind a call of the same kind.

use original::det;
use original::det::inner;

macro_rules! both {
    ($($port:ident, $rust:ident($($x:ident: $t:ty),*) -> $r:ty = $e:expr;)*) => {
        unsafe extern "C" {
            $(pub safe fn $port($($x: $t),*) -> $r;)*
        }
        pub mod rust {
            use super::*;
            $(#[inline(never)] pub extern "C" fn $rust($($x: $t),*) -> $r { $e })*
        }
    };
}

both! {
    leaf_floor, floor(x: f32) -> f32 = x.floor();
    leaf_trunc, trunc(x: f32) -> f32 = x.trunc();
    leaf_round, round(x: f32) -> f32 = x.round();
    leaf_fract, fract(x: f32) -> f32 = x.fract();
    leaf_wrap, wrap(x: f32) -> f32 = x - x.floor();
    leaf_abs, abs(x: f32) -> f32 = x.abs();
    leaf_max0, max0(x: f32) -> f32 = x.max(0.0);
    leaf_max, max(x: f32, y: f32) -> f32 = x.max(y);
    leaf_min, min(x: f32, y: f32) -> f32 = x.min(y);
    leaf_clamp, clamp(x: f32, lo: f32, hi: f32) -> f32 = x.clamp(lo, hi);
    leaf_rem_euclid, rem_euclid(x: f32, y: f32) -> f32 = x.rem_euclid(y);
    leaf_is_nan, is_nan(x: f32) -> bool = x.is_nan();
    leaf_is_finite, is_finite(x: f32) -> bool = x.is_finite();
    leaf_from_bits, from_bits(b: u32) -> f32 = f32::from_bits(b);
    leaf_to_bits, to_bits(x: f32) -> u32 = x.to_bits();
    leaf_round_f64, round_f64(x: f64) -> f64 = x.round();
    leaf_is_nan_f64, is_nan_f64(x: f64) -> bool = x.is_nan();
    leaf_from_bits_f64, from_bits_f64(b: u64) -> f64 = f64::from_bits(b);
    leaf_to_bits_f64, to_bits_f64(x: f64) -> u64 = x.to_bits();
    leaf_sqrt, sqrt(x: f32) -> f32 = x.sqrt();
    leaf_wrapping_mul, wrapping_mul(a: u64, b: u64) -> u64 = a.wrapping_mul(b);

    leaf_u64_to_f32, u64_to_f32(n: u64) -> f32 = n as f32;
    leaf_u32_to_f32, u32_to_f32(n: u32) -> f32 = n as f32;
    leaf_u32_to_f64, u32_to_f64(n: u32) -> f64 = n as f64;
    leaf_u64_to_f64, u64_to_f64(n: u64) -> f64 = n as f64;
    leaf_i64_to_f64, i64_to_f64(n: i64) -> f64 = n as f64;
    leaf_f64_to_f32, f64_to_f32(x: f64) -> f32 = x as f32;
    leaf_f32_to_f64, f32_to_f64(x: f32) -> f64 = x as f64;
    leaf_f32_to_u64, f32_to_u64(x: f32) -> u64 = x as u64;
    leaf_f64_to_i64, f64_to_i64(x: f64) -> i64 = x as i64;

    det_sin, sin(x: f64) -> f64 = det::sin(x);
    det_cos, cos(x: f64) -> f64 = det::cos(x);
    det_exp, exp(x: f64) -> f64 = det::exp(x);
    det_ln, ln(x: f64) -> f64 = det::ln(x);
    det_powf, powf(x: f64, y: f64) -> f64 = det::powf(x, y);
    det_tanh, tanh(x: f64) -> f64 = det::tanh(x);
    det_log10, log10(x: f64) -> f64 = det::log10(x);
    det_expm1_small, expm1_small(x: f64) -> f64 = inner::expm1_small(x);
    det_ldexp2, ldexp2(k: i64) -> f64 = inner::ldexp2(k);
    det_reduce_2pi, reduce_2pi(x: f64) -> f64 = inner::reduce_2pi(x);
    det_sin_poly, sin_poly(x: f64) -> f64 = inner::sin_poly(x);
    det_cos_poly, cos_poly(x: f64) -> f64 = inner::cos_poly(x);
    det_sinf, sinf(x: f32) -> f32 = det::sinf(x);
    det_cosf, cosf(x: f32) -> f32 = det::cosf(x);
    det_expf, expf(x: f32) -> f32 = det::expf(x);
    det_lnf, lnf(x: f32) -> f32 = det::lnf(x);
    det_powff, powff(x: f32, y: f32) -> f32 = det::powff(x, y);
    det_tanhf, tanhf(x: f32) -> f32 = det::tanhf(x);
    det_log10f, log10f(x: f32) -> f32 = det::log10f(x);
}
