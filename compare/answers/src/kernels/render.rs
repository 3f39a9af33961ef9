//! osc.rs and effects.rs.

use super::operand::*;
use super::{drive_shape, shape};
use crate::rng::Rng;
use crate::section::{single, Section};
use original::render::{effects, osc};

/// A phase at or next to the ends of a step's residual.
fn step_end(r: &mut Rng) -> Vec<u64> {
    let dt = r.range(0.0, 0.5) as f32;
    let at = [dt, 1.0 - dt, 0.0, 1.0][r.below(4)];
    let near = (at.to_bits() + r.below(3) as u32).saturating_sub(1);
    vec![near as u64, dt.to_bits() as u64]
}

/// Where a fold turns about, and where it takes 1,024 and 1,025 turns, which is the last that is let.
const FOLDS: [f64; 13] = [1.0, 2.0, 3.0, 4.0, 5.0, 7.0, 100.0, 2_046.5, 2_047.0, 2_048.0, 2_049.0, 2_050.0, 2_051.0];

fn driven() -> Operand {
    let at = [&FOLDS[..], &[2_052.0, 2_053.0, 3_000.5, 1e6, 0.125, 0.25, 10.0, 20.0]].concat();
    float(&at, |r| match r.below(4) {
        0 => r.range(-1.0, 1.0),
        1 => r.range(-20.0, 20.0),
        2 => r.range(-2_060.0, 2_060.0),
        _ => r.range(2_040.0, 2_056.0),
    })
}

pub fn sections() -> Vec<Section> {
    let cutoff = || float(&[20.0, 3_900.0, 21_950.0, 23_900.0], |r| r.range(10.0, 24_000.0));
    let q = || float(&[0.05, 0.707, 1.0, 10.0], |r| r.range(0.0, 12.0));
    let db = || float(&[6.0, 24.0, 40.0], |r| r.range(-24.0, 24.0));
    let sr = || number(&[0, 1, 239, 240, 241, 8_000, 44_100, 48_000, 192_000, u32::MAX as u64], 8_000, 192_000);
    vec![
        kernel("poly_blep", 2_500, vec![phase(), float(&[0.01, 0.5, 1.0], |r| r.range(0.0, 0.6))])
            .section(step_end, |x| Some(floats([osc::inner::poly_blep(single(x[0]), single(x[1]))]))),
        kernel("osc", 2_500, vec![choice(4), phase()]).float(|x| osc::inner::osc(shape(x[0]), single(x[1]))),
        kernel("biquad_coeffs", 1_800, vec![choice(7), db(), cutoff(), q(), sr()]).plain(|x| {
            let [gain, fc, q] = take(x, 1);
            let (b0, b1, b2, a1, a2) = effects::inner::biquad_coeffs(x[0] as u8, gain, fc, q, x[4] as u32);
            floats([b0, b1, b2, a1, a2])
        }),
        kernel("drive_curve", 2_500, vec![driven(), choice(3)])
            .float(|x| effects::inner::drive_curve(single(x[0]), drive_shape(x[1]))),
        kernel("drive_antideriv", 2_500, vec![driven(), choice(3)])
            .float(|x| effects::inner::drive_antideriv(single(x[0]), drive_shape(x[1]))),
    ]
}
