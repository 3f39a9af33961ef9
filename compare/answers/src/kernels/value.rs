//! streaming/value.rs.

use super::operand::*;
use super::{curve, shape};
use crate::rng::Rng;
use crate::section::{single, Section};
use original::render::osc::inner::osc;
use original::streaming::value::inner;

/// value.rs, in `eval` of `Val::Lfo`: `let phase = (t as f32 / *srf * *rate).fract();`. The phase is not to be had from
/// there, so it is said again here, and has to give what each shape gives there.
fn lfo_phase(rate: f32, srf: f32, t: usize) -> f32 {
    let phase = (t as f32 / srf * rate).fract();
    for k in 0..4 {
        let there = inner::lfo(shape(k), [rate, 1.0, 0.0, srf], t);
        let here = 0.0 + 1.0 * osc(shape(k), phase);
        assert!(there.to_bits() == here.to_bits() || there.is_nan() && here.is_nan());
    }
    phase
}

fn modulators() -> Vec<Section> {
    let value = || float(&[1.0, 440.0], |r| r.range(-1.0, 1.0) * [1.0, 20_000.0][r.below(2)]);
    let hertz = || float(&[0.5, 1.0, 5.0, 40.0], |r| r.range(-2.0, 40.0));
    let secs = || float(&[1e-6, 0.5, 1.0], |r| r.range(1e-6, 2.0));
    let stage = || between(0.0, 0.5);
    let steps = || within(1, 64);
    vec![
        kernel("slide", 2_500, vec![choice(2), value(), value(), secs(), rate(), position()])
            .float(|x| inner::slide(curve(x[0]), take(x, 1), x[5] as usize)),
        kernel("lfo", 2_500, vec![choice(4), hertz(), value(), value(), rate(), position()])
            .float(|x| inner::lfo(shape(x[0]), take(x, 1), x[5] as usize)),
        kernel("lfo_phase", 2_000, vec![hertz(), rate(), position()])
            .float(|x| lfo_phase(single(x[0]), single(x[1]), x[2] as usize)),
        kernel("arp_index", 2_000, vec![hertz(), rate(), position(), steps()]).plain(|x| {
            let index = inner::arp_index(single(x[0]), single(x[1]), x[2] as usize, x[3] as usize);
            vec![Answer::Number(index as u64)]
        }),
        kernel("release_start", 2_000, vec![position(), whole_rate(), secs()])
            .float(|x| inner::release_start(x[0] as usize, single(x[1]) as u32, single(x[2]))),
        kernel(
            "env_mod",
            2_500,
            vec![stage(), stage(), stage(), stage(), stage(), value(), value(), rate(), secs(), position()],
        )
        .float(|x| inner::env_mod(take(x, 0), x[9] as usize)),
    ]
}

/// The walk's phase is below 1, and its increment at most 64: the Rust takes any number of turns.
fn walk() -> Vec<Operand> {
    let value = || float(&[1.0, 440.0], |r| r.range(-1_000.0, 1_000.0));
    let increment = float(&[1e-4, 0.5, 1.0, 63.0, 64.0], |r| match r.below(3) {
        0 => 64.0,
        1 => r.range(0.0, 64.0),
        _ => r.range(0.0, 0.1),
    });
    vec![increment, value(), value(), word(), value(), value(), phase()]
}

/// The longest step, or a whole one, from a phase at an end: 63 to 65 turns, or 1 or 2.
fn most_turns(r: &mut Rng) -> Vec<u64> {
    let phase = [0.0, 0.5, 1.0, f32::from_bits(1.0f32.to_bits() - 1), f32::MIN_POSITIVE][r.below(5)];
    let inc = [64.0, 63.5, 1.0, f32::from_bits(1.0f32.to_bits() - 1)][r.below(4)];
    let [from, to, prev, next] = [0; 4].map(|_| (r.range(-10.0, 10.0) as f32).to_bits() as u64);
    vec![inc.to_bits() as u64, from, to, r.next(), prev, next, phase.to_bits() as u64]
}

fn rand() -> Vec<Section> {
    let value = || float(&[1.0, 440.0], |r| r.range(-1_000.0, 1_000.0));
    let targets = || float(&[1e-4, 1.0, 10_000.0, 1e7], |r| r.range(0.0, 10_000.0));
    vec![
        kernel("rand_increment", 2_000, vec![targets(), whole_rate()])
            .float(|x| inner::rand_increment(single(x[0]), single(x[1]) as u32)),
        kernel("rand_out", 2_000, vec![value(), value(), phase()]).float(|x| {
            // The value comes before the turns, and this increment lets none be taken at whatever phase.
            inner::rand([f32::NEG_INFINITY, 0.0, 0.0], 0, take(x, 0)).0
        }),
        kernel("rand_next", 1_500, walk()).section(most_turns, |x| {
            let (inc, phase) = (single(x[0]), single(x[6]));
            if inc > 64.0 || phase > 1.0 {
                return None;
            }
            let (_, word, state) = inner::rand(take(x, 0), x[3], take(x, 4));
            let mut list = vec![Answer::Word(word)];
            list.extend(floats(state));
            Some(list)
        }),
    ]
}

pub fn sections() -> Vec<Section> {
    let mut list = modulators();
    list.extend(rand());
    list
}
