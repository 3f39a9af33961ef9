//! streaming/source.rs.

use super::operand::*;
use super::super_wave;
use crate::rng::Rng;
use crate::section::{single, Section};
use original::streaming::source::inner;

fn pitch() -> Operand {
    float(&[0.5, 1.0, 2.0], |r| [1.0, 1.0, r.range(0.0, 4.0)][r.below(3)])
}

/// A phase at or next to the ends of a step's residual, of an oscillator with these operands before it.
fn edge_of_step(r: &mut Rng, before: usize, duty: bool) -> Vec<u64> {
    let (f, srf) = (r.range(20.0, 20_000.0) as f32, RATES[r.below(11)] as f32);
    let (dt, du) = (f / srf, r.range(0.01, 0.99) as f32);
    let at = [dt, 1.0 - dt, 0.5, du, du + dt, 0.5 + dt, 0.5 - dt, 0.0, 1.0][r.below(9)];
    let phase = f32::from_bits((at.abs().to_bits() + r.below(3) as u32).saturating_sub(1));
    let mut list = if duty { vec![f, du] } else { vec![f] };
    list.extend([1.0, srf, phase]);
    list.resize(before, 0.25);
    list.iter().map(|x| x.to_bits() as u64).collect()
}

fn oscillators() -> Vec<Section> {
    let level = || between(-1.0, 1.0);
    let index = || float(&[1.0, 20.0], |r| r.range(0.0, 20.0));
    let ratio = || float(&[0.5, 1.0, 2.0], |r| r.range(0.0, 8.0));
    vec![
        kernel("sine", 1_500, vec![frequency(), pitch(), rate(), phase()]).plain(|x| floats(inner::sine(take(x, 0)))),
        kernel("square", 1_500, vec![frequency(), between(0.01, 0.99), pitch(), rate(), phase()])
            .section(|r| edge_of_step(r, 5, true), |x| Some(floats(inner::square(take(x, 0))))),
        kernel("saw", 1_500, vec![frequency(), pitch(), rate(), phase()])
            .section(|r| edge_of_step(r, 4, false), |x| Some(floats(inner::saw(take(x, 0))))),
        kernel("triangle", 1_500, vec![frequency(), pitch(), rate(), phase(), level()])
            .section(|r| edge_of_step(r, 5, false), |x| Some(floats(inner::triangle(take(x, 0))))),
        kernel("fm", 1_200, vec![frequency(), index(), ratio(), pitch(), rate(), phase(), phase()])
            .plain(|x| floats(inner::fm(take(x, 0)))),
        kernel("super_voice", 1_500, vec![choice(2), frequency(), ratio(), rate(), phase()])
            .plain(|x| floats(inner::super_voice(super_wave(x[0]), take(x, 1)))),
    ]
}

/// The operands of `impact_norm` and `impact` have widths that the Rust built.
fn impacts() -> Vec<Section> {
    let width = |hardness: u64, rate: u64| inner::impact_built(single(hardness), 1.0, single(rate) as u32).0;
    let widths = || number(&[1, 2, 3, 64, 353, 1_536], 1, 1_536);
    vec![
        kernel("impact_width", 2_000, vec![between(0.0, 1.0), whole_rate()])
            .plain(|x| vec![Answer::Number(width(x[0], x[1]) as u64)]),
        kernel("impact_norm", 2_000, vec![between(0.0, 1.0), within(1, 1_536)]).plain(|x| {
            // A soft strike's width is 0.008 of the rate, so the rates go through every width.
            let (w, norm) = inner::impact_built(0.0, single(x[0]), (x[1] * 125) as u32);
            assert_eq!(w as u64, x[1]);
            floats([norm])
        }),
        kernel("impact", 2_000, vec![widths(), between(0.0, 1.0), number(&[0, 1, 2, 63, 352, 1_535], 0, 1_600)])
            .float(|x| inner::impact(x[0] as usize, single(x[1]), x[2] as usize)),
    ]
}

fn noises() -> Vec<Section> {
    let state = || between(-1.0, 1.0);
    let drawn = |out, word, rest: Vec<Answer>| {
        let mut list = vec![Answer::Float(out), Answer::Word(word)];
        list.extend(rest);
        list
    };
    let mut pink = vec![word()];
    pink.extend((0..7).map(|_| state()));
    let density = || float(&[1.0, 8_000.0, 44_100.0, 192_000.0], |r| r.range(0.0, 1_000.0));
    let decay = || float(&[1e-4, 0.02, 1.0], |r| r.range(0.0, 0.5));
    let chance = || float(&[0.0, 0.5, 1.0], |r| r.range(0.0, 1.0));
    vec![
        kernel("white", 1_500, vec![word()]).plain(move |x| {
            let (out, word) = inner::white(x[0]);
            drawn(out, word, vec![])
        }),
        kernel("pink", 1_000, pink).plain(move |x| {
            let (out, word, b) = inner::pink(x[0], take(x, 1));
            drawn(out, word, floats(b))
        }),
        kernel("brown", 1_500, vec![word(), state()]).plain(move |x| {
            let (out, word, last) = inner::brown(x[0], single(x[1]));
            drawn(out, word, floats([last]))
        }),
        kernel("dust_chance", 2_000, vec![density(), whole_rate()])
            .float(|x| inner::dust_built(single(x[0]), 0.0, single(x[1]) as u32).0),
        kernel("dust_decay", 2_000, vec![decay(), whole_rate()])
            .float(|x| inner::dust_built(1.0, single(x[0]), single(x[1]) as u32).1),
        kernel("dust", 1_500, vec![word(), chance(), chance(), state()]).plain(move |x| {
            let (out, word, y) = inner::dust(x[0], single(x[1]), single(x[2]), single(x[3]));
            drawn(out, word, floats([y]))
        }),
    ]
}

fn envelope() -> Vec<Section> {
    let stage = || float(&[0.01, 0.1, 0.5, 1.0], |r| r.range(0.0, 1.0));
    let release = float(&[0.0, 0.5, 1.0], |r| r.range(0.0, 4.0));
    vec![kernel("env", 2_000, vec![stage(), stage(), stage(), stage(), stage(), rate(), release, position()])
        .float(|x| inner::env(take(x, 0), x[7] as usize))]
}

pub fn sections() -> Vec<Section> {
    [oscillators(), impacts(), noises(), envelope()].into_iter().flatten().collect()
}
