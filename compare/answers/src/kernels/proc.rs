//! streaming/proc.rs.

use super::drive_shape;
use super::operand::*;
use crate::rng::Rng;
use crate::section::{single, Section};
use original::dsp::inner::bi;
use original::streaming::proc::inner;

fn sample() -> Operand {
    between(-1.0, 1.0)
}

fn bits(list: &[f32]) -> Vec<u64> {
    list.iter().map(|x| x.to_bits() as u64).collect()
}

/// A filter whose cutoff has not moved, so that its coefficients stay.
fn at_rest(r: &mut Rng) -> Vec<u64> {
    let cutoff = r.range(20.0, 20_000.0) as f32;
    let mut case = vec![r.below(7) as u64];
    case.extend(bits(&[3.0, 0.707]));
    case.push(RATES[r.below(11)] as u64);
    let state: Vec<f32> = (0..9).map(|_| r.range(-1.0, 1.0) as f32).collect();
    case.extend(bits(&[cutoff, 1.0, cutoff]));
    case.extend(bits(&state));
    case.extend(bits(&[r.range(-1.0, 1.0) as f32]));
    case
}

fn filters() -> Vec<Section> {
    let cutoff = || float(&[20.0, 20_000.0], |r| r.range(20.0, 20_000.0));
    let mut operands = vec![choice(7), between(-24.0, 24.0), between(0.05, 12.0)];
    operands.extend([number(&[240, 44_100], 8_000, 192_000), cutoff(), between(0.25, 4.0), cutoff()]);
    operands.extend((0..10).map(|_| sample()));
    vec![kernel("filter_step", 1_200, operands).section(at_rest, |x| {
        let [db, q] = take(x, 1);
        Some(floats(inner::filter(x[0] as u8, db, q, x[3] as u32, single(x[4]), take(x, 5), single(x[16]))))
    })]
}

/// A place of a line that has it.
fn place_and_length(r: &mut Rng) -> Vec<u64> {
    let longest = [4, 5_000, 100_000][r.below(3)];
    let len = 1 + r.below(longest) as u64;
    vec![[0, len - 1, r.below(len as usize) as u64][r.below(3)], len]
}

fn lines() -> Vec<Section> {
    let share = || between(0.0, 1.0);
    vec![
        kernel("delay", 2_500, vec![share(), sample(), sample()])
            .float(|x| inner::delay(single(x[0]), single(x[1]), single(x[2]))),
        kernel("next_place", 3_500, vec![within(0, 20_000), within(1, 20_001)]).section(place_and_length, |x| {
            let next = (x[0] < x[1]).then(|| inner::next_place(x[0] as usize, x[1] as usize))?;
            Some(vec![Answer::Number(next as u64)])
        }),
        kernel("comb", 1_500, vec![share(), sample(), sample(), sample()]).plain(|x| {
            let [feedback, store, input, y] = take(x, 0);
            floats(inner::comb(feedback, store, input, y))
        }),
        kernel("allpass", 1_500, vec![sample(), sample()])
            .plain(|x| floats(inner::allpass(single(x[0]), single(x[1])))),
        kernel("reverb_mix", 2_500, vec![share(), sample(), sample()])
            .float(|x| inner::reverb_mix(single(x[0]), single(x[1]), single(x[2]))),
        kernel("mode_step", 1_200, vec![between(-2.0, 2.0), share(), share(), sample(), sample(), sample()])
            .plain(|x| floats(inner::mode(take(x, 0), single(x[5])))),
    ]
}

/// A sample that is driven to nearly where the last was, on both sides of the 1e-5 at which the average takes its other form.
fn nearly_equal(r: &mut Rng) -> Vec<u64> {
    let before = (r.range(-3.0, 3.0) as f32, r.range(0.0, 1.0) as f32);
    let apart = [0.0, 1e-5, -1e-5, 0.9e-5, 1.1e-5][r.below(5)];
    let mut case = vec![r.below(3) as u64];
    case.extend(bits(&[1.0, before.0, before.1, 0.1, 0.2, before.0 + apart]));
    case
}

fn drives() -> Vec<Section> {
    let amount = || float(&[0.5, 1.0, 20.0], |r| r.range(0.0, 20.0));
    let bent = || float(&[1.0, 2.0, 3.0, 2_049.0], |r| r.range(-4.0, 4.0));
    vec![
        kernel("drive_step", 1_300, vec![choice(3), amount(), bent(), bent(), sample(), sample(), bent()])
            .section(nearly_equal, |x| {
                Some(floats(inner::drive_step(drive_shape(x[0]), single(x[1]), take(x, 2), single(x[6]))))
            }),
        kernel("drive_plain", 2_500, vec![choice(3), amount(), bent()])
            .float(|x| inner::drive_plain(drive_shape(x[0]), single(x[1]), single(x[2]))),
    ]
}

/// proc.rs, in `process` of `Proc::Chorus`, says what follows, and does not give the places: so it is said again here, and
/// has to give what a chorus of noise gives there, where the line is read at all.
///
/// `let lfo = dsp::sin(TAU * *rate * (t0 + i) as f32 / *srf);`
/// `let delay = *base + *swing * lfo;`
/// `let read = (*w as f32 - delay).rem_euclid(*max_delay as f32);`
/// `let i0 = read.floor() as usize % *max_delay;` `let i1 = (i0 + 1) % *max_delay;` `let frac = read - read.floor();`
fn chorus_read([base, swing, rate, srf]: [f32; 4], len: usize, w: usize, t: usize) -> (usize, usize, f32) {
    let lfo = original::det::sinf(std::f32::consts::TAU * rate * t as f32 / srf);
    let delay = base + swing * lfo;
    let read = (w as f32 - delay).rem_euclid(len as f32);
    let i0 = read.floor() as usize % len;
    let i1 = (i0 + 1) % len;
    let frac = read - read.floor();
    let mut line: Vec<f32> = (0..len).map(|k| bi(k as u64).0).collect();
    let there = inner::chorus_wet([base, swing, rate, srf], &line, w, t, 0.375);
    line[w] = 0.375;
    let wet = line[i0] * (1.0 - frac) + line[i1] * frac;
    let here = 0.375 * (1.0 - 1.0) + wet * 1.0;
    assert!(there.to_bits() == here.to_bits() || there.is_nan() && here.is_nan());
    (i0, i1, frac)
}

/// A chorus as it is built, at any place of its line; or a delay that is just past the place, so that the remainder rounds up
/// to the length.
fn reading(r: &mut Rng) -> Vec<u64> {
    let srf = RATES[r.below(11)];
    let (base, swing, len) = inner::chorus_built(r.range(0.0, 1.0) as f32, srf);
    let w = r.below(len);
    let (base, swing) = match r.below(4) {
        0 => (f32::from_bits((w as f32).to_bits() + 1 + r.below(2) as u32), 0.0),
        1 => (w as f32 + len as f32 * r.below(3) as f32, [0.0, 1e-7, 1e-30][r.below(3)]),
        _ => (base, swing),
    };
    let mut case = bits(&[base, swing, r.range(0.0, 5.0) as f32, srf as f32]);
    case.extend([len as u64, w as u64, r.next() >> 40]);
    case
}

fn modulated() -> Vec<Section> {
    let hertz = || float(&[0.5, 1.0, 6.0], |r| r.range(0.0, 40.0));
    let share = || between(0.0, 1.0);
    let seconds = || float(&[0.5, 66.0, 661.5], |r| r.range(0.0, 1_000.0));
    let read = vec![seconds(), seconds(), hertz(), rate(), within(3, 4_802), within(0, 4_801), position()];
    let fraction = || float(&[0.0, 0.5], |r| (r.next() >> 41) as f64 / 8_388_608.0);
    vec![
        kernel("tremolo", 2_500, vec![hertz(), share(), rate(), position(), sample()])
            .float(|x| inner::tremolo(single(x[0]), single(x[1]), single(x[2]), x[3] as usize, single(x[4]))),
        kernel("chorus_read", 1_500, read).section(reading, |x| {
            let (len, w) = (x[4] as usize, x[5] as usize);
            let (i0, i1, frac) = (w < len).then(|| chorus_read(take(x, 0), len, w, x[6] as usize))?;
            Some(vec![Answer::Number(i0 as u64), Answer::Number(i1 as u64), Answer::Float(frac)])
        }),
        kernel("chorus", 3_500, vec![share(), fraction(), sample(), sample(), sample()]).section(
            |_| vec![],
            |x| {
                let [mix, frac, input, a, b] = take(x, 0);
                let whole = frac.is_sign_positive() && frac < 1.0 && (frac * 8_388_608.0).fract() == 0.0;
                (whole || frac.is_nan()).then(|| floats([inner::chorus(mix, frac, input, a, b)]))
            },
        ),
    ]
}

fn dynamics() -> Section {
    let coefficient = || between(0.0, 1.0);
    let threshold = || float(&[20.0, 180.0], |r| r.range(-60.0, 0.0));
    let ratio = || float(&[1.0, 2.0, 20.0], |r| r.range(1.0, 20.0));
    let makeup = || float(&[1.0, 2.0], |r| r.range(0.5, 4.0));
    let level = || float(&[1e-9, 0.1, 0.5], |r| r.range(0.0, 1.0));
    kernel("compress", 1_500, vec![coefficient(), coefficient(), threshold(), ratio(), makeup(), level(), sample()])
        .plain(|x| floats(inner::compress(take(x, 0), single(x[6]))))
}

pub fn sections() -> Vec<Section> {
    let gain =
        kernel("gain", 2_500, vec![between(0.0, 2.0), sample()]).float(|x| inner::gain(single(x[0]), single(x[1])));
    let mut list = vec![gain];
    list.extend([filters(), lines(), drives(), modulated()].into_iter().flatten());
    list.push(dynamics());
    list
}
