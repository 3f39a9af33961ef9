//! dsp.rs, and `rand_seed` of render/mod.rs.

use super::operand::*;
use crate::cases::{cases, edge_words, pairs, singles};
use crate::rng::Rng;
use crate::section::{answers, section, single, Section};
use original::dsp::inner;
use original::render::rand_seed_of;

/// SplitMix64's first words at the seed 1234567, as published with the generator (Rosetta Code, "Pseudo-random
/// numbers/Splitmix64"): these answers are not the Rust's.
const SEED: u64 = 1_234_567;
const PUBLISHED: [u64; 5] = [
    6_457_827_717_110_365_317,
    3_203_168_211_198_807_973,
    9_817_491_932_198_370_423,
    4_593_380_528_125_082_431,
    16_408_922_859_458_223_821,
];
const STEP: u64 = 0x9e37_79b9_7f4a_7c15;

fn published_state(k: usize) -> u64 {
    SEED.wrapping_add(STEP.wrapping_mul(k as u64))
}

fn words(seed: u64, count: usize) -> Vec<[u64; 1]> {
    cases(seed, count, singles(edge_words()), |r| [r.word()], |r| [r.next()])
}

fn next_u64() -> Section {
    let mut list: Vec<[u64; 1]> = (0..5).map(|k| [published_state(k)]).collect();
    list.extend(words(302, 2_000));
    answers("next_u64", 8, list, |[state]| match (0..5).find(|k| published_state(*k) == state) {
        Some(k) => [published_state(k + 1), PUBLISHED[k]],
        None => {
            let (word, state) = inner::next_u64(state);
            [state, word]
        }
    })
}

fn node_path() -> Section {
    let children = [0, 1, 2, 255, u64::MAX, u64::MAX - 1, 1 << 63, 0x100_0000_01b3];
    let parents: Vec<u64> = edge_words().into_iter().step_by(6).collect();
    let list =
        cases(303, 2_000, pairs(&parents, &children), |r| [r.word(), r.word()], |r| [r.next(), r.below(20) as u64]);
    section("node_path", 8, list, |[parent, child]| inner::node_path(parent, child))
}

fn drawn((x, state): (f32, u64)) -> Vec<Answer> {
    vec![Answer::Float(x), Answer::Word(state)]
}

/// A time at or near a corner of the envelope, or a stage of no length.
fn corner(r: &mut Rng) -> Vec<u64> {
    let [a, d, rel] = [r.range(0.0, 0.5) as f32, r.range(0.0, 0.5) as f32, r.range(0.0, 2.0) as f32];
    let (a, d) = [(a, d), (0.0, d), (a, 0.0), (0.0, 0.0)][r.below(4)];
    let at = [a, a + d, rel, 0.0][r.below(4)];
    let near = (at.to_bits() + r.below(3) as u32).saturating_sub(1);
    let [s, release, punch] = [r.range(0.0, 1.0), [0.0, 0.3][r.below(2)], [0.0, 0.7][r.below(2)]].map(|x| x as f32);
    [f32::from_bits(near), a, d, s, release, punch, rel].map(|x| x.to_bits() as u64).to_vec()
}

fn envelope() -> Section {
    let stage = || between(0.0, 0.5);
    let operands =
        vec![between(0.0, 3.0), stage(), stage(), between(0.0, 1.0), stage(), between(0.0, 1.0), between(0.0, 2.0)];
    kernel("adsr_env", 2_000, operands).section(corner, |x| Some(floats([inner::adsr_env(take(x, 0))])))
}

fn coefficients() -> Vec<Section> {
    let time = || float(&[1e-4, 1e-3, 1.0], |r| r.range(0.0, 1.0) * r.range(0.0, 1.0));
    let freq = || float(&[1.0, 3_999.0, 22_049.0, 23_999.0], |r| r.range(20.0, 24_000.0));
    let sr = || number(&[0, 1, 2, 3, 4, 8_000, 44_100, 48_000, 192_000, u32::MAX as u64], 8_000, 192_000);
    vec![
        kernel("one_pole", 2_000, vec![time(), rate()]).float(|x| inner::one_pole(single(x[0]), single(x[1]))),
        kernel("follower_coeffs", 2_000, vec![time(), time(), rate()]).plain(|x| {
            let (at, rt) = inner::follower_coeffs(single(x[0]), single(x[1]), single(x[2]));
            floats([at, rt])
        }),
        kernel("modal_coeffs", 2_000, vec![freq(), time(), between(0.0, 1.0), sr()]).plain(|x| {
            let (a1, a2, b0) = inner::modal_coeffs(single(x[0]), single(x[1]), single(x[2]), x[3] as u32);
            floats([a1, a2, b0])
        }),
        kernel("freeverb_fb", 2_000, vec![between(0.0, 1.0)]).float(|x| inner::freeverb_feedback(single(x[0]))),
    ]
}

pub fn sections() -> Vec<Section> {
    let bound = || float(&[1.0, 440.0], |r| r.range(-1_000.0, 1_000.0));
    let mut list = vec![
        section("splitmix_mix", 8, words(301, 2_000), |[z]| inner::splitmix_mix(z)),
        next_u64(),
        kernel("unit", 2_000, vec![word()]).plain(|x| drawn(inner::unit(x[0]))),
        kernel("bi", 2_000, vec![word()]).plain(|x| drawn(inner::bi(x[0]))),
        kernel("range", 1_500, vec![word(), bound(), bound()])
            .plain(|x| drawn(inner::range(x[0], single(x[1]), single(x[2])))),
        node_path(),
        section("node_seed", 8, words(304, 2_000), |[path]| inner::node_seed(path)),
        kernel("rand_seed", 1_500, vec![word(), bound(), bound(), bound()])
            .plain(|x| vec![Answer::Word(rand_seed_of(x[0], x[1] as u32, x[2] as u32, x[3] as u32))]),
        envelope(),
    ];
    list.extend(coefficients());
    list
}
