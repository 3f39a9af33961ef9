use super::*;
use crate::dsl::Adsr;

fn build(m: Modulator, sr: u32, n: usize) -> Val {
    Val::build(&Value::Modulated(m), sr, n)
}
pub fn slide(curve: Curve, [from, to, secs, srf]: [f32; 4], t: usize) -> f32 {
    Val::Slide { from, to, secs, curve, srf }.eval(t)
}
pub fn lfo(shape: Shape, [rate, depth, center, srf]: [f32; 4], t: usize) -> f32 {
    Val::Lfo { shape, rate, depth, center, srf }.eval(t)
}
/// The step that sounds, of steps that are their own indices.
pub fn arp_index(rate: f32, srf: f32, t: usize, n: usize) -> usize {
    assert!(n <= 1 << 24);
    Val::Arp { steps: (0..n).map(|k| k as f32).collect(), rate, srf }.eval(t) as usize
}
pub fn release_start(n: usize, sr: u32, r: f32) -> f32 {
    let adsr = Adsr { r, ..Adsr::default() };
    let Val::EnvMod { rel_start, .. } = build(Modulator::EnvMod { adsr, from: 0.0, to: 1.0 }, sr, n) else { panic!() };
    rel_start
}
pub fn env_mod([a, d, s, r, punch, from, to, srf, rel_start]: [f32; 9], t: usize) -> f32 {
    Val::EnvMod { a, d, s, r, punch, from, to, srf, rel_start }.eval(t)
}
pub fn rand_increment(rate: f32, sr: u32) -> f32 {
    let Val::Rand { inc, .. } = build(Modulator::Rand { from: 0.0, to: 1.0, rate, seed: 0 }, sr, 1) else { panic!() };
    inc
}
/// The value, then the generator's word, the two numbers and the phase after it.
pub fn rand([inc, from, to]: [f32; 3], word: u64, [prev, next, phase]: [f32; 3]) -> (f32, u64, [f32; 3]) {
    let mut val = Val::Rand { rng: Rng::new(word), prev, next, phase, inc, from, to };
    let out = val.eval(0);
    let Val::Rand { rng, prev, next, phase, .. } = val else { panic!() };
    (out, dsp::inner::state(&rng), [prev, next, phase])
}
/// A value over blocks, as its node evaluates it: sample after sample.
pub struct Values(Val);

impl Values {
    pub fn build(v: &Value, sr: u32, n: usize) -> Values {
        Values(Val::build(v, sr, n))
    }
    #[inline(never)]
    pub fn block(&mut self, out: &mut [f32], t0: usize) {
        for (i, o) in out.iter_mut().enumerate() {
            *o = self.0.eval(t0 + i);
        }
    }
    /// Rand's word, its two numbers and its phase.
    pub fn rand(&self) -> (u64, [f32; 3]) {
        let Val::Rand { rng, prev, next, phase, .. } = &self.0 else { panic!() };
        (dsp::inner::state(rng), [*prev, *next, *phase])
    }
}
/// Adds the cells and the registers that a value owns.
pub(crate) fn state(val: &Val, cells: &mut Vec<f32>, registers: &mut Vec<u64>) {
    if let Val::Rand { rng, prev, next, phase, .. } = val {
        cells.extend([*prev, *next, *phase]);
        registers.push(dsp::inner::state(rng));
    }
}
