use super::*;
use crate::dsp::inner::state;
use crate::streaming::at_rate;

fn once(src: &mut Src, t: usize, pitch: f32) -> f32 {
    let mut out = [0.0];
    src.process(&mut out, t, &[pitch]);
    out[0]
}
pub fn sine([f, pitch, srf, phase]: [f32; 4]) -> [f32; 2] {
    let mut src = Src::Sine { phase, freq: Val::Const(f), srf };
    let out = once(&mut src, 0, pitch);
    let Src::Sine { phase, .. } = src else { panic!() };
    [out, phase]
}
pub fn square([f, duty, pitch, srf, phase]: [f32; 5]) -> [f32; 2] {
    let mut src = Src::Square { phase, freq: Val::Const(f), duty: Val::Const(duty), srf };
    let out = once(&mut src, 0, pitch);
    let Src::Square { phase, .. } = src else { panic!() };
    [out, phase]
}
pub fn saw([f, pitch, srf, phase]: [f32; 4]) -> [f32; 2] {
    let mut src = Src::Saw { phase, freq: Val::Const(f), srf };
    let out = once(&mut src, 0, pitch);
    let Src::Saw { phase, .. } = src else { panic!() };
    [out, phase]
}
pub fn triangle([f, pitch, srf, phase, tri]: [f32; 5]) -> [f32; 3] {
    let mut src = Src::Tri { phase, tri, freq: Val::Const(f), srf };
    let out = once(&mut src, 0, pitch);
    let Src::Tri { phase, tri, .. } = src else { panic!() };
    [out, phase, tri]
}
pub fn fm([f, index, ratio, pitch, srf, cph, mph]: [f32; 7]) -> [f32; 3] {
    let mut src = Src::Fm { cph, mph, freq: Val::Const(f), index: Val::Const(index), ratio, srf };
    let out = once(&mut src, 0, pitch);
    let Src::Fm { cph, mph, .. } = src else { panic!() };
    [out, cph, mph]
}
/// One voice at the whole scale. f is the pitch of a frequency of 1, so that it can be any number.
pub fn super_voice(wave: SuperWave, [f, ratio, srf, phase]: [f32; 4]) -> [f32; 2] {
    let freq = Val::Const(1.0);
    let mut src = Src::Super { wave, freq, phases: vec![phase], ratios: vec![ratio], scale: 1.0, srf };
    let out = once(&mut src, 0, f);
    let Src::Super { phases, .. } = src else { panic!() };
    [out, phases[0]]
}
pub fn impact_built(hardness: f32, velocity: f32, sr: u32) -> (usize, f32) {
    match try_src(&Node::Impact { hardness, velocity }, &at_rate(sr, 1), 0) {
        Some(Src::Impact { w, norm }) => (w, norm),
        _ => panic!(),
    }
}
pub fn impact(w: usize, norm: f32, t: usize) -> f32 {
    once(&mut Src::Impact { w, norm }, t, 1.0)
}
pub fn env([a, d, s, r, punch, srf, rel_start]: [f32; 7], t: usize) -> f32 {
    once(&mut Src::Env { a, d, s, r, punch, srf, rel_start }, t, 1.0)
}
fn noise(word: u64, kind: NoiseKind) -> (f32, u64, NoiseKind) {
    let mut src = Src::Noise { rng: Rng::new(word), kind };
    let out = once(&mut src, 0, 1.0);
    let Src::Noise { rng, kind } = src else { panic!() };
    (out, state(&rng), kind)
}
pub fn white(word: u64) -> (f32, u64) {
    let (out, word, _) = noise(word, NoiseKind::White);
    (out, word)
}
pub fn pink(word: u64, b: [f32; 7]) -> (f32, u64, [f32; 7]) {
    let (out, word, NoiseKind::Pink { b }) = noise(word, NoiseKind::Pink { b }) else { panic!() };
    (out, word, b)
}
pub fn brown(word: u64, last: f32) -> (f32, u64, f32) {
    let (out, word, NoiseKind::Brown { last }) = noise(word, NoiseKind::Brown { last }) else { panic!() };
    (out, word, last)
}
pub fn dust_built(density: f32, decay: f32, sr: u32) -> (f32, f32) {
    match try_src(&Node::Dust { density, decay }, &at_rate(sr, 1), 0) {
        Some(Src::Dust { p, g, .. }) => (p, g),
        _ => panic!(),
    }
}
pub fn dust(word: u64, p: f32, g: f32, y: f32) -> (f32, u64, f32) {
    let mut src = Src::Dust { rng: Rng::new(word), p, g, y };
    let out = once(&mut src, 0, 1.0);
    let Src::Dust { rng, y, .. } = src else { panic!() };
    (out, state(&rng), y)
}
/// A source over blocks, built from its node.
pub struct Source(Src);

impl Source {
    pub fn build(node: &Node, sr: u32, n: usize) -> Source {
        Source(try_src(node, &at_rate(sr, n), 0).unwrap())
    }
    pub fn block(&mut self, out: &mut [f32], t0: usize, pitch: &[f32]) {
        self.0.process(out, t0, pitch);
    }
    /// The generator's word of a noise or a dust.
    pub fn word(&self) -> u64 {
        let (Src::Noise { rng, .. } | Src::Dust { rng, .. }) = &self.0 else { panic!() };
        state(rng)
    }
    /// The phases of a super's voices, then their ratios.
    pub fn voices(&self) -> Vec<f32> {
        let Src::Super { phases, ratios, .. } = &self.0 else { panic!() };
        [phases.as_slice(), ratios].concat()
    }
}
/// Adds the cells and the registers that a source owns, and then those of its chain, in its order.
fn state_of(src: &Src, cells: &mut Vec<f32>, registers: &mut Vec<u64>) {
    let mut values: Vec<&Val> = Vec::new();
    match src {
        Src::Silence | Src::Impact { .. } | Src::Env { .. } | Src::Seq { .. } => {}
        Src::Sine { phase, freq, .. } | Src::Saw { phase, freq, .. } => {
            cells.push(*phase);
            values.push(freq);
        }
        Src::Square { phase, freq, duty, .. } => {
            cells.push(*phase);
            values.extend([freq, duty]);
        }
        Src::Tri { phase, tri, freq, .. } => {
            cells.extend([*phase, *tri]);
            values.push(freq);
        }
        Src::Fm { cph, mph, freq, index, .. } => {
            cells.extend([*cph, *mph]);
            values.extend([freq, index]);
        }
        Src::Super { phases, ratios, freq, .. } => {
            cells.extend(phases.iter().chain(ratios));
            values.push(freq);
        }
        Src::Noise { rng, kind } => {
            match kind {
                NoiseKind::White => {}
                NoiseKind::Pink { b } => cells.extend(b),
                NoiseKind::Brown { last } => cells.push(*last),
            }
            registers.push(state(rng));
        }
        Src::Dust { rng, y, .. } => {
            cells.push(*y);
            registers.push(state(rng));
        }
        Src::Mix { inputs, .. } | Src::Mul { inputs, .. } => inputs.iter().for_each(|c| state_of(c, cells, registers)),
        Src::Chain { src, procs } => {
            state_of(src, cells, registers);
            procs.iter().for_each(|p| crate::streaming::proc::inner::state(p, cells, registers));
        }
    }
    values.iter().for_each(|v| crate::streaming::value::inner::state(v, cells, registers));
}
/// A mono voice as `StreamGraph` has it. `StreamGraph` itself names the mixer, which is not compared; `fill` and
/// `glide_pitch` are its own lines, and bend and cutoff are set below its setters, which clamp more.
pub struct Voice {
    src: Src,
    pub pos: usize,
    pub pitch: f32,
    pub target: f32,
    pub glide: f32,
    pub bend: f32,
}

impl Voice {
    pub fn build(node: &Node, sr: u32, n: usize, path: u64) -> Voice {
        let src = try_src(node, &Ctx::stream(sr, n), path).unwrap();
        Voice { src, pos: 0, pitch: 1.0, target: 1.0, glide: 1.0, bend: 1.0 }
    }
    pub fn fill(&mut self, out: &mut [f32]) {
        let mut pitch = [0.0; crate::streaming::CHUNK];
        for chunk in out.chunks_mut(crate::streaming::CHUNK) {
            let len = chunk.len();
            for p in pitch[..len].iter_mut() {
                self.pitch += (self.target - self.pitch) * self.glide;
                *p = self.pitch * self.bend;
            }
            self.src.process(chunk, self.pos, &pitch[..len]);
            self.pos += len;
        }
    }
    pub fn glide_pitch(&mut self, scale: f32, coeff: f32) {
        self.target = scale.max(0.0);
        self.glide = if coeff.is_nan() { 1.0 } else { coeff.clamp(f32::MIN_POSITIVE, 1.0) };
    }
    pub fn set_cutoff(&mut self, scale: f32) {
        self.src.set_cutoff(scale);
    }
    /// The cells and the registers of the built nodes, in the order of a walk that meets a node before its chain.
    pub fn state(&self) -> (Vec<f32>, Vec<u64>) {
        let (mut cells, mut registers) = (Vec::new(), Vec::new());
        state_of(&self.src, &mut cells, &mut registers);
        (cells, registers)
    }
}
