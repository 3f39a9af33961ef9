use super::*;
use crate::render::effects::inner::kind;
use crate::streaming::at_rate;

fn once(proc: &mut Proc, x: f32, t: usize) -> f32 {
    let mut buf = [x];
    proc.process(&mut buf, t);
    buf[0]
}
pub fn gain(amount: f32, x: f32) -> f32 {
    once(&mut Proc::Gain(Val::Const(amount)), x, 0)
}
/// The sample, then the eleven cells after it.
pub fn filter(n: u8, db: f32, q: f32, sr: u32, cutoff: f32, s: [f32; 11], x: f32) -> [f32; 12] {
    let [scale, prev_f, b0, b1, b2, a1, a2, x1, x2, y1, y2] = s;
    let (kind, cutoff) = (kind(n, db), Val::Const(cutoff));
    let mut proc = Proc::Biquad { kind, cutoff, scale, q, sr, prev_f, b0, b1, b2, a1, a2, x1, x2, y1, y2 };
    let out = once(&mut proc, x, 0);
    let Proc::Biquad { scale, prev_f, b0, b1, b2, a1, a2, x1, x2, y1, y2, .. } = proc else { panic!() };
    [out, scale, prev_f, b0, b1, b2, a1, a2, x1, x2, y1, y2]
}
pub fn delay(feedback: f32, x: f32, delayed: f32) -> f32 {
    once(&mut Proc::Delay { buf: vec![delayed], w: 0, feedback }, x, 0)
}
pub fn next_place(w: usize, len: usize) -> usize {
    let mut proc = Proc::Delay { buf: vec![0.0; len], w, feedback: 0.0 };
    once(&mut proc, 0.0, 0);
    let Proc::Delay { w, .. } = proc else { panic!() };
    w
}
/// One comb's store and what it writes to its line, y being what it reads there.
pub fn comb(feedback: f32, store: f32, x: f32, y: f32) -> [f32; 2] {
    let mut proc = reverb_proc(0.5, 1.0, 8_000, 0);
    if let Proc::Reverb { combs, allpasses, feedback: f, .. } = &mut proc {
        *combs = vec![(vec![y], 0, store)];
        allpasses.clear();
        *f = feedback;
    }
    once(&mut proc, x, 0);
    let Proc::Reverb { combs, .. } = proc else { panic!() };
    [combs[0].2, combs[0].0[0]]
}
/// Allpasses with these in their lines, and no comb, so that the first lets its own through as it is: -0 + y is y.
fn allpasses_of(lines: &[f32], mix: f32, norm: Option<f32>) -> Proc {
    let mut proc = reverb_proc(0.5, 1.0, 8_000, 0);
    if let Proc::Reverb { combs, allpasses, mix: m, comb_norm, .. } = &mut proc {
        combs.clear();
        *allpasses = lines.iter().map(|y| (vec![*y], 0)).collect();
        *m = mix;
        *comb_norm = norm.unwrap_or(*comb_norm);
    }
    proc
}
/// The second allpass's result and what it writes to its line. The mix adds -0 to the result, which changes no number.
pub fn allpass(wet: f32, buffered: f32) -> [f32; 2] {
    let mut proc = allpasses_of(&[wet, buffered], 1.0, Some(1.0));
    let out = once(&mut proc, -0.0, 0);
    let Proc::Reverb { allpasses, .. } = proc else { panic!() };
    [out, allpasses[1].0[0]]
}
pub fn reverb_mix(mix: f32, x: f32, wet: f32) -> f32 {
    once(&mut allpasses_of(&[wet], mix, None), x, 0)
}
/// The result, which is y1 too, then the mode after it.
pub fn mode([a1, a2, b0, y1, y2]: [f32; 5], x: f32) -> [f32; 6] {
    let mut proc = Proc::Modal { modes: vec![ModalMode { a1, a2, b0, y1, y2 }], mix: 1.0 };
    once(&mut proc, x, 0);
    let Proc::Modal { modes, .. } = proc else { panic!() };
    let ModalMode { a1, a2, b0, y1, y2 } = modes[0];
    [y1, a1, a2, b0, y1, y2]
}
fn drive(shape: DriveShape, amount: f32, adaa: bool, s: [f32; 4], x: f32) -> [f32; 5] {
    let [x_prev, f_prev, dc_x, dc_y] = s;
    let mut proc = Proc::Drive { amount: Val::Const(amount), shape, adaa, x_prev, f_prev, dc_x, dc_y };
    let out = once(&mut proc, x, 0);
    let Proc::Drive { x_prev, f_prev, dc_x, dc_y, .. } = proc else { panic!() };
    [out, x_prev, f_prev, dc_x, dc_y]
}
pub fn drive_step(shape: DriveShape, amount: f32, s: [f32; 4], x: f32) -> [f32; 5] {
    drive(shape, amount, true, s, x)
}
pub fn drive_plain(shape: DriveShape, amount: f32, x: f32) -> f32 {
    drive(shape, amount, false, [0.0; 4], x)[0]
}
pub fn tremolo(rate: f32, depth: f32, srf: f32, t: usize, x: f32) -> f32 {
    once(&mut Proc::Tremolo { rate, depth, srf }, x, t)
}
/// The base, the swing and the length of a chorus's line.
pub fn chorus_built(depth: f32, sr: u32) -> (f32, f32, usize) {
    match try_proc(&Node::Chorus { rate: 1.0, depth, mix: 0.5 }, &at_rate(sr, 1), 0) {
        Some(Proc::Chorus { base, swing, max_delay, .. }) => (base, swing, max_delay),
        _ => panic!(),
    }
}
/// What a chorus of nothing but its line gives. The place w holds x when the line is read.
pub fn chorus_wet([base, swing, rate, srf]: [f32; 4], line: &[f32], w: usize, t: usize, x: f32) -> f32 {
    let (buf, max_delay) = (line.to_vec(), line.len());
    once(&mut Proc::Chorus { buf, w, base, swing, max_delay, mix: 1.0, rate, srf }, x, t)
}
/// The mix of x and of a line that is read `frac` past a, towards b; `frac` is a multiple of 2^-23 below 1, or NaN.
pub fn chorus(mix: f32, frac: f32, x: f32, a: f32, b: f32) -> f32 {
    let buf = vec![0.0, a, b, 0.0];
    let base = -(1.0 + frac);
    once(&mut Proc::Chorus { buf, w: 0, base, swing: 0.0, max_delay: 4, mix, rate: 0.0, srf: 1.0 }, x, 0)
}
pub fn compress([at, rt, threshold, ratio, makeup, env]: [f32; 6], x: f32) -> [f32; 2] {
    let mut proc = Proc::Compress { env, at, rt, threshold, ratio, makeup };
    let out = once(&mut proc, x, 0);
    let Proc::Compress { env, .. } = proc else { panic!() };
    [out, env]
}
/// A processor over blocks, built from its node.
pub struct Processor(Proc);

impl Processor {
    pub fn build(node: &Node, sr: u32, n: usize) -> Processor {
        Processor(try_proc(node, &at_rate(sr, n), 0).unwrap())
    }
    pub fn block(&mut self, buf: &mut [f32], t0: usize) {
        self.0.process(buf, t0);
    }
    pub fn line_len(&self) -> usize {
        let (Proc::Delay { buf, .. } | Proc::Chorus { buf, .. }) = &self.0 else { panic!() };
        buf.len()
    }
    /// An anti-aliased drive's antiderivative at 0, with which it is built.
    pub fn f_prev(&self) -> f32 {
        let Proc::Drive { f_prev, .. } = &self.0 else { panic!() };
        *f_prev
    }
    /// The attack, the release and the makeup of a compressor.
    pub fn follower(&self) -> [f32; 3] {
        let Proc::Compress { at, rt, makeup, .. } = &self.0 else { panic!() };
        [*at, *rt, *makeup]
    }
    /// The lengths of a reverb's lines, the combs' first, and its feedback.
    pub fn reverb(&self) -> (Vec<u64>, f32) {
        let Proc::Reverb { combs, allpasses, feedback, .. } = &self.0 else { panic!() };
        let lens = combs.iter().map(|c| c.0.len()).chain(allpasses.iter().map(|a| a.0.len()));
        (lens.map(|n| n as u64).collect(), *feedback)
    }
    /// The coefficients and the state of a modal's modes, five numbers each.
    pub fn modes(&self) -> Vec<f32> {
        let Proc::Modal { modes, .. } = &self.0 else { panic!() };
        modes.iter().flat_map(|m| [m.a1, m.a2, m.b0, m.y1, m.y2]).collect()
    }
}
/// Adds the cells and the registers that a processor owns, and then those of its values.
pub(in crate::streaming) fn state(proc: &Proc, cells: &mut Vec<f32>, registers: &mut Vec<u64>) {
    use crate::streaming::value::inner::state as of_value;
    match proc {
        Proc::Gain(amount) => of_value(amount, cells, registers),
        Proc::Biquad { cutoff, scale, prev_f, b0, b1, b2, a1, a2, x1, x2, y1, y2, .. } => {
            cells.extend([scale, prev_f, b0, b1, b2, a1, a2, x1, x2, y1, y2].map(|x| *x));
            of_value(cutoff, cells, registers);
        }
        Proc::Delay { buf, w, .. } | Proc::Chorus { buf, w, .. } => {
            cells.extend(buf);
            registers.push(*w as u64);
        }
        Proc::Reverb { combs, allpasses, .. } => {
            combs.iter().for_each(|(line, w, _)| (cells.extend(line), registers.push(*w as u64)).1);
            allpasses.iter().for_each(|(line, w)| (cells.extend(line), registers.push(*w as u64)).1);
            cells.extend(combs.iter().map(|(_, _, store)| *store));
        }
        Proc::Modal { modes, .. } => modes.iter().for_each(|m| cells.extend([m.a1, m.a2, m.b0, m.y1, m.y2])),
        Proc::Drive { amount, x_prev, f_prev, dc_x, dc_y, .. } => {
            cells.extend([*x_prev, *f_prev, *dc_x, *dc_y]);
            of_value(amount, cells, registers);
        }
        Proc::Tremolo { .. } => {}
        Proc::Compress { env, at, rt, makeup, .. } => cells.extend([*env, *at, *rt, *makeup]),
    }
}
