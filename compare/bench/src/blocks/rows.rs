//! The rows: a node of the Rust, and the port's kernels with the numbers that the node is built from.

use super::port::*;
use super::{Kernel, Row};
use original::dsl::{Adsr, Curve, DriveShape, Mode, Modulator, Node, NoiseColor, Shape, SuperWave, Value};
use original::streaming::proc::inner::{chorus_built, Processor};
use original::streaming::source::inner::{dust_built, impact_built, Source};
use original::streaming::value::inner::{rand_increment, release_start, Values};

const SR: u32 = 48_000;
const SRF: f32 = SR as f32;
/// The length of the sheet: an envelope has all its stages in one pass.
const N: usize = 4_096;
const BLOCK: usize = 256;
/// A link of a sheet to no record.
const NONE: u16 = 0;
/// What every Rust node starts with where the port reads cells.
const FILTER: [f32; 11] = [1.0, f32::NAN, 0.0, 0.0, 0.0, 0.0, 0.0, 0.0, 0.0, 0.0, 0.0];

fn value(m: Modulator) -> Kernel {
    constant_or(Value::Modulated(m))
}

fn constant_or(v: Value) -> Kernel {
    let mut v = Values::build(&v, SR, N);
    Box::new(move |out, t| v.block(out, t))
}

fn source(node: Node) -> Kernel {
    let mut src = Source::build(&node, SR, N);
    let ones = vec![1.0; BLOCK];
    Box::new(move |out, t| src.block(out, t, &ones[..out.len()]))
}

fn processor(node: Node) -> Kernel {
    let mut proc = Processor::build(&node, SR, N);
    Box::new(move |out, t| proc.block(out, t))
}

/// A buffer of a constant, written for each block as a fill does.
struct Constant([f32; BLOCK], f32);

impl Constant {
    fn of(x: f32) -> Constant {
        Constant([0.0; BLOCK], x)
    }
    fn block(&mut self, n: usize) -> &mut [f32] {
        block_constant(&mut self.0[..n], self.1);
        &mut self.0[..n]
    }
}

fn adsr() -> Adsr {
    Adsr { a: 0.01, d: 0.03, s: 0.6, r: 0.03, punch: 0.3 }
}

fn slide(name: &str, curve: Curve) -> Row {
    let port: Kernel = Box::new(move |out, t| block_slide(out, curve as u8, 110.0, 880.0, 0.06, SRF, t as u64));
    Row::new(name, value(Modulator::Slide { from: 110.0, to: 880.0, secs: 0.06, curve }), port)
}

fn lfo(name: &str, shape: Shape) -> Row {
    let port: Kernel = Box::new(move |out, t| block_lfo(out, shape as u8, 5.5, 0.3, 0.5, SRF, t as u64));
    Row::new(name, value(Modulator::Lfo { shape, rate: 5.5, depth: 0.3, center: 0.5 }), port)
}

fn env_mod() -> Row {
    let Adsr { a, d, s, r, punch } = adsr();
    let rel = release_start(N, SR, r);
    let port: Kernel =
        Box::new(move |out, t| block_env_mod(out, a, d, s, r, punch, 200.0, 4_000.0, SRF, rel, t as u64));
    Row::new("EnvMod", value(Modulator::EnvMod { adsr: adsr(), from: 200.0, to: 4_000.0 }), port)
}

fn rand(name: &str, rate: f32) -> Row {
    let v = Value::Modulated(Modulator::Rand { from: 200.0, to: 900.0, rate, seed: 3 });
    let (word, mut cells) = Values::build(&v, SR, N).rand();
    let (mut words, inc) = ([word], rand_increment(rate, SR));
    Row::new(name, constant_or(v), Box::new(move |out, _| block_rand(out, &mut cells, &mut words, inc, 200.0, 900.0)))
}

/// A record of a sheet: its kind, the index of its chain's first record, of the one after it, and its first number.
fn record(kind: u8, first: u16, next: u16, number: f32) -> Vec<u8> {
    let head = [kind, 0].into_iter().chain([first, next, 0].into_iter().flat_map(u16::to_le_bytes));
    head.chain(number.to_le_bytes()).chain([0; 28]).collect()
}

/// A Sine whose frequency is an Arp of these steps, and the Arp's place in it.
fn arp_sheet(steps: &[f32], rate: f32) -> (Vec<u8>, usize) {
    let count = steps.len() as u16 + 2;
    let mut sheet = [&count.to_le_bytes()[..], &[0; 2], &SR.to_le_bytes(), &(N as u64).to_le_bytes(), &[0; 8]].concat();
    sheet.extend(record(1, 1, NONE, 0.0));
    sheet.extend(record(44, 2, NONE, rate));
    for (k, step) in (3..).zip(steps) {
        sheet.extend(record(52, NONE, if k < count { k } else { NONE }, *step));
    }
    (sheet, 1)
}

fn arp() -> Row {
    let steps = vec![1.0, 2.0, 3.0, 4.0];
    let (mut sheet, i) = arp_sheet(&steps, 8.0);
    let (count, mut nexts) = (steps.len() + 2, [0; 256]);
    assert_eq!(block_check(&mut sheet, &mut [0; 256], &mut [0; 256], &mut nexts), 0);
    let port: Kernel =
        Box::new(move |out, t| block_arp(out, &mut sheet, &mut nexts, &mut [], &mut [], count, i, t as u64));
    Row::new("Arp, 4 steps", value(Modulator::Arp { steps, rate: 8.0 }), port)
}

fn values() -> Vec<Row> {
    vec![
        Row::new("Const", constant_or(Value::Const(440.0)), Box::new(|out, _| block_constant(out, 440.0))),
        slide("Slide, linear", Curve::Lin),
        slide("Slide, exponential", Curve::Exp),
        lfo("Lfo, sine", Shape::Sine),
        lfo("Lfo, square", Shape::Square),
        lfo("Lfo, triangle", Shape::Triangle),
        lfo("Lfo, saw", Shape::Saw),
        arp(),
        env_mod(),
        rand("Rand, 4 a second", 4.0),
        rand("Rand, 10,000 a second", 10_000.0),
    ]
}

/// An oscillator at 440 Hz with so many cells.
fn oscillator<const CELLS: usize>(
    name: &str,
    node: Node,
    kernel: fn(&mut [f32], &mut [f32], &mut [f32], &mut [f32], f32),
) -> Row {
    let (mut f, mut pitch, mut cells) = (Constant::of(440.0), [1.0; BLOCK], [0.0; CELLS]);
    let port: Kernel = Box::new(move |out, _| {
        let n = out.len();
        kernel(out, f.block(n), &mut pitch[..n], &mut cells, SRF);
    });
    Row::new(name, source(node), port)
}

fn two_valued() -> Vec<Row> {
    let freq = || Value::Const(440.0);
    let (mut f, mut duty, mut pitch, mut cells) = (Constant::of(440.0), Constant::of(0.3), [1.0; BLOCK], [0.0]);
    let square: Kernel = Box::new(move |out, _| {
        let n = out.len();
        block_square(out, f.block(n), duty.block(n), &mut pitch[..n], &mut cells, SRF);
    });
    let (mut f, mut index, mut pitch, mut cells) = (Constant::of(440.0), Constant::of(3.0), [1.0; BLOCK], [0.0; 2]);
    let fm: Kernel = Box::new(move |out, _| {
        let n = out.len();
        block_fm(out, f.block(n), index.block(n), &mut pitch[..n], &mut cells, 2.0, SRF);
    });
    vec![
        Row::new("Square", source(Node::Square { freq: freq(), duty: Value::Const(0.3) }), square),
        Row::new("Fm", source(Node::Fm { freq: freq(), ratio: 2.0, index: Value::Const(3.0) }), fm),
    ]
}

fn unison(name: &str, wave: SuperWave) -> Row {
    let node = Node::Super { wave, freq: Value::Const(440.0), voices: 7, detune_cents: 15.0 };
    let (mut f, mut pitch) = (Constant::of(440.0), [1.0; BLOCK]);
    let mut cells = Source::build(&node, SR, N).voices();
    let port: Kernel = Box::new(move |out, _| {
        let n = out.len();
        block_super(out, f.block(n), &mut pitch[..n], &mut cells, wave as u8, 7, SRF);
    });
    Row::new(name, source(node), port)
}

fn impact() -> Vec<Row> {
    let node = || Node::Impact { hardness: 0.0, velocity: 0.8 };
    let (w, norm) = impact_built(0.0, 0.8, SR);
    let port = || -> Kernel { Box::new(move |out, t| block_impact(out, w as u64, norm, t as u64)) };
    let after: Kernel = Box::new(move |out, t| block_impact(out, w as u64, norm, (t + w) as u64));
    let mut rust = source(node());
    vec![
        Row::new("Impact, while it sounds", source(node()), port()).until(w),
        Row::new("Impact, after it", Box::new(move |out, t| rust(out, t + w)), after),
    ]
}

fn env() -> Row {
    let Adsr { a, d, s, r, punch } = adsr();
    let rel = release_start(N, SR, r);
    let port: Kernel = Box::new(move |out, t| block_env(out, a, d, s, r, punch, SRF, rel, t as u64));
    Row::new("Env", source(Node::Env { adsr: adsr() }), port)
}

fn noises() -> Vec<Row> {
    let node = |color| Node::Noise { color };
    let word = || [Source::build(&node(NoiseColor::White), SR, N).word()];
    let dust = || Node::Dust { density: 500.0, decay: 0.02 };
    let mut w = word();
    let white: Kernel = Box::new(move |out, _| block_white(out, &mut w));
    let (mut w, mut cells) = (word(), [0.0; 7]);
    let pink: Kernel = Box::new(move |out, _| block_pink(out, &mut cells, &mut w));
    let (mut w, mut cells) = (word(), [0.0]);
    let brown: Kernel = Box::new(move |out, _| block_brown(out, &mut cells, &mut w));
    let (mut w, mut cells) = ([Source::build(&dust(), SR, N).word()], [0.0]);
    let (p, g) = dust_built(500.0, 0.02, SR);
    let grains: Kernel = Box::new(move |out, _| block_dust(out, &mut cells, &mut w, p, g));
    vec![
        Row::new("Noise, white", source(node(NoiseColor::White)), white),
        Row::new("Noise, pink", source(node(NoiseColor::Pink)), pink),
        Row::new("Noise, brown", source(node(NoiseColor::Brown)), brown),
        Row::new("Dust", source(dust()), grains),
    ]
}

fn sources() -> Vec<Row> {
    let freq = || Value::Const(440.0);
    let mut rows = vec![
        oscillator::<1>("Sine", Node::Sine { freq: freq() }, block_sine),
        oscillator::<1>("Saw", Node::Sawtooth { freq: freq() }, block_saw),
        oscillator::<2>("Triangle", Node::Triangle { freq: freq() }, block_triangle),
    ];
    rows.extend(two_valued());
    rows.extend([unison("Super, 7 saws", SuperWave::Sawtooth), unison("Super, 7 squares", SuperWave::Square)]);
    rows.extend(impact());
    rows.push(env());
    rows.extend(noises());
    rows
}

fn gain() -> Row {
    let mut amount = Constant::of(0.7);
    let port: Kernel = Box::new(move |out, _| block_gain(out, amount.block(out.len())));
    Row::new("Gain", processor(Node::Gain { amount: Value::Const(0.7) }), port)
}

fn filter(name: &str, kind: u8, q: f32, node: fn(Value) -> Node) -> Row {
    let (mut cutoff, mut cells) = (Constant::of(1_200.0), FILTER);
    let port: Kernel = Box::new(move |out, _| block_filter(out, cutoff.block(out.len()), &mut cells, kind, 4.0, q, SR));
    Row::new(name, processor(node(Value::Const(1_200.0))), port)
}

fn swept() -> Row {
    let (mut buf, mut cells) = ([0.0; BLOCK], FILTER);
    let port: Kernel = Box::new(move |out, t| {
        let cutoff = &mut buf[..out.len()];
        block_slide(cutoff, 0, 200.0, 8_000.0, 0.1, SRF, t as u64);
        block_filter(out, cutoff, &mut cells, 0, 0.0, 0.8, SR);
    });
    let cutoff = Value::Modulated(Modulator::Slide { from: 200.0, to: 8_000.0, secs: 0.1, curve: Curve::Lin });
    Row::new("Lowpass, swept linearly", processor(Node::Lowpass { cutoff, q: 0.8 }), port)
}

fn filters() -> Vec<Row> {
    vec![
        filter("Lowpass", 0, 0.8, |cutoff| Node::Lowpass { cutoff, q: 0.8 }),
        filter("Highpass", 1, 0.8, |cutoff| Node::Highpass { cutoff, q: 0.8 }),
        filter("Bandpass", 2, 0.8, |cutoff| Node::Bandpass { cutoff, q: 0.8 }),
        filter("Notch", 3, 0.8, |cutoff| Node::Notch { cutoff, q: 0.8 }),
        filter("Peak", 4, 0.8, |cutoff| Node::Peak { cutoff, q: 0.8, gain_db: 4.0 }),
        filter("Lowshelf", 5, 0.707, |cutoff| Node::Lowshelf { cutoff, gain_db: 4.0 }),
        filter("Highshelf", 6, 0.707, |cutoff| Node::Highshelf { cutoff, gain_db: 4.0 }),
        swept(),
    ]
}

fn drive(name: &str, shape: DriveShape, aa: bool) -> Row {
    let node = || Node::Drive { amount: Value::Const(3.0), shape, aa: Some(aa) };
    let (mut amount, mut cells) = (Constant::of(3.0), [0.0, Processor::build(&node(), SR, N).f_prev(), 0.0, 0.0]);
    let mut buf = [0.0; BLOCK];
    let port: Kernel = Box::new(move |out, _| {
        let amount = amount.block(out.len());
        if aa {
            block_drive(out, amount, &mut cells, &mut buf, shape as u8)
        } else {
            block_drive_plain(out, amount, shape as u8)
        }
    });
    Row::new(name, processor(node()), port)
}

fn drives() -> Vec<Row> {
    vec![
        drive("Drive, tanh, anti-aliased", DriveShape::Tanh, true),
        drive("Drive, hard, anti-aliased", DriveShape::Hard, true),
        drive("Drive, fold, anti-aliased", DriveShape::Fold, true),
        drive("Drive, tanh", DriveShape::Tanh, false),
        drive("Drive, hard", DriveShape::Hard, false),
        drive("Drive, fold", DriveShape::Fold, false),
    ]
}

fn lines() -> Vec<Row> {
    let delay = || Node::Delay { secs: 0.031, feedback: 0.4 };
    let (mut line, mut words) = (vec![0.0; Processor::build(&delay(), SR, N).line_len()], [0]);
    let echo: Kernel = Box::new(move |out, _| block_delay(out, &mut line, &mut words, 0.4));
    let (base, swing, len) = chorus_built(0.5, SR);
    let (mut line, mut words, mut buf) = (vec![0.0; len], [0], [0.0; BLOCK]);
    let chorus: Kernel = Box::new(move |out, t| {
        block_chorus(out, &mut line, &mut words, &mut buf, base, swing, 1.5, SRF, 0.4, t as u64)
    });
    vec![
        Row::new("Delay", processor(delay()), echo),
        reverb(),
        Row::new("Chorus", processor(Node::Chorus { rate: 1.5, depth: 0.5, mix: 0.4 }), chorus),
    ]
}

fn reverb() -> Row {
    let node = Node::Reverb { room: 0.6, mix: 0.3 };
    let (mut lens, feedback) = Processor::build(&node, SR, N).reverb();
    let (mut cells, mut places) = (vec![0.0; lens.iter().sum::<u64>() as usize + 6], [0; 10]);
    let port: Kernel = Box::new(move |out, _| block_reverb(out, &mut lens, &mut cells, &mut places, feedback, 0.3));
    Row::new("Reverb", processor(node), port)
}

fn modal(name: &str, count: usize) -> Row {
    let mode = |k: usize| Mode { freq: 300.0 * (k as f32 * 1.7 + 1.0), decay: 0.8 / (k as f32 + 1.0), gain: 0.5 };
    let node = Node::Modal { modes: (0..count).map(mode).collect(), mix: 0.7 };
    let mut cells = Processor::build(&node, SR, N).modes();
    let port: Kernel = Box::new(move |out, _| block_modal(out, &mut cells, 0.7, count));
    Row::new(name, processor(node), port)
}

fn levels() -> Vec<Row> {
    let mut buf = [0.0; BLOCK];
    let tremolo: Kernel = Box::new(move |out, t| block_tremolo(out, &mut buf, 6.0, 0.5, SRF, t as u64));
    let node = || Node::Compress { threshold: -18.0, ratio: 4.0, attack: 0.005, release: 0.08, makeup: 3.0 };
    let [at, rt, makeup] = Processor::build(&node(), SR, N).follower();
    let (mut cells, mut buf) = ([0.0, at, rt, makeup], [0.0; BLOCK]);
    let compress: Kernel = Box::new(move |out, _| block_compress(out, &mut cells, &mut buf, -18.0, 4.0));
    vec![
        Row::new("Tremolo", processor(Node::Tremolo { rate: 6.0, depth: 0.5 }), tremolo),
        Row::new("Compress", processor(node()), compress),
    ]
}

pub fn rows() -> Vec<Row> {
    let mut rows = values();
    rows.extend(sources());
    rows.push(gain());
    rows.extend(filters());
    rows.extend(lines());
    rows.extend([modal("Modal, 3 modes", 3), modal("Modal, 8 modes", 8)]);
    rows.extend(drives());
    rows.extend(levels());
    rows
}
