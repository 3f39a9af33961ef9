//! Whole voices: the example sheets and sheets of many records, in fills of several lengths, beside the Rust in one run.

use crate::port;
use crate::script::same;
use crate::sheet::{Decoder, Record, Sheet};
use original::streaming::source::inner::Voice;
use std::fs;
use std::hint::black_box;
use std::path::Path;
use std::time::Instant;

const LENGTHS: [usize; 4] = [7, 64, 256, 300];
/// Samples of a pass, which begins at the position 0; the best of the passes counts.
const SAMPLES: usize = 19_200;
const PASSES: usize = 60;

/// Nanoseconds per sample of one pass of fills.
fn pass(out: &mut [f32], length: usize, mut fill: impl FnMut(&mut [f32])) -> f64 {
    let start = Instant::now();
    for part in out.chunks_mut(length) {
        fill(black_box(part));
    }
    start.elapsed().as_secs_f64() * 1e9 / out.len() as f64
}

struct Times {
    rust: f64,
    port: f64,
}

impl Times {
    fn ratio(&self) -> f64 {
        self.port / self.rust
    }
}

/// Both sides begin anew and play the same passes in turns; every sample is compared.
fn measure(bytes: &[u8], length: usize) -> Result<Times, String> {
    let d = Decoder(bytes);
    let mut rust = Voice::build(&d.node(0), d.rate(), d.length(), d.path());
    let mut ours = port::Voice::build(bytes)?;
    let (mut theirs, mut mine) = (vec![0.0; SAMPLES], vec![0.0; SAMPLES]);
    let mut best = Times { rust: f64::INFINITY, port: f64::INFINITY };
    for _ in 0..PASSES {
        rust.pos = 0;
        ours.controls.position = 0;
        best.rust = best.rust.min(pass(&mut theirs, length, |out| rust.fill(out)));
        let mut answer = Ok(());
        best.port = best.port.min(pass(&mut mine, length, |out| {
            if let Err(e) = ours.fill(out) {
                answer = Err(e);
            }
        }));
        answer?;
        same("sample", &theirs, &mine)?;
    }
    Ok(best)
}

/// Nanoseconds of a fill of no samples, which makes all the checks and tables of a fill and nothing else.
fn checks(bytes: &[u8]) -> Result<f64, String> {
    let mut voice = port::Voice::build(bytes)?;
    let mut best = f64::INFINITY;
    for _ in 0..PASSES {
        let start = Instant::now();
        for _ in 0..1_000 {
            voice.fill(black_box(&mut []))?;
        }
        best = best.min(start.elapsed().as_secs_f64() * 1e9 / 1_000.0);
    }
    Ok(best)
}

fn geometric_mean(ratios: &[f64]) -> f64 {
    (ratios.iter().map(|r| r.ln()).sum::<f64>() / ratios.len() as f64).exp()
}

/// One row: the times and ratios at each length, the checks of a fill, and their part of a fill of 7 samples.
fn row(name: &str, bytes: &[u8], ratios: &mut Vec<f64>) -> Result<(), String> {
    print!("| {name} | {} ", (bytes.len() - 24) / 40);
    let mut first = 0.0;
    for length in LENGTHS {
        let t = measure(bytes, length)?;
        print!("| {:.1} | {:.1} | {:.2} ", t.rust, t.port, t.ratio());
        if length == LENGTHS[0] {
            first = t.port * length as f64;
        }
        ratios.push(t.ratio());
    }
    let c = checks(bytes)?;
    println!("| {c:.0} | {:.2} |", c / first);
    Ok(())
}

fn heading(first: &str) {
    print!("| {first} | records ");
    for length in LENGTHS {
        print!("| Rust, {length} | port | ratio ");
    }
    println!("| checks of a fill, ns | part of a fill of 7 |");
    println!("|---|---|{}---|---|", "---|---|---|".repeat(LENGTHS.len()));
}

/// A Mix of n sines, each with its Const: 2 n + 1 records.
fn sines(n: usize) -> Sheet {
    let number = |x: f32| vec![x.to_bits()];
    let value = |x| Record { kind: 41, option: 0, numbers: number(x), chain: vec![] };
    let sine = |k| Record { kind: 1, option: 0, numbers: vec![], chain: vec![value(110.0 * (k + 1) as f32)] };
    let root = Record { kind: 11, option: 0, numbers: vec![], chain: (0..n).map(sine).collect() };
    Sheet { rate: 48_000, length: 0, path: 0, root, order: None }
}

/// White noise through n gains, in one chain: 2 n + 2 records.
fn gains(n: usize) -> Sheet {
    let value = || Record { kind: 41, option: 0, numbers: vec![0.99f32.to_bits()], chain: vec![] };
    let gain = |_| Record { kind: 21, option: 0, numbers: vec![], chain: vec![value()] };
    let noise = Record { kind: 9, option: 0, numbers: vec![], chain: vec![] };
    let root =
        Record { kind: 13, option: 0, numbers: vec![], chain: [noise].into_iter().chain((0..n).map(gain)).collect() };
    Sheet { rate: 48_000, length: 0, path: 0, root, order: None }
}

/// The rows of the example sheets in a folder, and how the cost grows with the records.
pub fn run(folder: &Path, word: &str) -> Result<(), String> {
    let mut names: Vec<String> = fs::read_dir(folder)
        .map_err(|e| e.to_string())?
        .filter_map(|f| f.ok()?.file_name().to_str()?.strip_suffix(".sheet").map(String::from))
        // Document 01's worked sheet is no voice: it is a constant.
        .filter(|name| name.contains(word) && name != "worked")
        .collect();
    names.sort();
    let mut ratios = Vec::new();
    heading("voice");
    for name in &names {
        let bytes = fs::read(folder.join(format!("{name}.sheet"))).map_err(|e| e.to_string())?;
        row(name, &bytes, &mut ratios)?;
    }
    for (k, length) in LENGTHS.iter().enumerate() {
        let at: Vec<f64> = ratios.iter().skip(k).step_by(LENGTHS.len()).copied().collect();
        println!("geometric mean at {length}: {:.2}", geometric_mean(&at));
    }
    println!("geometric mean of all {} ratios: {:.2}\n", ratios.len(), geometric_mean(&ratios));
    heading("sheet");
    for n in [0, 1, 3, 7, 15, 31, 63, 127] {
        row(&format!("Mix of {n} sines"), &sines(n).bytes(), &mut Vec::new())?;
        row(&format!("noise and {n} gains"), &gains(n).bytes(), &mut Vec::new())?;
    }
    Ok(())
}
