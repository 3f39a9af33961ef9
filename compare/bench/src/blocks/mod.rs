//! Each kind's kernel over a block, the port's beside the Rust's on the same inputs: best times, and every sample compared.

mod port;
mod rows;

use crate::timing::Same;
use std::hint::black_box;
use std::process::ExitCode;
use std::time::Instant;

/// 300 samples are two blocks, as a fill cuts them.
const LENGTHS: [&[usize]; 4] = [&[7], &[64], &[256], &[256, 44]];
/// About so many samples make a pass, which begins at the position 0.
const SAMPLES: usize = 4_200;
const RUNS: usize = 1_000;

/// Writes the block that begins at a position, over the samples that come in.
type Kernel = Box<dyn FnMut(&mut [f32], usize)>;

pub struct Row {
    name: String,
    /// The position goes back to 0 rather than past this.
    end: usize,
    rust: Kernel,
    port: Kernel,
}

impl Row {
    pub fn new(name: impl Into<String>, rust: Kernel, port: Kernel) -> Row {
        Row { name: name.into(), end: usize::MAX, rust, port }
    }
    pub fn until(self, end: usize) -> Row {
        Row { end, ..self }
    }
}

/// What comes into a processor: noise under a slow swell, so that a compressor goes up and down.
fn input() -> Vec<f32> {
    let mut rng = crate::Rng(7);
    let noise = |k: usize, w: u64| ((w >> 40) as f32 / 8_388_608.0 - 1.0) * (k as f32 * 0.002).sin();
    (0..SAMPLES + 300).map(|k| noise(k, rng.next())).collect()
}

/// Nanoseconds per sample of one pass.
fn pass(kernel: &mut Kernel, cuts: &[usize], end: usize, buf: &mut [f32]) -> f64 {
    let whole: usize = cuts.iter().sum();
    let start = Instant::now();
    let (mut done, mut t) = (0, 0);
    while done + whole <= buf.len() {
        if t + whole > end {
            t = 0;
        }
        for n in cuts {
            kernel(black_box(&mut buf[done..done + n]), t);
            done += n;
            t += n;
        }
    }
    start.elapsed().as_secs_f64() * 1e9 / done as f64
}

/// The best times of both, and how many samples were compared and differ.
struct Measured {
    rust: f64,
    port: f64,
    compared: usize,
    differ: usize,
}

fn measure(row: &mut Row, cuts: &[usize], input: &[f32]) -> Measured {
    let whole: usize = cuts.iter().sum();
    let input = &input[..SAMPLES / whole * whole];
    let (mut theirs, mut ours) = (input.to_vec(), input.to_vec());
    let mut best = Measured { rust: f64::INFINITY, port: f64::INFINITY, compared: 0, differ: 0 };
    for _ in 0..RUNS {
        theirs.copy_from_slice(input);
        best.rust = best.rust.min(pass(&mut row.rust, cuts, row.end, &mut theirs));
        ours.copy_from_slice(input);
        best.port = best.port.min(pass(&mut row.port, cuts, row.end, &mut ours));
        best.compared += ours.len();
        best.differ += ours.iter().zip(&theirs).filter(|(a, b)| !a.same(**b)).count();
    }
    best
}

/// Only the rows whose name holds the word, if one is given.
pub fn run(word: Option<&str>) -> ExitCode {
    let input = input();
    println!("| kind | Rust, 7 | port | ratio | Rust, 64 | port | ratio | Rust, 256 | port | ratio | Rust, 300 | port | ratio |");
    println!("|---|{}", "---|".repeat(3 * LENGTHS.len()));
    let (mut compared, mut differ) = (0, 0);
    for row in &mut rows::rows() {
        if word.is_some_and(|w| !row.name.contains(w)) {
            continue;
        }
        print!("| {} |", row.name);
        for cuts in LENGTHS {
            let best = measure(row, cuts, &input);
            let (rust, port) = (best.rust, best.port);
            print!(" {rust:.2} | {port:.2} | {:.2} |", port / rust);
            if best.differ > 0 {
                eprintln!("{}, blocks of {cuts:?}: {} samples differ", row.name, best.differ);
            }
            compared += best.compared;
            differ += best.differ;
        }
        println!();
    }
    println!("\n{compared} samples compared, {differ} differ.");
    if compared == 0 || differ > 0 {
        return ExitCode::FAILURE;
    }
    ExitCode::SUCCESS
}
