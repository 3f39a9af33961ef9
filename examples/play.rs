//! Plays a voice for four seconds, with moves between fills of 64, 7 and 300 samples, and writes a WAV file.
//!
//!     (cd crates/library && rt lib)
//!     mkdir -p target
//!     rustc --edition 2021 -O -L crates/library/out examples/play.rs -o target/play_rs
//!     target/play_rs examples/supersaw_pad.sheet > pad.wav
//!
//! The calls are those of include/player.h, which says what each does and what a caller owes.

use std::io::{self, Write};
use std::{env, fs, process};

#[repr(C)]
#[derive(Clone, Copy)]
struct Controls {
    position: u64,
    pitch: f32,
    target: f32,
    glide: f32,
    bend: f32,
}

#[repr(C)]
struct Answered {
    answer: u8,
    controls: Controls,
}

#[repr(C)]
struct Needed {
    refusal: u8,
    cells: u64,
    registers: u64,
    scratch: u64,
}

#[link(name = "library", kind = "static")]
#[link(name = "m")]
#[rustfmt::skip]
unsafe extern "C" {
    fn player_needs(sheet: *const u8, n: usize) -> Needed;
    fn player_build(
        sheet: *const u8, n: usize, controls: Controls,
        cells: *mut f32, m: usize, registers: *mut u64, r: usize, scratch: *mut f32, s: usize,
    ) -> Answered;
    fn player_fill(
        sheet: *const u8, n: usize, controls: Controls, out: *mut f32, l: usize,
        cells: *mut f32, m: usize, registers: *mut u64, r: usize, scratch: *mut f32, s: usize,
    ) -> Answered;
    fn player_pitch(controls: Controls, scale: f32, coefficient: f32) -> Controls;
    fn player_bend(controls: Controls, x: f32) -> Controls;
    fn player_cutoff(
        sheet: *const u8, n: usize, x: f32,
        cells: *mut f32, m: usize, registers: *const u64, r: usize, scratch: *const f32, s: usize,
    ) -> u8;
}

/// A sheet, its controls and the memory that it is lent.
struct Voice {
    sheet: Vec<u8>,
    controls: Controls,
    cells: Vec<f32>,
    registers: Vec<u64>,
    scratch: Vec<f32>,
}

fn accepted(call: &str, answer: u8) -> Result<(), String> {
    if answer == 0 {
        return Ok(());
    }
    Err(format!("{call} is refused by {answer}"))
}

impl Voice {
    fn build(sheet: Vec<u8>) -> Result<Voice, String> {
        let needed = unsafe { player_needs(sheet.as_ptr(), sheet.len()) };
        accepted("the sheet", needed.refusal)?;
        let mut v = Voice {
            sheet,
            controls: Controls { position: 0, pitch: 1.0, target: 1.0, glide: 1.0, bend: 1.0 },
            cells: vec![0.0; needed.cells as usize],
            registers: vec![0; needed.registers as usize],
            scratch: vec![0.0; needed.scratch as usize],
        };
        #[rustfmt::skip]
        let a = unsafe {
            player_build(
                v.sheet.as_ptr(), v.sheet.len(), v.controls, v.cells.as_mut_ptr(), v.cells.len(),
                v.registers.as_mut_ptr(), v.registers.len(), v.scratch.as_mut_ptr(), v.scratch.len(),
            )
        };
        v.controls = a.controls;
        accepted("build", a.answer)?;
        Ok(v)
    }

    fn fill(&mut self, out: &mut [f32]) -> Result<(), String> {
        #[rustfmt::skip]
        let a = unsafe {
            player_fill(
                self.sheet.as_ptr(), self.sheet.len(), self.controls, out.as_mut_ptr(), out.len(),
                self.cells.as_mut_ptr(), self.cells.len(), self.registers.as_mut_ptr(), self.registers.len(),
                self.scratch.as_mut_ptr(), self.scratch.len(),
            )
        };
        self.controls = a.controls;
        accepted("fill", a.answer)
    }

    /// A fifth up in the second second, a bend in the third, a darker filter in the last.
    fn make_moves(&mut self, rate: u64) -> Result<(), String> {
        let second = self.controls.position / rate;
        let scale = if second == 0 { 1.0 } else { 1.5 };
        let bend = if second == 2 { 1.06 } else { 1.0 };
        let bright = if second == 3 { 0.5 } else { 1.0 };
        self.controls = unsafe { player_bend(player_pitch(self.controls, scale, 0.001), bend) };
        #[rustfmt::skip]
        let answer = unsafe {
            player_cutoff(
                self.sheet.as_ptr(), self.sheet.len(), bright, self.cells.as_mut_ptr(), self.cells.len(),
                self.registers.as_ptr(), self.registers.len(), self.scratch.as_ptr(), self.scratch.len(),
            )
        };
        accepted("cutoff", answer)
    }
}

/// Mono, 16 bits.
fn header(rate: u32, samples: u32) -> Vec<u8> {
    let mut out = Vec::new();
    out.extend(b"RIFF");
    out.extend((36 + 2 * samples).to_le_bytes());
    out.extend(b"WAVEfmt ");
    out.extend(16u32.to_le_bytes());
    out.extend([1u16, 1].map(u16::to_le_bytes).concat());
    out.extend([rate, 2 * rate].map(u32::to_le_bytes).concat());
    out.extend([2u16, 16].map(u16::to_le_bytes).concat());
    out.extend(b"data");
    out.extend((2 * samples).to_le_bytes());
    out
}

/// Rounded to the nearest of 65,535 steps, halves away from zero; a NaN is silence.
fn pcm16(x: f32) -> i16 {
    (x.clamp(-1.0, 1.0) * 32767.0).round() as i16
}

fn play(path: &str) -> Result<Vec<u8>, String> {
    let mut voice = Voice::build(fs::read(path).map_err(|e| e.to_string())?)?;
    let rate = u32::from_le_bytes(voice.sheet[4..8].try_into().unwrap());
    let samples = 4 * u64::from(rate);
    let mut wav = header(rate, samples as u32);
    for n in [64, 7, 300].into_iter().cycle() {
        let left = samples - voice.controls.position;
        if left == 0 {
            break;
        }
        let mut out = vec![0.0; n.min(left) as usize];
        voice.make_moves(u64::from(rate))?;
        voice.fill(&mut out)?;
        wav.extend(out.iter().flat_map(|x| pcm16(*x).to_le_bytes()));
    }
    Ok(wav)
}

fn main() {
    let Some(path) = env::args().nth(1) else {
        eprintln!("usage: play SHEET > FILE.wav");
        process::exit(2)
    };
    let done = play(&path).and_then(|wav| io::stdout().write_all(&wav).map_err(|e| e.to_string()));
    if let Err(e) = done {
        eprintln!("{e}");
        process::exit(1)
    }
}
