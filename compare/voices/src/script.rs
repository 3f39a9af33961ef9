//! A script of moves and fills, run on both sides, and the first difference.

use crate::port;
use crate::sheet::{Decoder, Sheet};
use original::streaming::source::inner::Voice;

#[derive(Clone, Copy, Debug)]
pub enum Move {
    Fill(usize),
    Pitch(f32, f32),
    Bend(f32),
    Cutoff(f32),
}

#[derive(Clone, Debug)]
pub struct Script {
    /// Where the voice starts.
    pub position: u64,
    pub moves: Vec<Move>,
}

/// NaNs count as one.
pub fn bits(x: f32) -> u32 {
    if x.is_nan() {
        0x7fc0_0000
    } else {
        x.to_bits()
    }
}

pub fn same(what: &str, rust: &[f32], ours: &[f32]) -> Result<(), String> {
    if rust.len() != ours.len() {
        return Err(format!("{what}: {} numbers in the Rust, {} here", rust.len(), ours.len()));
    }
    match (0..rust.len()).find(|i| bits(rust[*i]) != bits(ours[*i])) {
        None => Ok(()),
        Some(i) => Err(format!(
            "{what} {i}: Rust {:08x} ({:e}), here {:08x} ({:e})",
            bits(rust[i]),
            rust[i],
            bits(ours[i]),
            ours[i]
        )),
    }
}

/// What was compared.
#[derive(Default)]
pub struct Tally {
    pub samples: u64,
    /// Samples that are neither NaN nor zero.
    pub sounding: u64,
    pub cells: u64,
}

struct Pair {
    rust: Voice,
    ours: port::Voice,
    /// Whether the records stand in the walk's order, in which the Rust's state is listed.
    walked: bool,
}

impl Pair {
    fn controls(&self) -> Result<(), String> {
        let (r, c) = (&self.rust, &self.ours.controls);
        if r.pos as u64 != c.position {
            return Err(format!("position: Rust {}, here {}", r.pos, c.position));
        }
        same("control", &[r.pitch, r.target, r.glide, r.bend], &[c.pitch, c.target, c.glide, c.bend])
    }

    fn state(&self, tally: &mut Tally) -> Result<(), String> {
        let (cells, registers) = self.ours.state()?;
        if self.walked {
            let (rust_cells, rust_registers) = self.rust.state();
            same("cell", &rust_cells, cells)?;
            if rust_registers != registers {
                return Err(format!("registers: Rust {rust_registers:x?}, here {registers:x?}"));
            }
            tally.cells += cells.len() as u64;
        }
        Ok(())
    }

    fn fill(&mut self, n: usize, tally: &mut Tally) -> Result<(), String> {
        let (mut rust, mut ours) = (vec![9.0; n], vec![8.0; n]);
        let start = self.rust.pos;
        self.rust.fill(&mut rust);
        self.ours.fill(&mut ours)?;
        same(&format!("fill of {n} at {start}, sample"), &rust, &ours)?;
        tally.samples += n as u64;
        tally.sounding += rust.iter().filter(|x| !x.is_nan() && **x != 0.0).count() as u64;
        Ok(())
    }

    fn make(&mut self, m: Move, tally: &mut Tally) -> Result<(), String> {
        match m {
            Move::Fill(n) => self.fill(n, tally)?,
            Move::Pitch(scale, coefficient) => {
                self.rust.glide_pitch(scale, coefficient);
                self.ours.pitch(scale, coefficient);
            }
            Move::Bend(x) => {
                self.rust.bend = x;
                self.ours.bend(x);
            }
            Move::Cutoff(x) => {
                self.rust.set_cutoff(x);
                self.ours.cutoff(x)?;
            }
        }
        self.controls()
    }
}

/// Runs the script on both sides. An error says where they differ.
pub fn run(sheet: &Sheet, script: &Script, tally: &mut Tally) -> Result<(), String> {
    run_bytes(&sheet.bytes(), sheet.order.is_none(), script, tally)
}

/// The same of an accepted sheet's bytes; `walked` as `Pair` has it.
pub fn run_bytes(bytes: &[u8], walked: bool, script: &Script, tally: &mut Tally) -> Result<(), String> {
    let d = Decoder(bytes);
    let rust = Voice::build(&d.node(0), d.rate(), d.length(), d.path());
    let mut pair = Pair { rust, ours: port::Voice::build(bytes)?, walked };
    pair.controls()?;
    pair.state(tally).map_err(|e| format!("built: {e}"))?;
    pair.rust.pos = script.position as usize;
    pair.ours.controls.position = script.position;
    for (k, m) in script.moves.iter().enumerate() {
        pair.make(*m, tally).map_err(|e| format!("move {k}: {e}"))?;
    }
    pair.state(tally).map_err(|e| format!("at the end: {e}"))
}
