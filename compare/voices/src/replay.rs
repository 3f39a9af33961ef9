//! Cases for `voice_vectors`, which replays them without the Rust: sheets and scripts, and hashes of what the Rust gives.

use crate::port;
use crate::script::{bits, Move, Script};
use crate::sheet::{Decoder, Sheet};
use original::streaming::source::inner::Voice;
use std::fs;
use std::path::Path;

/// What `voice_vectors` lends.
const CALLS: usize = 64;
const SAMPLES: usize = 16_384;
const CELLS: usize = 65_536;
const REGISTERS: usize = 1_024;
const SCRATCH: usize = 16_384;

/// FNV-1a of 64 bits, by words in place of bytes.
struct Hash(u64);

impl Hash {
    fn new() -> Hash {
        Hash(0xcbf2_9ce4_8422_2325)
    }
    fn word(&mut self, w: u64) {
        self.0 = (self.0 ^ w).wrapping_mul(0x0100_0000_01b3);
    }
    fn floats(&mut self, xs: &[f32]) {
        xs.iter().for_each(|x| self.word(u64::from(bits(*x))));
    }
}

/// A call's kind, its two numbers and its length.
fn call(m: Move) -> (u8, f32, f32, usize) {
    match m {
        Move::Fill(n) => (0, 0.0, 0.0, n),
        Move::Pitch(x, g) => (1, x, g, 0),
        Move::Bend(x) => (2, x, 0.0, 0),
        Move::Cutoff(x) => (3, x, 0.0, 0),
    }
}

/// The samples' hash and how many there are, by the Rust.
fn played(voice: &mut Voice, moves: &[Move]) -> (u64, usize) {
    let (mut hash, mut count) = (Hash::new(), 0);
    for m in moves {
        match *m {
            Move::Fill(n) => {
                let mut out = vec![0.0; n];
                voice.fill(&mut out);
                hash.floats(&out);
                count += n;
            }
            Move::Pitch(scale, coefficient) => voice.glide_pitch(scale, coefficient),
            Move::Bend(x) => voice.bend = x,
            Move::Cutoff(x) => voice.set_cutoff(x),
        }
    }
    (hash.0, count)
}

/// The hash of the controls, cells, registers and zeroed scratch.
fn left(voice: &Voice, scratch: usize) -> u64 {
    let (cells, registers) = voice.state();
    let mut hash = Hash::new();
    hash.word(voice.pos as u64);
    hash.floats(&[voice.pitch, voice.target, voice.glide, voice.bend]);
    hash.floats(&cells);
    registers.iter().for_each(|w| hash.word(*w));
    hash.floats(&vec![0.0; scratch]);
    hash.0
}

/// The bytes of a case and how many samples it has, if it keeps to what the program lends.
fn case(sheet: &Sheet, script: &Script) -> Result<Option<(Vec<u8>, usize)>, String> {
    let bytes = sheet.bytes();
    let needed = port::needed(&bytes)?;
    let calls: Vec<_> = script.moves.iter().map(|m| call(*m)).collect();
    let length: usize = calls.iter().map(|c| c.3).sum();
    let (cells, registers, scratch) = needed;
    if calls.len() > CALLS || length > SAMPLES || cells > CELLS || registers > REGISTERS || scratch > SCRATCH {
        return Ok(None);
    }
    let d = Decoder(&bytes);
    let mut voice = Voice::build(&d.node(0), d.rate(), d.length(), d.path());
    voice.pos = script.position as usize;
    let (samples, count) = played(&mut voice, &script.moves);
    // The Rust lists its state in the walk's order: 0 where the records stand in another.
    let state = if sheet.order.is_none() { left(&voice, scratch) } else { 0 };
    let mut out = Vec::new();
    out.extend((bytes.len() as u32).to_le_bytes());
    out.extend((calls.len() as u32).to_le_bytes());
    for word in [script.position, samples, state] {
        out.extend(word.to_le_bytes());
    }
    out.extend(&bytes);
    for (kind, x, g, n) in calls {
        for word in [u32::from(kind), x.to_bits(), g.to_bits(), n as u32] {
            out.extend(word.to_le_bytes());
        }
    }
    Ok(Some((out, count)))
}

/// Writes the first cases of a seed that fit: the program's input and what it has to print.
pub fn write(folder: &Path, seed: u64, wanted: u64) -> Result<(), String> {
    let (mut out, mut cases, mut samples, mut states, mut own) = (Vec::new(), 0, 0, 0, seed);
    while cases < wanted {
        let (sheet, script) = crate::case(own);
        own = own.wrapping_add(1);
        if let Some((bytes, count)) = case(&sheet, &script)? {
            out.extend(bytes);
            cases += 1;
            samples += count;
            states += u64::from(sheet.order.is_none());
        }
    }
    let printed = format!("cases {cases}\nsamples {samples}\nstates {states}\ndifferences 0\n");
    fs::write(folder.join("stdin"), out).map_err(|e| e.to_string())?;
    fs::write(folder.join("stdout"), &printed).map_err(|e| e.to_string())?;
    print!("{printed}");
    Ok(())
}
