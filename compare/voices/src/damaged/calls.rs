//! The calls of one case, each on a copy of what it is lent: the answer is the reading's, and what the call leaves is what
//! document 01 says, as far as that can be told without a sample.

use super::reading::{self, Layout, Lent};
use super::Case;
use crate::port::{self, Controls, Voice};
use crate::script::bits;

fn lent<'a>(case: &Case, v: &'a Voice, position: u64) -> Lent<'a> {
    let scratch = v.scratch.len();
    Lent { cells: &v.cells, registers: &v.registers, scratch, position, length: case.out.len() }
}

fn answers(call: &str, reading: u8, answer: u8) -> Result<(), String> {
    if reading == answer {
        return Ok(());
    }
    Err(format!("{call} answers {answer}, the reading {reading}"))
}

/// Bits, not numbers: payloads of NaNs too.
fn same_floats(what: &str, before: &[f32], after: &[f32]) -> Result<(), String> {
    match before.iter().zip(after).position(|(x, y)| x.to_bits() != y.to_bits()) {
        None => Ok(()),
        Some(i) => {
            let (x, y) = (before[i].to_bits(), after[i].to_bits());
            Err(format!("{what} {i} was {x:08x} and is {y:08x}"))
        }
    }
}

fn same_words(what: &str, before: &[u64], after: &[u64]) -> Result<(), String> {
    match before.iter().zip(after).position(|(x, y)| x != y) {
        None => Ok(()),
        Some(i) => Err(format!("{what} {i} was {:x} and is {:x}", before[i], after[i])),
    }
}

fn same_controls(given: &Controls, back: &Controls) -> Result<(), String> {
    let floats = |c: &Controls| [c.pitch, c.target, c.glide, c.bend];
    same_words("position", &[given.position], &[back.position])?;
    same_floats("control", &floats(given), &floats(back))
}

/// All that is lent is as it was.
fn untouched(before: &Voice, after: &Voice) -> Result<(), String> {
    past(&Layout::default(), before, after)
}

/// What is lent past the needs is as it was.
fn past(l: &Layout, before: &Voice, after: &Voice) -> Result<(), String> {
    if before.sheet != after.sheet {
        return Err("the sheet is written".into());
    }
    same_floats("cell past the needs", &before.cells[l.cells..], &after.cells[l.cells..])?;
    same_words("register past the needs", &before.registers[l.registers..], &after.registers[l.registers..])?;
    same_floats("scratch past the needs", &before.scratch[l.scratch..], &after.scratch[l.scratch..])
}

fn zeroed(l: &Layout, after: &Voice) -> Result<(), String> {
    match after.scratch[..l.scratch].iter().position(|x| x.to_bits() != 0) {
        None => Ok(()),
        Some(i) => Err(format!("scratch {i} is not zeroed")),
    }
}

/// The layout, where the answer is acceptance.
fn accepted(case: &Case, answer: u8) -> Option<&Layout> {
    case.needs.as_ref().ok().filter(|_| answer == 0)
}

pub fn needs(case: &Case) -> Result<u8, String> {
    let n = port::needs(&case.voice.sheet);
    let (refusal, l) = match &case.needs {
        Ok(l) => (0, l),
        Err(refusal) => (*refusal, &Layout::default()),
    };
    answers("needs", refusal, n.refusal)?;
    let (told, meant) = ([n.cells, n.registers, n.scratch], [l.cells, l.registers, l.scratch]);
    same_words("needs: count", &meant.map(|x| x as u64), &told)?;
    Ok(refusal)
}

pub fn build(case: &Case) -> Result<u8, String> {
    let (before, mut after) = (&case.voice, case.voice.clone());
    let back = after.player_build(before.controls);
    let answer = reading::build(&case.needs, &lent(case, before, 0));
    answers("build", answer, back.answer)?;
    let left = match accepted(case, answer) {
        Some(l) => {
            let fresh = Controls { position: 0, pitch: 1.0, target: 1.0, glide: 1.0, bend: 1.0 };
            same_controls(&fresh, &back.controls)
                .and_then(|()| past(l, before, &after))
                .and_then(|()| zeroed(l, &after))
        }
        None => same_controls(&before.controls, &back.controls).and_then(|()| untouched(before, &after)),
    };
    left.map_err(|e| format!("build, answer {answer}: {e}"))?;
    Ok(answer)
}

pub fn cutoff(case: &Case) -> Result<u8, String> {
    let (mut before, mut after) = (case.voice.clone(), case.voice.clone());
    let answer = reading::build(&case.needs, &lent(case, &before, 0));
    answers("cutoff", answer, after.player_cutoff(case.cutoff))?;
    for at in accepted(case, answer).iter().flat_map(|l| &l.filters) {
        let (scale, last) = (after.cells[*at], after.cells[at + 1]);
        if bits(scale) != bits(case.cutoff) || !last.is_nan() {
            return Err(format!("cutoff {:e} leaves the scale {scale:e} and the frequency {last:e}", case.cutoff));
        }
        // These two may be written, and nothing else.
        before.cells[*at] = scale;
        before.cells[at + 1] = last;
    }
    untouched(&before, &after).map_err(|e| format!("cutoff, answer {answer}: {e}"))?;
    Ok(answer)
}

pub fn fill(case: &Case) -> Result<u8, String> {
    let (before, mut after, mut out) = (&case.voice, case.voice.clone(), case.out.clone());
    let back = after.player_fill(before.controls, out.as_mut_ptr(), out.len());
    let answer = reading::fill(&case.needs, &lent(case, before, before.controls.position));
    answers("fill", answer, back.answer)?;
    let left = match accepted(case, answer) {
        Some(l) if !out.is_empty() => filled(case, l, &after, &back.controls),
        // A refusal, or no samples: nothing changes.
        _ => same_controls(&before.controls, &back.controls)
            .and_then(|()| untouched(before, &after))
            .and_then(|()| same_floats("output", &case.out, &out)),
    };
    left.map_err(|e| format!("fill of {}, answer {answer}: {e}", out.len()))?;
    Ok(answer)
}

/// After samples: where the controls stand, what lies past the needs, and that the state is valid again.
fn filled(case: &Case, l: &Layout, after: &Voice, back: &Controls) -> Result<(), String> {
    let mut meant = case.voice.controls;
    meant.position += case.out.len() as u64;
    case.out.iter().for_each(|_| meant.pitch += (meant.target - meant.pitch) * meant.glide);
    if bits(meant.pitch) == bits(back.pitch) {
        // The bits of a NaN that is worked out are left to the program.
        meant.pitch = back.pitch;
    }
    same_controls(&meant, back)?;
    past(l, &case.voice, after)?;
    zeroed(l, after)?;
    let again = Lent { length: 0, ..lent(case, after, back.position) };
    match reading::fill(&case.needs, &again) {
        0 => Ok(()),
        refusal => Err(format!("the reading answers {refusal} to what is left")),
    }
}
