//! Damaged sheets, bad states, short memory and positions about the last one: what needs, build, cutoff and fill answer
//! beside a reading of document 01's text, and that a refusal leaves everything as it was, bit for bit.

mod calls;
mod edges;
mod faults;
mod reading;
mod trees;

use crate::port::Voice;
use crate::random::{around, script, sheet, Random};
use crate::script::{run_bytes, Script, Tally};
use crate::sheet::Sheet;
use reading::Layout;
use std::process::exit;

/// The calls, and the highest number that each answers.
const CALLS: [(&str, usize); 4] = [("needs", 7), ("build", 8), ("cutoff", 8), ("fill", 10)];

/// A sheet, what it needs, and what its calls are lent.
pub struct Case {
    needs: Result<Layout, u8>,
    voice: Voice,
    out: Vec<f32>,
    cutoff: f32,
    script: Script,
    /// Of a sheet without damage: the depth of its tree and the number of its records.
    made: Option<(usize, usize)>,
}

/// A third of the trees stand at the bounds of depth and of size.
fn tree(r: &mut Random) -> Sheet {
    match r.below(12) {
        0 => around(r, |r| trees::deep(r, 16)),
        1 => around(r, |r| trees::deep(r, 17)),
        2 => around(r, |r| {
            let depth = 14 + r.below(7) as usize;
            trees::deep(r, depth)
        }),
        3 => around(r, |r| {
            let count = r.pick(&[5, 254, 255, 256, 256, 256, 257, 258]);
            trees::wide(r, count)
        }),
        _ => sheet(r),
    }
}

/// Each case has a seed of its own, so that one can be run again alone.
fn case(seed: u64) -> Case {
    let mut r = Random::new(seed.wrapping_mul(0xd134_2543_de82_ef95) ^ 0x000d_a3a6_ed00);
    let sheet = tree(&mut r);
    let mut bytes = sheet.bytes();
    let faults = if r.one_in(3) { 0 } else { 1 + r.below(3) };
    (0..faults).for_each(|_| faults::damage(&mut r, &mut bytes));
    let needs = reading::needs(&bytes);
    let length = r.pick(&[0, 0, 1, 1, 2, 7, 64, 255, 256, 257, 300]);
    let voice = faults::voice(&mut r, bytes, needs.as_ref().ok(), length);
    let out = (0..length).map(|_| r.any()).collect();
    let made = (faults == 0).then(|| (trees::depth(&sheet.root), sheet.root.count()));
    Case { needs, voice, out, cutoff: r.any(), script: script(&mut r), made }
}

/// What was seen.
#[derive(Default)]
struct Seen {
    sheets: u64,
    answers: [[u64; 11]; 4],
    edges: edges::Counts,
    damaged: u64,
    /// Sheets without damage: of depth 16 and accepted, of depth 17 and refused by 7, of 256 records and accepted.
    made: [u64; 3],
    /// Accepted sheets that were played on both sides, and what was compared.
    played: u64,
    tally: Tally,
}

impl Seen {
    /// What a sheet without damage is answered follows from its tree.
    fn bounds(&mut self, needed: u8, depth: usize, count: usize) -> Result<(), String> {
        let meant = match (count > 256, depth > 16) {
            (true, _) => 1,
            (false, true) => 7,
            (false, false) => 0,
        };
        if needed != meant {
            return Err(format!("the reading answers {needed} to a tree of depth {depth} with {count} records"));
        }
        let of = [depth == 16 && meant == 0, depth == 17 && meant == 7, count == 256 && meant == 0];
        (0..3).for_each(|k| self.made[k] += u64::from(of[k]));
        Ok(())
    }

    fn compare(&mut self, case: &Case) -> Result<(), String> {
        self.sheets += 1;
        match case.made {
            None => self.damaged += 1,
            Some((depth, count)) => self.bounds(*case.needs.as_ref().err().unwrap_or(&0), depth, count)?,
        }
        let answers = [calls::needs(case)?, calls::build(case)?, calls::cutoff(case)?, calls::fill(case)?];
        answers.iter().enumerate().for_each(|(call, a)| self.answers[call][usize::from(*a)] += 1);
        self.edges.add(case, answers[3]);
        if let Ok(l) = &case.needs {
            run_bytes(&case.voice.sheet, l.walked, &case.script, &mut self.tally)?;
            self.played += 1;
        }
        Ok(())
    }

    fn print(&self) {
        let [deepest, deeper, largest] = self.made;
        println!("sheets {}, damaged {}", self.sheets, self.damaged);
        println!(
            "as made: depth 16 accepted {deepest}, depth 17 refused by 7 {deeper}, 256 records accepted {largest}"
        );
        let mut never = Vec::new();
        for ((name, highest), answers) in CALLS.iter().zip(&self.answers) {
            let told: Vec<String> = (0..=*highest).map(|n| format!("{n}: {}", answers[n])).collect();
            println!("{name} answered {}", told.join(", "));
            never.extend((0..=*highest).filter(|n| answers[*n] == 0).map(|n| format!("{name} {n}")));
        }
        never.extend(self.edges.print());
        println!("never seen: {}", if never.is_empty() { "none".into() } else { never.join(", ") });
        let t = &self.tally;
        println!(
            "accepted sheets beside the Rust {}, samples {} ({} neither NaN nor 0), cells {}",
            self.played, t.samples, t.sounding, t.cells
        );
    }
}

fn show(seed: u64, case: &Case, found: &str) {
    let v = &case.voice;
    println!("the smallest: seed {seed}: {found}");
    println!("cells {}, registers {}, scratch {}", v.cells.len(), v.registers.len(), v.scratch.len());
    println!("{:?}, a fill of {}", v.controls, case.out.len());
    println!("sheet {}", v.sheet.iter().map(|b| format!("{b:02x}")).collect::<String>());
}

/// Runs so many cases, all of them. If some differ, the one with the smallest sheet is shown.
pub fn run(seed: u64, count: u64) {
    let mut seen = Seen::default();
    let (mut differences, mut smallest) = (0, None);
    for own in (0..count).map(|k| seed.wrapping_add(k)) {
        let case = case(own);
        if let Err(found) = seen.compare(&case) {
            differences += 1;
            let size = case.voice.sheet.len();
            if smallest.as_ref().is_none_or(|(least, _, _)| size < *least) {
                smallest = Some((size, own, found));
            }
        }
    }
    seen.print();
    println!("differences {differences}");
    if let Some((_, own, found)) = smallest {
        show(own, &case(own), &found);
        exit(1)
    }
}
