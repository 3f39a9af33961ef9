//! Whole voices beside the Rust: random sheets and scripts, every sample, the controls after every call, and the state.
//!
//!     cargo run --release -p voices -- SEED SHEETS
//!     cargo run --release -p voices -- damaged SEED SHEETS # refusals, beside a reading of document 01
//!     cargo run --release -p voices -- replay SEED CASES   # writes the cases of voice_vectors
//!     cargo run --release -p voices -- speed [WORD]        # the example voices' times, or those whose name has the word

mod damaged;
mod port;
mod random;
mod replay;
mod script;
mod sheet;
mod shrink;
mod speed;

use random::Random;
use script::Tally;
use sheet::Record;
use std::env;
use std::path::{Path, PathBuf};
use std::process::exit;

fn argument(k: usize, default: u64) -> u64 {
    env::args().nth(k).map_or(default, |a| a.parse().unwrap_or_else(|_| panic!("not a number: {a}")))
}

/// A folder of the repository.
fn folder(name: &str) -> PathBuf {
    Path::new(env!("CARGO_MANIFEST_DIR")).join("../..").join(name)
}

fn count_kinds(r: &Record, kinds: &mut [u64; 64]) {
    kinds[r.kind as usize] += 1;
    r.chain.iter().for_each(|c| count_kinds(c, kinds));
}

fn report(seed: u64, sheet: sheet::Sheet, script: script::Script, found: String) -> ! {
    println!("seed {seed}: {found}");
    let (sheet, script, found) = shrink::shrink(sheet, script);
    println!("shrunk: {found}\n{sheet:?}\n{script:?}");
    println!("sheet {}", sheet.bytes().iter().map(|b| format!("{b:02x}")).collect::<String>());
    exit(1)
}

/// Each sheet has a seed of its own, so that one can be run again alone.
fn case(seed: u64) -> (sheet::Sheet, script::Script) {
    let mut r = Random::new(seed.wrapping_mul(0xd134_2543_de82_ef95));
    (random::sheet(&mut r), random::script(&mut r))
}

fn main() {
    let done = match env::args().nth(1).as_deref() {
        Some("speed") => speed::run(&folder("examples"), &env::args().nth(2).unwrap_or_default()),
        Some("replay") => replay::write(&folder("crates/voice_vectors"), argument(2, 1), argument(3, 1000)),
        Some("damaged") => {
            damaged::run(argument(2, 1), argument(3, 20_000));
            Ok(())
        }
        _ => {
            compare(argument(1, 1), argument(2, 1000));
            Ok(())
        }
    };
    if let Err(e) = done {
        eprintln!("{e}");
        exit(1)
    }
}

fn compare(seed: u64, sheets: u64) {
    let mut tally = Tally::default();
    let mut kinds = [0; 64];
    for k in 0..sheets {
        let own = seed.wrapping_add(k);
        let (sheet, script) = case(own);
        count_kinds(&sheet.root, &mut kinds);
        if let Err(found) = script::run(&sheet, &script, &mut tally) {
            report(own, sheet, script, found);
        }
    }
    println!(
        "sheets {sheets}, samples {} ({} neither NaN nor 0), cells {}, differences 0",
        tally.samples, tally.sounding, tally.cells
    );
    let used: Vec<String> =
        kinds.iter().enumerate().filter(|(_, n)| **n > 0).map(|(k, n)| format!("{k}: {n}")).collect();
    println!("records by kind: {}", used.join(", "));
}
