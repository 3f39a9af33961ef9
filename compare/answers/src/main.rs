//! Writes the answer files of `leaf_vectors`, `det_vectors` and `kernel_vectors`, and what these print where nothing differs.

mod cases;
mod det;
mod kernels;
mod leaf;
mod rng;
mod section;

use std::path::Path;
use std::{env, fs, io};

fn main() -> io::Result<()> {
    let crates = match env::args().nth(1) {
        Some(folder) => folder.into(),
        None => Path::new(env!("CARGO_MANIFEST_DIR")).join("../../crates"),
    };
    write(&crates.join("leaf_vectors"), &leaf::sections())?;
    write(&crates.join("det_vectors"), &det::sections())?;
    write(&crates.join("kernel_vectors"), &kernels::sections())
}

fn write(folder: &Path, sections: &[section::Section]) -> io::Result<()> {
    let (answers, report) = section::files(sections);
    println!(
        "{}: {} functions, {} bytes",
        folder.file_name().unwrap().to_string_lossy(),
        sections.len(),
        answers.len()
    );
    fs::create_dir_all(folder)?;
    fs::write(folder.join("stdin"), answers)?;
    fs::write(folder.join("stdout"), report)
}
