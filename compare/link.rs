//! Links static libraries of the port, each of which `rt lib` builds in its crate's folder.

use std::env;
use std::path::PathBuf;

pub fn link(names: &[&str]) {
    let crates = PathBuf::from(env::var("CARGO_MANIFEST_DIR").unwrap()).join("../../crates");
    println!("cargo:rerun-if-env-changed=BENCH_LIB");
    for name in names {
        let folder = match env::var("BENCH_LIB") {
            Ok(folder) => PathBuf::from(folder),
            Err(_) => crates.join(name).join("out"),
        };
        println!("cargo:rustc-link-search=native={}", folder.display());
        println!("cargo:rerun-if-changed={}", folder.join(format!("lib{name}.a")).display());
        println!("cargo:rustc-link-lib=static={name}");
    }
    // `%` on floats is C's fmod, on both sides.
    println!("cargo:rustc-link-lib=m");
}
