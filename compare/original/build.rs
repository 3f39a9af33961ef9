//! Puts the Rust source's own files, unchanged, into OUT_DIR. Below some stands one module more, `inner/NAME.rs`, that
//! hands out what is private there: only a module inside the file's own can reach it. `absent/` stands in for the files
//! that the source folder lacks, with the types that the others name; no compared function uses them.

use std::path::{Path, PathBuf};
use std::{env, fs};

struct Folders {
    source: PathBuf,
    here: PathBuf,
    out: PathBuf,
}

impl Folders {
    fn read(&self, file: &str) -> String {
        let path = self.source.join(file);
        println!("cargo:rerun-if-changed={}", path.display());
        fs::read_to_string(&path).unwrap_or_else(|e| {
            panic!("{}: {e}. Set TONO_SRC to the folder that holds crates/tono-core", path.display())
        })
    }

    fn own(&self, file: &str) -> String {
        let path = self.here.join(file);
        println!("cargo:rerun-if-changed={}", path.display());
        fs::read_to_string(&path).unwrap()
    }

    /// A source file as module NAME, with the module of the private functions below it.
    fn opened(&self, file: &str, name: &str) -> String {
        let inner = self.own(&format!("inner/{name}.rs"));
        self.put(&format!("{name}.rs"), &format!("{}\npub mod inner {{\n{inner}}}\n", self.read(file)), name)
    }

    /// Writes a file, and gives the declaration of its module. An included file cannot begin with the inner attributes
    /// and comments that the source's files have, and a module's own file can.
    fn put(&self, file: &str, text: &str, name: &str) -> String {
        let path = self.out.join(file);
        fs::create_dir_all(path.parent().unwrap()).unwrap();
        fs::write(&path, text).unwrap();
        format!("#[path = {:?}]\npub mod {name};\n", path.to_str().unwrap())
    }

    fn write(&self, file: &str, parts: &[String]) {
        fs::write(self.out.join(file), parts.concat()).unwrap();
    }
}

/// The item of a source text that begins with `head`, to the brace or the semicolon that ends it.
fn item(text: &str, head: &str) -> String {
    let start = text.find(head).unwrap_or_else(|| panic!("no {head:?} in the source"));
    let rest = &text[start..];
    let end = if head.contains("const ") { rest.find(";\n").unwrap() + 2 } else { rest.find("\n}\n").unwrap() + 3 };
    rest[..end].to_string()
}

fn dsl(f: &Folders) -> String {
    for (file, name) in [("node.rs", "node"), ("bounds.rs", "bounds")] {
        f.put(&format!("dsl/{file}"), &f.read(&format!("dsl/{file}")), name);
    }
    for name in ["tracks", "validate"] {
        f.put(&format!("dsl/{name}.rs"), &f.own(&format!("absent/{name}.rs")), name);
    }
    f.put("dsl/mod.rs", &f.read("dsl/mod.rs"), "dsl")
}

fn main() {
    let here = PathBuf::from(env::var("CARGO_MANIFEST_DIR").unwrap());
    let source = match env::var("TONO_SRC") {
        Ok(folder) => PathBuf::from(folder),
        Err(_) => here.join("../../../shared/docs/src"),
    };
    println!("cargo:rerun-if-env-changed=TONO_SRC");
    let out = Path::new(&env::var("OUT_DIR").unwrap()).to_path_buf();
    let f = Folders { source: source.join("crates/tono-core/src"), here, out };

    f.write("modules.rs", &[f.opened("det.rs", "det"), f.opened("dsp.rs", "dsp"), dsl(&f)]);
    let seeds = item(&f.read("render/mod.rs"), "pub(crate) fn rand_seed");
    f.write("render.rs", &[f.opened("render/effects.rs", "effects"), f.opened("render/osc.rs", "osc"), seeds]);
    let parts = ["value", "source", "proc"].map(|name| f.opened(&format!("streaming/{name}.rs"), name));
    let graph = f.read("streaming/mod.rs");
    let heads = ["pub(crate) const CHUNK", "pub(crate) struct Ctx", "const MAX_BUILD_RATE", "impl Ctx"]
        .map(|head| item(&graph, head));
    f.write("streaming.rs", &[parts.concat(), heads.concat()]);
}
