//! Declares the original's files as modules, straight from where they lie, so
//! that the oracle is the original and no copy of it. The one copy, of `vm.rs`,
//! stands beside it and has a line more.

#[path = "src/places.rs"]
mod places;

use std::path::{Path, PathBuf};
use std::{env, fs};

/// The files of the original that the port has reached.
const MODULES: [&str; 3] = ["isa", "disasm", "vm"];

/// The line that the copy has more. The original's limit is private, and a
/// history store of a few records needs a smaller one.
const LIMIT: &str = "impl Machine { pub fn set_history_limit(&mut self, limit: usize) { self.history_limit = limit; } }\n";

fn main() {
    let source =
        places::from_root("MASSEY_SRC", "../shared/docs/src").join("crates/massey-core/src");
    let out = PathBuf::from(env::var_os("OUT_DIR").expect("cargo sets OUT_DIR"));
    let mut declarations: String = MODULES
        .iter()
        .map(|name| declare(&original(&source, name), name))
        .collect();
    declarations += &declare(&limited(&source, &out), "vm_limited");
    fs::write(out.join("original.rs"), declarations).expect("OUT_DIR can be written");
    println!("cargo:rerun-if-env-changed=MASSEY_SRC");
    println!("cargo:rerun-if-changed=build.rs");
    println!("cargo:rerun-if-changed=src/places.rs");
}

/// A file of the original, where it lies.
fn original(source: &Path, name: &str) -> PathBuf {
    let file = source.join(name).with_extension("rs");
    assert!(
        file.is_file(),
        "{} is not there: set MASSEY_SRC to the folder that holds crates/massey-core",
        file.display()
    );
    println!("cargo:rerun-if-changed={}", file.display());
    file
}

/// Writes the copy of `vm.rs` whose history limit can be set.
fn limited(source: &Path, out: &Path) -> PathBuf {
    let text = fs::read_to_string(original(source, "vm")).expect("vm.rs can be read");
    let file = out.join("vm_limited.rs");
    fs::write(&file, text + LIMIT).expect("OUT_DIR can be written");
    file
}

/// The original is not ours to tidy, so its warnings are switched off here.
fn declare(file: &Path, name: &str) -> String {
    format!(
        "#[allow(warnings, clippy::all)]\n#[path = {:?}]\npub mod {name};\n",
        file
    )
}
