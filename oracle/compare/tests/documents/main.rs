//! What `README.md` and the pages in `docs/` say is true where a machine can tell:
//! examples, offsets, crates, laws and places.

mod examples;
mod laws;
mod offsets;
mod places;
mod readme;

use std::fs;
use std::path::{Path, PathBuf};

/// The repository's root.
fn root() -> PathBuf {
    Path::new(env!("CARGO_MANIFEST_DIR")).join("../..")
}

/// A document's text.
fn document(name: &str) -> String {
    fs::read_to_string(root().join(name)).expect("the document can be read")
}

/// The names in backquotes.
fn quoted(cell: &str) -> impl Iterator<Item = &str> {
    cell.split('`').skip(1).step_by(2)
}
