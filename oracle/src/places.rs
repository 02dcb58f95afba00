//! Where things lie. Each place can be moved by an environment variable; a
//! relative path is seen from the repository's root, whatever the working
//! directory is.

use std::env;
use std::path::{Path, PathBuf};

/// The repository's root: the folder that holds this package.
pub fn root() -> PathBuf {
    let package = Path::new(env!("CARGO_MANIFEST_DIR"));
    package
        .parent()
        .expect("the package lies in the repository")
        .to_path_buf()
}

/// The path that `variable` names, else `default`.
pub fn from_root(variable: &str, default: &str) -> PathBuf {
    root().join(env::var_os(variable).unwrap_or_else(|| default.into()))
}
