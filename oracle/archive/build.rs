//! Links the port's archive.

use oracle::places;

fn main() {
    let folder = places::from_root("MASSEY_ARCHIVE_DIR", "target/staticlib");
    let file = folder.join("libmassey.a");
    assert!(
        file.is_file(),
        "{} is not there: run `tools/build massey`, or set MASSEY_ARCHIVE_DIR",
        file.display()
    );
    println!("cargo:rustc-link-search=native={}", folder.display());
    println!("cargo:rustc-link-lib=static=massey");
    println!("cargo:rerun-if-changed={}", file.display());
    println!("cargo:rerun-if-env-changed=MASSEY_ARCHIVE_DIR");
}
