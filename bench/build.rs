//! Links the port's calls for timing. The public archive comes with `archive`;
//! either has the library's code as symbols of its own.

use oracle::places;

fn main() {
    let folder = places::from_root("MASSEY_ARCHIVE_DIR", "target/staticlib");
    let file = folder.join("libmassey_bench.a");
    assert!(
        file.is_file(),
        "{} is not there: run `tools/build massey_bench`, or set MASSEY_ARCHIVE_DIR",
        file.display()
    );
    println!("cargo:rustc-link-search=native={}", folder.display());
    println!("cargo:rustc-link-lib=static=massey_bench");
    println!("cargo:rerun-if-changed={}", file.display());
    println!("cargo:rerun-if-env-changed=MASSEY_ARCHIVE_DIR");
}
