//! Links the archive `libboundary.a`.

use std::path::{Path, PathBuf};

fn main() {
    let directory = archive_directory();
    println!("cargo:rerun-if-env-changed=MAXT_ARCHIVE_DIR");
    println!("cargo:rerun-if-changed={}", directory.join("libboundary.a").display());
    println!("cargo:rustc-link-search=native={}", directory.display());
    println!("cargo:rustc-link-lib=static=boundary");
}

/// `MAXT_ARCHIVE_DIR`, or where `tools/archive` leaves the archive.
fn archive_directory() -> PathBuf {
    match std::env::var_os("MAXT_ARCHIVE_DIR") {
        Some(directory) => PathBuf::from(directory),
        None => Path::new(env!("CARGO_MANIFEST_DIR")).join("../../target/staticlib"),
    }
}
