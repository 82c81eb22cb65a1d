//! Finds the archive: in the directory that GANTRY_ARCHIVE_DIR names, else where `rt lib --cpu=x86-64` in crates/gantry puts it.

use std::path::{Path, PathBuf};

const VARIABLE: &str = "GANTRY_ARCHIVE_DIR";

fn archive_dir() -> PathBuf {
    // Asked as it runs: a build of this script may be kept for the same sources at another path.
    let here = || std::env::var_os("CARGO_MANIFEST_DIR").unwrap_or_default();
    match std::env::var_os(VARIABLE) {
        Some(dir) => PathBuf::from(dir),
        None => Path::new(&here()).join("../../crates/gantry/out"),
    }
}

fn main() {
    let dir = archive_dir();
    let archive = dir.join("libgantry.a");
    println!("cargo::rerun-if-env-changed={VARIABLE}");
    println!("cargo::rerun-if-changed={}", archive.display());
    if !archive.is_file() {
        println!(
            "cargo::error=no archive {}: build it with 'rt lib --cpu=x86-64' in crates/gantry, \
             or set {VARIABLE} to the directory (absolute) that holds libgantry.a",
            archive.display()
        );
        return;
    }
    println!("cargo::rustc-link-search=native={}", dir.display());
    println!("cargo::rustc-link-lib=static=gantry");
}
