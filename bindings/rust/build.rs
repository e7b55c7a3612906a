//! Finds the archive libhulgyevan.a: in the folder HULGYEVAN_LIB_DIR, and if that is not set where `rt lib` leaves it.
use std::path::PathBuf;
use std::process::exit;

const ARCHIVE: &str = "libhulgyevan.a";

/// Gives the folder in which the archive is looked for.
fn folder() -> PathBuf {
    match std::env::var_os("HULGYEVAN_LIB_DIR") {
        Some(folder) => PathBuf::from(folder),
        None => PathBuf::from(env!("CARGO_MANIFEST_DIR")).join("../../crates/hulgyevan/out"),
    }
}

fn main() {
    println!("cargo:rerun-if-env-changed=HULGYEVAN_LIB_DIR");
    println!("cargo:rerun-if-changed=build.rs");
    let archive = folder().join(ARCHIVE);
    println!("cargo:rerun-if-changed={}", archive.display());
    if !archive.is_file() {
        eprintln!(
            "there is no {}: run `rt lib` in crates/hulgyevan, or set HULGYEVAN_LIB_DIR to the folder that has {ARCHIVE}",
            archive.display()
        );
        exit(1);
    }
    println!("cargo:rustc-link-search=native={}", folder().display());
    println!("cargo:rustc-link-lib=static=hulgyevan");
}
