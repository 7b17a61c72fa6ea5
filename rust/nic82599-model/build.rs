//! Generates the controller as plain Rust from the repository's sources, using the code that writes the plain edition.
//! A packed crate contains the generated files and has no build script.

use std::env;
use std::fs;
use std::path::{Path, PathBuf};

// (this script uses only part of it)
#[allow(dead_code)]
#[path = "../../plain/eraser/mod.rs"]
mod eraser;

/// The repository, relative to the crate's directory.
const ROOT: &str = "../..";
/// The files and folders that the script reads in the repository, besides the crates' sources.
const READ: [&str; 4] = ["crates.txt", "plain/eraser", "plain/instead", "plain/kit"];

fn main() {
    for name in READ {
        println!("cargo:rerun-if-changed={ROOT}/{name}");
    }
    for folder in fs::read_dir(format!("{ROOT}/crates")).into_iter().flatten().flatten() {
        println!("cargo:rerun-if-changed={}", folder.path().join("src").display());
    }
    let out = PathBuf::from(env::var_os("OUT_DIR").unwrap_or_default());
    if let Err(fault) = eraser::edition::write_controller(Path::new(ROOT), &out) {
        eprintln!("{fault}");
        std::process::exit(1);
    }
}
