//! Links the archive of the proved run and the proved raw writer.
//!
//! It is looked for in the folder that `STEW_ARCHIVES` names, else in the one that
//! `tools/archive` writes to. Where it is missing, the build ends and says how to make it.

use std::env;
use std::path::{Path, PathBuf};
use std::process::exit;

/// The archive `libstew.a`.
const ARCHIVE: &str = "stew";

fn main() {
    println!("cargo:rerun-if-env-changed=STEW_ARCHIVES");

    let built = Path::new(env!("CARGO_MANIFEST_DIR")).join("../../target/staticlib");
    let folder = env::var_os("STEW_ARCHIVES").map_or(built, PathBuf::from);
    let archive = folder.join(format!("lib{}.a", ARCHIVE));
    println!("cargo:rerun-if-changed={}", archive.display());
    if !archive.is_file() {
        eprintln!("stewsatchel: there is no archive {}", archive.display());
        eprintln!("stewsatchel: `tools/archive` in the repository's root makes it");
        eprintln!("stewsatchel: or set STEW_ARCHIVES to the absolute path of a folder that has it");
        exit(1);
    }
    println!("cargo:linked={}", ARCHIVE);
    println!("cargo:rustc-link-search=native={}", folder.display());
    println!("cargo:rustc-link-lib=static={}", ARCHIVE);
}
