//! Links the proved static libraries, and tells the program what there is to compare.
//!
//! They are those that the file `archives` lists, in the folder that `STEW_ARCHIVES` names, else in
//! the one that `tools/archive` writes to. They are linked only if all of them are there. One of
//! them is linked by `stewsatchel`, which is not built without it.

use std::env;
use std::path::{Path, PathBuf};

/// One name to a line.
const ARCHIVES: &str = include_str!("archives");

fn main() {
    println!("cargo::rustc-check-cfg=cfg(rhai_source)");
    println!("cargo::rustc-check-cfg=cfg(stew_archive)");
    println!("cargo:rerun-if-env-changed=STEW_ARCHIVES");
    println!("cargo:rerun-if-changed=archives");

    // Said by the build script of `oracle`.
    if env::var("DEP_RHAI_SOURCE_PRESENT").as_deref() == Ok("true") {
        println!("cargo:rustc-cfg=rhai_source");
    }

    // Said by the build script of `stewsatchel`.
    let linked = env::var("DEP_STEW_LINKED").unwrap_or_default();

    let folder = folder();
    let is_ours = |name: &&str| !linked.split(' ').any(|linked| linked == *name);
    let archives: Vec<&str> = ARCHIVES.lines().filter(is_ours).collect();
    let missing: Vec<&str> = archives
        .iter()
        .copied()
        .filter(|name| is_missing(&folder, name))
        .collect();
    if missing.is_empty() {
        link(&folder, &archives);
        println!("cargo:rustc-cfg=stew_archive");
    }
    println!("cargo:missing={}", missing.join(" "));
    println!("cargo:rustc-env=STEW_MISSING={}", missing.join(" "));
}

fn folder() -> PathBuf {
    let built = Path::new(env!("CARGO_MANIFEST_DIR")).join("../../target/staticlib");
    env::var_os("STEW_ARCHIVES").map_or(built, PathBuf::from)
}

/// Whether an archive is not in the folder. It is watched.
fn is_missing(folder: &Path, name: &str) -> bool {
    let archive = folder.join(format!("lib{}.a", name));
    println!("cargo:rerun-if-changed={}", archive.display());
    !archive.is_file()
}

fn link(folder: &Path, archives: &[&str]) {
    println!("cargo:rustc-link-search=native={}", folder.display());
    for name in archives {
        println!("cargo:rustc-link-lib=static={}", name);
    }
}
