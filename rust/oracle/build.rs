//! Copies the three source files into `OUT_DIR`, each followed by its access module.
//!
//! They are looked for in the folder that `RHAI_SRC` names, else in `shared/docs/src` beside the
//! repository. Where they are missing, this crate compiles to nothing.

use std::path::{Path, PathBuf};
use std::{env, fs};

/// The files, by their names in the source and in `appended`.
const FILES: [&str; 3] = ["tokenizer.rs", "types/token.rs", "types/position.rs"];

/// Declares the copied files as modules, and is itself copied beside them.
const MODULES: &str = "modules.rs";

fn main() {
    println!("cargo:rerun-if-env-changed=RHAI_SRC");
    println!("cargo::rustc-check-cfg=cfg(rhai_source)");

    let source = source_folder().join("src");
    watch(&source, &FILES);
    let present = FILES.iter().all(|file| source.join(file).is_file());
    println!("cargo:present={}", present);

    if present {
        copy(&source, &PathBuf::from(env::var_os("OUT_DIR").unwrap()));
        println!("cargo:rustc-cfg=rhai_source");
    }
}

fn source_folder() -> PathBuf {
    let beside = Path::new(env!("CARGO_MANIFEST_DIR")).join("../../../shared/docs/src");
    env::var_os("RHAI_SRC").map_or(beside, PathBuf::from)
}

fn watch(folder: &Path, files: &[&str]) {
    for file in files {
        println!("cargo:rerun-if-changed={}", folder.join(file).display());
    }
}

fn copy(source: &Path, out: &Path) {
    let appended = Path::new(env!("CARGO_MANIFEST_DIR")).join("appended");
    watch(&appended, &FILES);
    watch(&appended, &[MODULES]);

    fs::create_dir_all(out.join("types")).unwrap();
    fs::write(out.join(MODULES), read(&appended, MODULES)).unwrap();
    for file in FILES {
        let text = format!("{}\n{}", read(source, file), read(&appended, file));
        fs::write(out.join(file), text).unwrap();
    }
}

fn read(folder: &Path, file: &str) -> String {
    let path = folder.join(file);
    fs::read_to_string(&path).unwrap_or_else(|why| panic!("{}: {}", path.display(), why))
}
