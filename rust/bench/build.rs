//! Tells the program what there is to time. The archives are linked by `compare` and `stewsatchel`.

use std::env;

fn main() {
    println!("cargo::rustc-check-cfg=cfg(rhai_source)");
    println!("cargo::rustc-check-cfg=cfg(stew_archive)");

    // Said by the build script of `oracle`.
    if env::var("DEP_RHAI_SOURCE_PRESENT").as_deref() == Ok("true") {
        println!("cargo:rustc-cfg=rhai_source");
    }

    // Said by the build script of `compare`.
    let missing = env::var("DEP_STEW_NAMES_MISSING").unwrap_or_default();
    if missing.is_empty() {
        println!("cargo:rustc-cfg=stew_archive");
    }
    println!("cargo:rustc-env=STEW_MISSING={}", missing);
}
