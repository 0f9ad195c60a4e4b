//! The header, held to the archive by a C program that is compiled and run here.
//!
//! The compiler and the emulator are those that cargo uses, which `tools/setup-rust` names: `cc`
//! and none where the machine is x86-64.

use std::env;
use std::path::{Path, PathBuf};
use std::process::Command;

fn setting(of: &str) -> Option<String> {
    env::var(format!("CARGO_TARGET_X86_64_UNKNOWN_LINUX_GNU_{}", of)).ok()
}

fn archive() -> PathBuf {
    let built = Path::new(env!("CARGO_MANIFEST_DIR")).join("../../target/staticlib");
    let folder = env::var_os("STEW_ARCHIVES").map_or(built, PathBuf::from);
    folder.join("libstew.a")
}

/// What a command prints, if it ends well.
fn printed(command: &mut Command) -> String {
    let output = command.output().expect("the command starts");
    let [out, err] =
        [output.stdout, output.stderr].map(|bytes| String::from_utf8_lossy(&bytes).into_owned());
    assert!(output.status.success(), "{:?}: {}{}", command, out, err);
    out
}

#[test]
fn a_c_program_gets_the_right_answers() {
    let program = Path::new(env!("CARGO_TARGET_TMPDIR")).join("stew-c");
    let source = Path::new(env!("CARGO_MANIFEST_DIR")).join("tests/stew.c");
    let compiler = setting("LINKER").unwrap_or_else(|| "cc".into());
    let mut compile = Command::new(compiler);
    compile.args(["-std=c99", "-Wall", "-Wextra", "-Wpedantic", "-Werror"]);
    compile.arg("-o").arg(&program).arg(source).arg(archive());
    let mut run = match setting("RUNNER") {
        Some(runner) => {
            // An emulator may have no shared libraries for the program.
            compile.arg("-static");
            let mut run = Command::new(runner);
            run.arg(program);
            run
        }
        None => Command::new(program),
    };
    printed(&mut compile);
    assert_eq!(printed(&mut run), "every answer is right\n");
}
