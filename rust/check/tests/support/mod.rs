//! The program, run in a folder of its own.

use std::env;
use std::fs;
use std::io::Write;
use std::path::{Path, PathBuf};
use std::process::{Command, Stdio};

/// A folder for one test, empty at first.
pub struct Folder {
    path: PathBuf,
}

/// How the program ended.
#[derive(Debug, PartialEq, Eq)]
pub struct Ended {
    pub status: i32,
    pub out: String,
    pub err: String,
}

impl Folder {
    pub fn new(name: &str) -> Self {
        let path = Path::new(env!("CARGO_TARGET_TMPDIR")).join(name);
        if path.exists() {
            fs::remove_dir_all(&path).expect("an old folder goes away");
        }
        fs::create_dir_all(&path).expect("a folder is made");
        Self { path }
    }

    pub fn write(&self, name: &str, bytes: impl AsRef<[u8]>) {
        let file = self.path.join(name);
        let folder = file.parent().expect("a file is in a folder");
        fs::create_dir_all(folder).expect("a folder is made");
        fs::write(file, bytes).expect("a file is written");
    }

    pub fn check(&self, words: &[&str]) -> Ended {
        self.check_with(words, &[])
    }

    /// Runs the program on words and standard input.
    pub fn check_with(&self, words: &[&str], input: &[u8]) -> Ended {
        let mut child = program()
            .args(words)
            .current_dir(&self.path)
            .env_remove("COLUMNS")
            .stdin(Stdio::piped())
            .stdout(Stdio::piped())
            .stderr(Stdio::piped())
            .spawn()
            .expect("the program starts");
        let mut stdin = child.stdin.take().expect("its input is here");
        // A program that asks for no input may have ended.
        let _ = stdin.write_all(input);
        drop(stdin);
        let output = child.wait_with_output().expect("the program ends");
        let [out, err] = [output.stdout, output.stderr]
            .map(|bytes| String::from_utf8(bytes).expect("the program writes UTF-8"));
        Ended {
            status: output.status.code().expect("the program ends by itself"),
            out: without_time(&out),
            err: without_time(&err),
        }
    }

    /// What the program says of one script.
    pub fn report(&self, script: impl AsRef<[u8]>) -> String {
        self.write("a.rhai", script);
        self.check(&["a.rhai"]).out
    }
}

/// The program, under the emulator that cargo uses, if it uses one.
fn program() -> Command {
    let program = env!("CARGO_BIN_EXE_stewsatchel-check");
    match env::var_os("CARGO_TARGET_X86_64_UNKNOWN_LINUX_GNU_RUNNER") {
        Some(runner) => {
            let mut command = Command::new(runner);
            command.arg(program);
            command
        }
        None => Command::new(program),
    }
}

/// Without the seconds that end a summary.
fn without_time(text: &str) -> String {
    let lines = text.split_inclusive('\n').map(|line| {
        let is_summary = line.ends_with(" s\n") && line.contains(" bytes, ");
        let end = line.rfind(", ").unwrap_or(0);
        match is_summary {
            true => format!("{}\n", &line[..end]),
            false => line.into(),
        }
    });
    lines.collect()
}
