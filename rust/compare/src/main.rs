//! Asks the proved library and the Rust the same questions.
//!
//! Prints how many cases of each function were compared, and the smallest input of each that
//! differs. Ends with 1 if any does, with 2 if there is no archive to ask, and with 0, saying
//! so, if there is no Rust to hold it against.

use std::process::ExitCode;

#[cfg(not(rhai_source))]
fn main() -> ExitCode {
    println!("compare: SKIPPED, nothing was compared: the Rust source folder is missing");
    println!("compare: set RHAI_SRC, or put it at shared/docs/src beside the repository");
    ExitCode::SUCCESS
}

#[cfg(all(rhai_source, not(stew_archive)))]
fn main() -> ExitCode {
    let missing = env!("STEW_MISSING");
    eprintln!("compare: archives are missing: {}", missing);
    eprintln!("compare: `tools/archive NAME` builds one, `tools/compare` all");
    ExitCode::from(2)
}

#[cfg(all(rhai_source, stew_archive))]
fn main() -> ExitCode {
    match compare::size::Size::asked(std::env::args().skip(1)) {
        Some(size) => {
            let report = compare::compare(size);
            print!("{}", report);
            report.exit_code()
        }
        None => {
            eprintln!("usage: compare [--all]");
            ExitCode::from(2)
        }
    }
}
