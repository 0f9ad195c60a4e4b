//! Times the proved library and the Rust that it was carried from, in one process and in turn.
//!
//! What both sides answer is compared before anything is timed. Prints tables, and last the worst
//! ratios. Ends with 1 if an answer differs, with 2 if there is no archive to time, and with 0,
//! saying so, if there is no Rust to time it against.

#[cfg(all(rhai_source, stew_archive))]
mod asked;
#[cfg(all(rhai_source, stew_archive))]
mod held;
#[cfg(all(rhai_source, stew_archive))]
mod hostile;
#[cfg(all(rhai_source, stew_archive))]
mod lookups;
#[cfg(all(rhai_source, stew_archive))]
mod plain;
#[cfg(all(rhai_source, stew_archive))]
mod report;
#[cfg(all(rhai_source, stew_archive))]
mod run;
#[cfg(all(rhai_source, stew_archive))]
mod scanners;
#[cfg(all(rhai_source, stew_archive))]
mod scripts;
#[cfg(all(rhai_source, stew_archive))]
mod tables;
#[cfg(all(rhai_source, stew_archive))]
mod timing;
#[cfg(all(rhai_source, stew_archive))]
mod utf8;
#[cfg(all(rhai_source, stew_archive))]
mod writer;

use std::process::ExitCode;

#[cfg(not(rhai_source))]
fn main() -> ExitCode {
    println!("bench: SKIPPED, nothing was timed: the Rust source folder is missing");
    println!("bench: set RHAI_SRC, or put it at shared/docs/src beside the repository");
    ExitCode::SUCCESS
}

#[cfg(all(rhai_source, not(stew_archive)))]
fn main() -> ExitCode {
    let missing = env!("STEW_MISSING");
    eprintln!("bench: archives are missing: {}", missing);
    eprintln!("bench: `tools/archive NAME` builds one, `tools/bench` all");
    ExitCode::from(2)
}

#[cfg(all(rhai_source, stew_archive))]
fn main() -> ExitCode {
    let asked = match asked::Asked::of(std::env::args().skip(1)) {
        Some(asked) => asked,
        None => {
            eprintln!("usage: bench [--quick] [WORD]");
            return ExitCode::from(2);
        }
    };
    match timed(&asked) {
        Ok(()) => ExitCode::SUCCESS,
        Err(why) => {
            println!("bench: DIFFERS, {}", why);
            ExitCode::FAILURE
        }
    }
}

/// Prints every table that is asked for, or the input on which an answer differs.
#[cfg(all(rhai_source, stew_archive))]
fn timed(asked: &asked::Asked) -> Result<(), String> {
    use report::Worst;
    let mut kinds = [
        Worst::new("Worst of ours : source, of the kinds of script"),
        Worst::new("The same, the source's comments skipped"),
    ];
    let mut hostile = [
        Worst::new("Worst of ours : source, of the hostile scripts"),
        Worst::new("The same, the source's comments skipped"),
    ];
    let mut scanners = Worst::new("Worst of ours : source, of the scanners");

    tables::kinds(asked, &mut kinds)?;
    tables::hostile(asked, &mut hostile)?;
    scanners::literals(asked, &mut scanners)?;
    scanners::identifiers(asked, &mut scanners)?;
    print!("{}", utf8::table(asked)?);
    print!("{}", lookups::table(asked)?);
    print!("{}", writer::table(asked)?);

    for worst in kinds.iter().chain(&hostile).chain([&scanners]) {
        print!("{}", worst);
    }
    Ok(())
}
