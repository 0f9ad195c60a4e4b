//! What a comparison is made of: inputs, the proved library's names, the Rust's answers to hold
//! theirs to, and the report.

pub mod book;
#[cfg(all(rhai_source, stew_archive))]
pub mod c;
#[cfg(all(rhai_source, stew_archive))]
pub mod comment;
#[cfg(all(rhai_source, stew_archive))]
pub mod ends;
#[cfg(all(rhai_source, stew_archive))]
pub mod identifier;
pub mod lent;
#[cfg(all(rhai_source, stew_archive))]
pub mod literal;
pub mod place;
#[cfg(all(rhai_source, stew_archive))]
pub mod position;
pub mod random;
#[cfg(all(rhai_source, stew_archive))]
pub mod raw;
pub mod report;
#[cfg(all(rhai_source, stew_archive))]
pub mod run;
#[cfg(all(rhai_source, stew_archive))]
pub mod runs;
pub mod scripts;
pub mod size;
pub mod start;
#[cfg(all(rhai_source, stew_archive))]
pub mod string;
pub mod texts;
#[cfg(all(rhai_source, stew_archive))]
pub mod token;
#[cfg(all(rhai_source, stew_archive))]
pub mod writer;

/// Compares every function.
#[cfg(all(rhai_source, stew_archive))]
pub fn compare(size: size::Size) -> report::Report {
    let mut report = report::Report::default();
    for subject in [
        position::run,
        token::run,
        ends::run,
        identifier::run,
        comment::run,
        raw::run,
        string::run,
        writer::run,
        run::run,
    ] {
        subject(&mut report, size);
    }
    report
}
