//! Load and damage.
//!
//!     damage [--all | --quick | --largest | --case SEED]
//!
//! Prints what was done, how often each number was answered, and the faults. Ends with 1 if there
//! is one.

use std::process::ExitCode;

fn main() -> ExitCode {
    /// How many scripts are damaged: all, and a share.
    const ALL: u64 = 1_000_000;
    const SHARE: u64 = 20_000;

    let words: Vec<String> = std::env::args().skip(1).collect();
    let words: Vec<&str> = words.iter().map(String::as_str).collect();
    let seed = words.last().and_then(|word| word.parse().ok());
    let mut report = damage::report::Report::default();
    match (&words[..], seed) {
        ([] | ["--quick"], _) => damage::damaged(1..=SHARE, &mut report),
        (["--all"], _) => {
            damage::damaged(1..=ALL, &mut report);
            damage::largest(&mut report);
        }
        (["--largest"], _) => damage::largest(&mut report),
        (["--case", _], Some(seed)) => damage::damaged(seed..=seed, &mut report),
        _ => {
            eprintln!("usage: damage [--all | --quick | --largest | --case SEED]");
            return ExitCode::from(2);
        }
    }
    print!("{}", report);
    report.exit_code()
}
