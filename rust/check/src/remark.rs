//! A remark as a raw literal.

use crate::status::Status;
use std::io::{self, Read, Write};
use stewsatchel::{raw_write, LONGEST};

/// Writes the raw literal of what is read, without the line feed that ends it.
pub fn wrap(input: impl Read, out: &mut dyn Write) -> io::Result<Status> {
    let mut remark = Vec::new();
    // Two bytes more tell a remark that is too long, with its line feed.
    input.take(LONGEST as u64 + 2).read_to_end(&mut remark)?;
    let remark = remark.strip_suffix(b"\n").unwrap_or(&remark);
    match raw_write(remark) {
        Ok(literal) => {
            writeln!(out, "{}", literal)?;
            Ok(Status::Whole)
        }
        Err(refusal) => {
            eprintln!("standard input: stop {}: {}", refusal.number(), refusal);
            Ok(Status::Stopped)
        }
    }
}
