//! What a check met, all scripts together.

use crate::status::Status;
use std::fmt;
use std::time::Duration;

#[derive(Debug, Clone, Copy, PartialEq, Eq, Default)]
pub struct Sums {
    pub scripts: usize,
    /// Those before a stop too.
    pub tokens: usize,
    /// Scripts that stopped.
    pub faults: usize,
    pub bytes: usize,
    /// Paths that could not be read.
    pub unread: usize,
    pub time: Duration,
}

impl Sums {
    pub fn status(&self) -> Status {
        match (self.unread, self.faults) {
            (0, 0) => Status::Whole,
            (0, _) => Status::Stopped,
            _ => Status::Unread,
        }
    }
}

impl fmt::Display for Sums {
    fn fmt(&self, f: &mut fmt::Formatter<'_>) -> fmt::Result {
        write!(f, "{}, ", counted(self.scripts, "script"))?;
        write!(f, "{}, ", counted(self.tokens, "token"))?;
        write!(f, "{}, ", counted(self.faults, "fault"))?;
        write!(f, "{}, ", counted(self.bytes, "byte"))?;
        if self.unread > 0 {
            write!(f, "{} not read, ", grouped(self.unread))?;
        }
        write!(f, "{:.2} s", self.time.as_secs_f64())
    }
}

/// So many of a thing.
fn counted(count: usize, thing: &str) -> String {
    let plural = if count == 1 { "" } else { "s" };
    format!("{} {}{}", grouped(count), thing, plural)
}

/// A number with a comma before every three digits.
fn grouped(number: usize) -> String {
    let digits = number.to_string();
    let mut grouped = String::new();
    for (at, digit) in digits.chars().enumerate() {
        if at > 0 && (digits.len() - at) % 3 == 0 {
            grouped.push(',');
        }
        grouped.push(digit);
    }
    grouped
}

#[cfg(test)]
mod tests {
    use super::*;

    #[test]
    fn sums_are_said_in_words() {
        let sums = Sums {
            scripts: 1,
            tokens: 1_234_567,
            faults: 0,
            bytes: 100,
            unread: 2,
            time: Duration::from_millis(1_234),
        };
        let words = "1 script, 1,234,567 tokens, 0 faults, 100 bytes, 2 not read, 1.23 s";
        assert_eq!(sums.to_string(), words);
    }

    #[test]
    fn what_was_not_read_is_worse_than_a_fault() {
        let status = |faults, unread| {
            let sums = Sums {
                faults,
                unread,
                ..Sums::default()
            };
            sums.status()
        };
        assert_eq!(status(0, 0), Status::Whole);
        assert_eq!(status(1, 0), Status::Stopped);
        assert_eq!(status(1, 1), Status::Unread);
    }
}
