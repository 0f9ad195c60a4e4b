//! How far a check is, on a terminal, where it takes longer than a second.

use std::os::raw::c_int;
use std::time::{Duration, Instant};

extern "C" {
    fn isatty(descriptor: c_int) -> c_int;
}

/// Whether standard error is a terminal.
fn is_terminal() -> bool {
    // SAFETY: it is asked about a number, and has no memory to touch.
    unsafe { isatty(2) == 1 }
}

/// When a line is shown first, and how often then.
const FIRST: Duration = Duration::from_secs(1);
const AGAIN: Duration = Duration::from_millis(100);

pub struct Progress {
    is_terminal: bool,
    next: Instant,
    is_shown: bool,
}

impl Progress {
    pub fn start() -> Self {
        Self {
            is_terminal: is_terminal(),
            next: Instant::now() + FIRST,
            is_shown: false,
        }
    }

    /// Shows how many scripts are done, if it is time to.
    pub fn tell(&mut self, done: usize, all: usize) {
        if self.is_terminal && Instant::now() >= self.next {
            eprint!("\r{} of {} scripts\u{1b}[K", done, all);
            self.next = Instant::now() + AGAIN;
            self.is_shown = true;
        }
    }

    /// Makes room for what is written next.
    pub fn clear(&mut self) {
        if self.is_shown {
            eprint!("\r\u{1b}[K");
            self.is_shown = false;
        }
    }
}
