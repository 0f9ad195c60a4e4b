//! A place in a script.

use std::fmt;

/// A line and a column, counted in characters as the run counts them: both begin with 1, and both
/// stay at 65,535 once they are there.
///
/// Column 0 is before a line's first character. A script that ends with a new line ends there.
#[derive(Debug, Clone, Copy, PartialEq, Eq, PartialOrd, Ord, Hash)]
pub struct Place {
    pub line: u16,
    pub column: u16,
}

/// As the listing program writes it: `3:14`, or `3` for column 0.
impl fmt::Display for Place {
    fn fmt(&self, f: &mut fmt::Formatter<'_>) -> fmt::Result {
        match self.column {
            0 => write!(f, "{}", self.line),
            column => write!(f, "{}:{}", self.line, column),
        }
    }
}
