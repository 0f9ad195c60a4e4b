//! How the program ends.

use std::process::ExitCode;

/// The worst that was met.
#[derive(Debug, Clone, Copy, PartialEq, Eq, PartialOrd, Ord)]
pub enum Status {
    Whole,
    /// A script stopped, or a remark was refused.
    Stopped,
    /// Something could not be read, or was asked for wrongly.
    Unread,
}

impl From<Status> for ExitCode {
    fn from(status: Status) -> Self {
        Self::from(status as u8)
    }
}
