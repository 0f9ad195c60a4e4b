//! Memory lent for answers. All of it is looked at afterwards.

use crate::report::{Case, Report};
use std::fmt::{self, Debug};

/// What lent bytes hold before a call. It is a byte of no text.
const AS_LENT: u8 = 0xff;

/// How many bytes are kept behind those that are lent, to see that they are not written.
const BEHIND: usize = 8;

/// Bytes to lend, and more behind them.
#[derive(Default)]
pub struct Lent {
    bytes: Vec<u8>,
}

impl Lent {
    /// As many bytes as there is room for, each as before any call.
    pub fn lend(&mut self, room: usize) -> &mut [u8] {
        self.bytes.clear();
        self.bytes.resize(room + BEHIND, AS_LENT);
        &mut self.bytes[..room]
    }

    /// Lends the bytes, and puts a text at their front.
    pub fn hold(&mut self, room: usize, front: &[u8]) {
        self.lend(room)[..front.len()].copy_from_slice(front);
    }

    /// Those lent and those behind them.
    pub fn whole(&self) -> Bytes<'_> {
        Bytes(&self.bytes)
    }

    /// The same, shown as numbers.
    pub fn numbers(&self) -> Numbers<'_> {
        Numbers(&self.bytes)
    }

    pub fn is_as_lent(&self) -> bool {
        self.bytes.iter().all(|&byte| byte == AS_LENT)
    }
}

/// Bytes that are shown as text.
#[derive(Clone, Copy, PartialEq, Eq)]
pub struct Bytes<'a>(&'a [u8]);

impl fmt::Debug for Bytes<'_> {
    fn fmt(&self, f: &mut fmt::Formatter<'_>) -> fmt::Result {
        write!(f, "b\"{}\"", self.0.escape_ascii())
    }
}

/// Bytes that are shown as numbers, little endian, four bytes each.
#[derive(Clone, Copy, PartialEq, Eq)]
pub struct Numbers<'a>(&'a [u8]);

impl fmt::Debug for Numbers<'_> {
    fn fmt(&self, f: &mut fmt::Formatter<'_>) -> fmt::Result {
        f.debug_list()
            .entries(self.0.chunks(4).map(number))
            .finish()
    }
}

/// How a text was written: its length or the refusal, and the whole memory then.
#[derive(Debug, PartialEq, Eq)]
struct Written {
    length: Result<u64, u64>,
    whole: Vec<u8>,
}

impl Written {
    /// What a writer makes of a room.
    fn by(room: usize, write: impl FnOnce(&mut [u8]) -> Result<u64, u64>) -> Self {
        let mut lent = Lent::default();
        let length = write(lent.lend(room));
        let whole = lent.bytes;
        Self { length, whole }
    }

    /// A text that the room has to take or to refuse.
    fn right(text: &str, room: usize) -> Self {
        let fits = text.len() <= room;
        let (length, front) = if fits {
            (Ok(text.len() as u64), text)
        } else {
            (Err(9), "")
        };
        let mut lent = Lent::default();
        lent.hold(room, front.as_bytes());
        let whole = lent.bytes;
        Self { length, whole }
    }
}

/// Compares a writer in rooms that its text does not fit, just fits, and fits easily.
///
/// The Rust has no rooms: document 01 asks for 9 where the text passes one. Where the Rust panics,
/// it asks for the empty text.
pub fn compare_written(
    report: &mut Report,
    name: &'static str,
    given: impl Debug + Copy,
    rust: Option<&str>,
    write: impl Fn(&mut [u8]) -> Result<u64, u64>,
) {
    let text = rust.unwrap_or("");
    for room in 0..=text.len() + 2 {
        let right = Written::right(text, room);
        let why = match rust {
            None => Some("token without a text"),
            Some(_) => right.length.err().map(|_| "no room"),
        };
        let (rust, explained) = match why {
            None => (Some(right), None),
            Some(why) => (None, Some((why, right))),
        };
        report.compare(Case {
            name,
            text: b"",
            given: (given, room),
            rust,
            explained,
            ours: Written::by(room, &write),
        });
    }
}

/// An answer that crosses as a row of numbers, little endian, 8 bytes each.
#[derive(Debug, Clone, Copy, PartialEq, Eq)]
pub struct Told<T> {
    returned: u32,
    row: T,
    rest_as_lent: bool,
}

/// Bytes for the longest row, and some more.
const ROW: usize = 96;

impl<T> Told<T> {
    /// What a function returned and wrote, lent a little more than its row.
    pub fn by<const N: usize>(ask: impl FnOnce(&mut [u8]) -> u32) -> Self
    where
        T: From<[u64; N]>,
    {
        let mut answer = [AS_LENT; ROW];
        let returned = ask(&mut answer[..8 * N + 3]);
        let (front, rest) = answer.split_at(8 * N);
        let mut numbers = front.chunks_exact(8);
        let row = [(); N].map(|()| number(numbers.next().unwrap_or_default()));
        Self {
            returned,
            row: row.into(),
            rest_as_lent: rest.iter().all(|&byte| byte == AS_LENT),
        }
    }

    /// What it has to return and write: the row's first number is returned too.
    pub fn right(number: u64, row: T) -> Self {
        Self {
            returned: number as u32,
            row,
            rest_as_lent: true,
        }
    }
}

/// The row of a function that returns 0 for it. Where it returns another number, or writes behind
/// its row, every number is one that stands for nothing.
pub fn row<T, const N: usize>(ask: impl FnOnce(&mut [u8]) -> u32) -> T
where
    T: From<[u64; N]>,
{
    let told = Told::<[u64; N]>::by(ask);
    let is_right = told == Told::right(0, told.row);
    T::from(if is_right { told.row } else { [u64::MAX; N] })
}

/// Compares what a function does where its answer is too short for its row of `numbers`: it
/// returns the number that applies, and writes nothing. The Rust has no such answers.
///
/// What is asked tells what was returned, and whether all else that was lent is as it was.
pub fn compare_short_answers(
    report: &mut Report,
    name: &'static str,
    numbers: usize,
    applies: u32,
    mut ask: impl FnMut(&mut [u8]) -> (u32, bool),
) {
    let mut answer = Lent::default();
    for length in 0..8 * numbers {
        let (returned, rest_as_lent) = ask(answer.lend(length));
        report.compare(Case {
            name,
            text: b"",
            given: ("length of the answer", length),
            rust: None,
            explained: Some(("answer too short", (applies, true, true))),
            ours: (returned, rest_as_lent, answer.is_as_lent()),
        });
    }
}

fn number(bytes: &[u8]) -> u64 {
    let places = bytes.iter().rev();
    places.fold(0, |number, &byte| number << 8 | u64::from(byte))
}

#[cfg(test)]
mod tests {
    use super::*;

    #[test]
    fn lent_bytes_are_as_before_any_call() {
        let mut lent = Lent::default();
        lent.lend(2).fill(1);
        assert_eq!(lent.lend(3), [AS_LENT; 3]);
        lent.hold(3, b"ab");
        assert_eq!(lent.whole().0[..4], [b'a', b'b', AS_LENT, AS_LENT]);
        assert_eq!(lent.whole().0.len(), 3 + BEHIND);
    }

    /// A writer of `ab` that needs more room than it should, by a number of bytes.
    fn write(out: &mut [u8], more: usize) -> Result<u64, u64> {
        if out.len() < 2 + more {
            return Err(9);
        }
        out[..2].copy_from_slice(b"ab");
        Ok(2)
    }

    #[test]
    fn texts_fit_or_are_refused() {
        let mut report = Report::default();
        compare_written(&mut report, "f", (), Some("ab"), |out| write(out, 0));
        let counts = (report.cases(), report.explained(), report.differences());
        assert_eq!(counts, (5, 2, 0));
        compare_written(&mut report, "f", (), Some("ab"), |out| write(out, 1));
        assert_eq!(report.differences(), 1);
        compare_written(&mut report, "f", (), Some("abc"), |out| write(out, 1));
        assert_eq!(report.differences(), 4);
    }

    #[test]
    fn the_empty_text_stands_for_a_panic() {
        let mut report = Report::default();
        compare_written(&mut report, "f", (), None, |_| Ok(0));
        let counts = (report.cases(), report.explained(), report.differences());
        assert_eq!(counts, (3, 3, 0));
    }

    #[test]
    fn rows_are_little_endian() {
        let told = Told::<[u64; 2]>::by(|answer| {
            answer[..16].fill(0);
            answer[0] = 9;
            answer[9] = 1;
            9
        });
        assert_eq!(told, Told::right(9, [9, 256]));

        let passed = Told::<[u64; 1]>::by(|answer| {
            answer.fill(0);
            0
        });
        assert_ne!(passed, Told::right(0, [0]));
    }

    #[test]
    fn a_row_is_told_with_0_and_within_its_bytes() {
        let filled = |length: usize, returned| -> [u64; 1] {
            row(|answer| {
                answer[..length].fill(0);
                returned
            })
        };
        assert_eq!(filled(8, 0), [0]);
        assert_eq!(filled(8, 9), [u64::MAX]);
        assert_eq!(filled(9, 0), [u64::MAX]);
    }

    #[test]
    fn short_answers_are_left_alone() {
        let mut report = Report::default();
        compare_short_answers(&mut report, "f", 1, 9, |_| (9, true));
        assert_eq!((report.cases(), report.differences()), (8, 0));
        compare_short_answers(&mut report, "f", 1, 9, |answer| {
            answer.fill(0);
            (9, true)
        });
        assert_eq!(report.differences(), 7);
    }
}
