//! What the source reads of a literal, and what that tells about rooms, which it does not have.
//!
//! Document 01 asks for 9 as soon as the bytes of one step pass the room: before the 7 of that
//! step, and before any fault that stands later. The source's own answers tell where that is.
//!
//! - A literal that it accepts with no limit, with a body of n bytes, passes the rooms below n.
//! - A literal that it refuses (4, 5, 6) passes a room exactly where it answers 7 under a limit of
//!   as many bytes. It tests the limit behind every step, a string's with the next character
//!   taken. Two texts have to be changed for that. Where the end comes next and is 4, nothing is
//!   tested: one more terminator behind the text is a next character. And a limit of 0 is none:
//!   one more plain character in front makes it 1.
//! - Where the limit is below the room, and both are passed, the 7 comes first, unless one step
//!   passes both: then the source gives the 7 of either limit at the same offset.

use crate::{raw, string, Accepted, LexError, Place, Refused};
use std::fmt;

pub type Read = Result<Accepted, Refused>;

/// A scanner of literals, with what it is given beside a start and a limit.
#[derive(Clone, Copy, PartialEq, Eq)]
pub enum Scanner {
    /// Entered after the first `#`.
    Raw,
    /// Resumed with a hash count.
    Resumed(usize),
    /// With a terminator, which need not be a character.
    String(u32),
}

impl Scanner {
    /// `None` where the source panics, or cannot be asked.
    fn read(self, text: &str, at: usize, place: Place, limit: usize) -> Option<Read> {
        match self {
            Self::Raw => raw::parse_raw_string_literal(text, at, place, 0, limit),
            Self::Resumed(hashes) => raw::parse_raw_string_literal(text, at, place, hashes, limit),
            Self::String(terminator) => {
                let terminator = char::from_u32(terminator)?;
                string::parse_string_literal(text, at, place, terminator, limit)
            }
        }
    }
}

impl fmt::Debug for Scanner {
    fn fmt(&self, f: &mut fmt::Formatter<'_>) -> fmt::Result {
        match *self {
            Self::Raw => f.write_str("raw"),
            Self::Resumed(hashes) => write!(f, "raw, {} hashes", hashes),
            Self::String(terminator) => match char::from_u32(terminator) {
                Some(terminator) => write!(f, "{:?}", terminator),
                None => write!(f, "{:x}", terminator),
            },
        }
    }
}

/// A literal that the source has read with no limit.
#[derive(Debug)]
pub struct Reading<'a> {
    scanner: Scanner,
    text: &'a str,
    at: usize,
    pub place: Place,
    pub whole: Read,
    /// How many bytes the body has, or had where the fault came.
    added: usize,
}

impl<'a> Reading<'a> {
    /// The literal from an offset on; `place` is that of the character taken last. `None` where the
    /// source has no answer.
    pub fn new(scanner: Scanner, text: &'a str, at: usize, place: Place) -> Option<Self> {
        let whole = scanner.read(text, at, place, 0)?;
        let added = match &whole {
            Ok(accepted) => accepted.body.len(),
            Err(_) => Probe::new(scanner, &text[at..], place, &whole).added(),
        };
        Some(Self {
            scanner,
            text,
            at,
            place,
            whole,
            added,
        })
    }

    /// The body, empty where the literal was refused.
    pub fn body(&self) -> &str {
        self.whole.as_ref().map_or("", |accepted| &accepted.body)
    }

    pub fn limited(&self, limit: usize) -> Option<Read> {
        self.scanner.read(self.text, self.at, self.place, limit)
    }

    /// Whether the limit refuses the literal before any fault of its own. Rooms are not asked.
    pub fn is_long(&self, limit: usize) -> bool {
        limit > 0 && self.limited(limit).and_then(too_long).is_some()
    }

    /// Whether the room refuses the literal before the limit does, and before any other fault.
    pub fn is_full(&self, limit: usize, room: usize) -> bool {
        self.added > room && (limit == 0 || room <= limit || self.one_step_passes(limit, room))
    }

    fn one_step_passes(&self, limit: usize, room: usize) -> bool {
        let probe = self.probe();
        probe.passed_at(limit) == probe.passed_at(room)
    }

    fn probe(&self) -> Probe {
        Probe::new(self.scanner, &self.text[self.at..], self.place, &self.whole)
    }
}

/// The 7, where a literal was refused for its limit.
fn too_long(read: Read) -> Option<Refused> {
    let refused = read.err()?;
    matches!(refused.fault, LexError::StringTooLong(_)).then_some(refused)
}

/// A literal with the same body, but for some bytes in front, in which the source tests the limit
/// behind every step.
struct Probe {
    scanner: Scanner,
    text: String,
    place: Place,
    front: usize,
}

impl Probe {
    fn new(scanner: Scanner, text: &str, place: Place, whole: &Read) -> Self {
        let is_open = match whole {
            Ok(accepted) => accepted.record.is_some(),
            Err(refused) => refused.fault == LexError::UnterminatedString,
        };
        let (front, closing) = match scanner {
            Scanner::String(terminator) => ("a", char::from_u32(terminator).filter(|_| is_open)),
            // It tests the limit at the end of a step, and is refused only before the first.
            Scanner::Raw | Scanner::Resumed(_) => ("", None),
        };
        let text = front.chars().chain(text.chars()).chain(closing).collect();
        Self {
            scanner,
            text,
            place,
            front: front.len(),
        }
    }

    /// The offset at which the source finds that the body has more bytes than these.
    fn passed_at(&self, bytes: usize) -> Option<usize> {
        let limit = self.front + bytes;
        let read = self.scanner.read(&self.text, 0, self.place, limit)?;
        Some(too_long(read)?.offset)
    }

    /// The least number of bytes that is not passed. No body has more bytes than its text.
    fn added(&self) -> usize {
        let (mut least, mut most) = (0, self.text.len());
        while least < most {
            let middle = (least + most) / 2;
            match self.passed_at(middle) {
                Some(_) => least = middle + 1,
                None => most = middle,
            }
        }
        least
    }
}

#[cfg(test)]
mod tests {
    use super::*;

    const QUOTE: Scanner = Scanner::String(0x22);
    const APOSTROPHE: Scanner = Scanner::String(0x27);
    const BACKTICK: Scanner = Scanner::String(0x60);

    fn reading(scanner: Scanner, text: &str) -> Reading<'_> {
        Reading::new(scanner, text, 0, (1, 1)).expect("no panic")
    }

    fn added(scanner: Scanner, text: &str) -> usize {
        reading(scanner, text).added
    }

    #[test]
    fn bodies_of_refused_literals() {
        // 4 at the end, where nothing is tested any more.
        assert_eq!(added(QUOTE, ""), 0);
        assert_eq!(added(QUOTE, "aé"), 3);
        assert_eq!(added(QUOTE, "a\"\""), 2);
        assert_eq!(added(QUOTE, "a\\\n"), 1);
        assert_eq!(added(APOSTROPHE, "ab\\"), 2);
        // 4 at a line feed, and 6.
        assert_eq!(added(QUOTE, "ab\nc"), 2);
        assert_eq!(added(QUOTE, "ab\\q\""), 2);
        assert_eq!(added(QUOTE, "\\x4"), 0);
        // A raw literal without its quote.
        assert_eq!(added(Scanner::Raw, "#a"), 0);
    }

    /// Every text of so many characters over the alphabet.
    fn texts(alphabet: &[char], length: usize) -> Vec<String> {
        let mut texts = vec![String::new()];
        for _ in 0..length {
            let longer = |text: &String| -> Vec<_> {
                let last = alphabet.iter();
                last.map(|last| format!("{}{}", text, last)).collect()
            };
            texts = texts.iter().flat_map(longer).collect();
        }
        texts
    }

    #[test]
    fn a_probe_finds_the_body_of_an_accepted_string() {
        let alphabet = ['"', '\'', '`', '$', '{', '\\', '\n', '\r', 'n', 'é'];
        for text in (0..=4).flat_map(|length| texts(&alphabet, length)) {
            for scanner in [QUOTE, APOSTROPHE, BACKTICK] {
                let reading = reading(scanner, &text);
                if let Ok(accepted) = &reading.whole {
                    let found = reading.probe().added();
                    assert_eq!(found, accepted.body.len(), "{:?} {:?}", scanner, text);
                }
            }
        }
    }

    #[test]
    fn the_room_comes_first_where_one_step_passes_both() {
        // The pending quote and the `é` are one step of three bytes.
        let raw = reading(Scanner::Resumed(1), "a\"éa");
        assert!(raw.is_full(1, 2) && raw.is_full(1, 3));
        assert!(!raw.is_full(1, 4) && raw.is_full(4, 4));
        assert!(!raw.is_full(0, 5));

        let text = reading(BACKTICK, "aéb");
        assert!(text.is_full(1, 2) && !text.is_full(1, 3));
    }

    #[test]
    fn the_end_is_another_step_than_the_last_character() {
        for place in [(1, 1), (1, 65535)] {
            let reading = Reading::new(BACKTICK, "ab", 0, place).expect("no panic");
            assert!(reading.is_full(1, 1) && !reading.is_full(1, 2));
            let reading = Reading::new(BACKTICK, "abc", 0, place).expect("no panic");
            assert!(!reading.is_full(1, 2) && reading.is_full(2, 2));
        }
    }
}
