//! Where a scan starts, and what document 01 refuses of any start.

use crate::place::{Packed, Place};
use crate::random::Random;
use crate::report::Why;
use std::{fmt, str};

/// The longest text in the domain, in bytes.
pub const LONGEST: usize = 16_777_216;

pub fn longest_text() -> String {
    "a".repeat(LONGEST)
}

/// A refusal that the Rust does not have.
#[derive(Debug, Clone, Copy, PartialEq, Eq)]
pub struct Refusal {
    pub number: u64,
    pub why: Why,
}

impl Refusal {
    pub const fn new(number: u64, why: Why) -> Self {
        Self { number, why }
    }
}

/// The place given is on line 0.
pub const LINE_0: Refusal = Refusal::new(3, "line 0");

/// A text, an offset into it, and the place given.
#[derive(Clone, Copy)]
pub struct Start<'a> {
    pub text: &'a [u8],
    pub at: usize,
    pub place: Place,
}

/// Shown without the text, which stands beside it.
impl fmt::Debug for Start<'_> {
    fn fmt(&self, f: &mut fmt::Formatter<'_>) -> fmt::Result {
        write!(f, "from {} at {:?}", self.at, Packed::from(self.place))
    }
}

impl<'a> Start<'a> {
    /// The front of a text.
    pub fn front(text: &'a str, place: Place) -> Self {
        let text = text.as_bytes();
        Self { text, at: 0, place }
    }

    /// The text, if it is one.
    pub fn str(&self) -> Option<&'a str> {
        str::from_utf8(self.text).ok()
    }

    /// The refusal of the start, where it is refused: 2 before 1 before 3.
    pub fn refused(&self) -> Option<Refusal> {
        if self.text.len() > LONGEST {
            return Some(Refusal::new(2, "text too long"));
        }
        match self.str() {
            None => Some(Refusal::new(1, "not UTF-8")),
            Some(text) if !text.is_char_boundary(self.at) => {
                Some(Refusal::new(3, "offset that begins no character"))
            }
            Some(_) if self.place.0 == 0 => Some(LINE_0),
            Some(_) => None,
        }
    }
}

/// Short texts. The last six are no UTF-8: no first byte, no last byte, a byte too many for the
/// character, a surrogate, a number above 10FFFF, and a byte that is in no character.
pub const TEXTS: [&[u8]; 10] = [
    b"",
    b"a",
    b"\xc3\xa9",
    b"a\xc3\xa9a",
    b"a\x80",
    b"a\xc3",
    b"\xc0\x80",
    b"\xed\xa0\x80",
    b"\xf4\x90\x80\x80",
    b"\xff",
];

/// Visits starts that are refused for one reason, for several, or for none.
pub fn each_odd_start(visit: &mut dyn FnMut(Start)) {
    for text in TEXTS {
        each_start_in(text, visit);
    }
    for byte in [b' ', 0x80] {
        each_start_in(&vec![byte; LONGEST + 1], visit);
    }
}

fn each_start_in(text: &[u8], visit: &mut dyn FnMut(Start)) {
    for at in [0, 1, 2, 3, 4, usize::MAX] {
        for place in [(0, 0), (0, 1), (0, 65535), (1, 0), (1, 1), (65535, 65535)] {
            visit(Start { text, at, place });
        }
    }
}

/// Places in the middle, at either end of a line, and at either end of the lines.
pub const PLACES: [Place; 11] = [
    (1, 0),
    (1, 1),
    (1, 2),
    (1, 3),
    (1, 65534),
    (1, 65535),
    (65534, 1),
    (65534, 65534),
    (65535, 0),
    (65535, 1),
    (65535, 65535),
];

/// Visits texts of up to `longest` random pieces, whole or damaged, each from its front or from
/// anywhere in it. The generator goes along, for what else is asked.
pub fn each_random_start(
    pieces: &[&str],
    longest: usize,
    count: usize,
    visit: &mut dyn FnMut(&mut Random, Start),
) {
    let mut random = Random::new(pieces.len() as u64);
    for _ in 0..count {
        let mut text = random.text(pieces, longest).into_bytes();
        if random.below(8) == 0 {
            text = random.damaged(&text);
        }
        let start = Start {
            text: &text,
            at: random.below(2) * random.below(text.len() + 2),
            place: random.one_of(&PLACES),
        };
        visit(&mut random, start);
    }
}

#[cfg(test)]
mod tests {
    use super::*;

    fn refused(text: &[u8], at: usize, place: Place) -> Option<u64> {
        let refused = Start { text, at, place }.refused();
        refused.map(|refusal| refusal.number)
    }

    fn number(start: Start) -> usize {
        start.refused().map_or(0, |refusal| refusal.number as usize)
    }

    #[test]
    fn starts_in_the_domain_are_not_refused() {
        assert_eq!(refused(b"", 0, (1, 0)), None);
        assert_eq!(refused("é".as_bytes(), 2, (65535, 65535)), None);
    }

    #[test]
    fn refusals_come_in_their_order() {
        let long = vec![0x80; LONGEST + 1];
        assert_eq!(refused(&long, usize::MAX, (0, 0)), Some(2));
        assert_eq!(refused(&long[1..], usize::MAX, (0, 0)), Some(1));
        assert_eq!(refused("é".as_bytes(), 1, (1, 1)), Some(3));
        assert_eq!(refused(b"", 1, (1, 1)), Some(3));
        assert_eq!(refused(b"", 0, (0, 1)), Some(3));
    }

    #[test]
    fn odd_starts_are_refused_for_every_reason() {
        let mut seen = [0; 4];
        each_odd_start(&mut |start| seen[number(start)] += 1);
        assert!(seen.iter().all(|&count| count > 10), "{:?}", seen);
    }

    #[test]
    fn random_starts_are_good_and_bad() {
        let mut seen = [0; 4];
        each_random_start(&["a", "é"], 9, 1000, &mut |_, start| {
            seen[number(start)] += 1;
        });
        assert!(seen[0] > 500 && seen[1] > 10 && seen[3] > 10, "{:?}", seen);
    }
}
