//! The tokens of a script, one after the other.

use crate::kind::Kind;
use crate::lent::{self, ENTRY};
use crate::place::Place;
use std::fmt;
use std::iter::FusedIterator;
use std::ops::Range;
use std::slice::ChunksExact;
use std::str;

/// A token of a script, borrowed from its list.
#[derive(Clone, PartialEq, Eq)]
#[non_exhaustive]
pub struct Token<'t> {
    pub kind: Kind,
    /// Where it begins. A piece of text behind an interpolation begins at the `}` before it.
    pub place: Place,
    /// A literal's body, without quotes and with its escapes read; any other token's own bytes.
    pub bytes: &'t [u8],
    /// Where the bytes stand in the script, but for a literal, whose body is made from it.
    pub part: Option<Range<usize>>,
}

impl<'t> Token<'t> {
    /// The bytes as text. They are UTF-8, since a script is: a run cuts no character.
    pub fn text(&self) -> &'t str {
        str::from_utf8(self.bytes).expect("a run's tokens are UTF-8")
    }
}

/// For people: `3:14 name depth`.
impl fmt::Debug for Token<'_> {
    fn fmt(&self, f: &mut fmt::Formatter<'_>) -> fmt::Result {
        write!(f, "{} {} {:?}", self.place, self.kind, self.text())
    }
}

/// What a run listed, and the script whose parts the tokens are.
#[derive(Clone)]
pub(crate) struct List<'a> {
    pub script: &'a [u8],
    pub literals: Vec<u8>,
    /// Whole entries only.
    pub entries: Vec<u8>,
}

impl List<'_> {
    pub fn len(&self) -> usize {
        self.entries.len() / ENTRY
    }

    pub fn iter(&self) -> Iter<'_> {
        Iter {
            script: self.script,
            literals: &self.literals,
            entries: self.entries.chunks_exact(ENTRY),
        }
    }
}

impl fmt::Debug for List<'_> {
    fn fmt(&self, f: &mut fmt::Formatter<'_>) -> fmt::Result {
        f.debug_list().entries(self.iter()).finish()
    }
}

/// An iterator over tokens, in the script's order.
#[derive(Clone)]
pub struct Iter<'t> {
    script: &'t [u8],
    literals: &'t [u8],
    entries: ChunksExact<'t, u8>,
}

impl<'t> Iter<'t> {
    fn token(&self, entry: &[u8]) -> Token<'t> {
        let lent::Token { kind, place, part } = lent::Token::of(entry);
        let (bytes, part) = match kind.is_literal() {
            true => (&self.literals[part], None),
            false => (&self.script[part.clone()], Some(part)),
        };
        Token {
            kind,
            place,
            bytes,
            part,
        }
    }
}

impl<'t> Iterator for Iter<'t> {
    type Item = Token<'t>;

    fn next(&mut self) -> Option<Self::Item> {
        let entry = self.entries.next()?;
        Some(self.token(entry))
    }

    fn size_hint(&self) -> (usize, Option<usize>) {
        self.entries.size_hint()
    }
}

impl DoubleEndedIterator for Iter<'_> {
    fn next_back(&mut self) -> Option<Self::Item> {
        let entry = self.entries.next_back()?;
        Some(self.token(entry))
    }
}

impl ExactSizeIterator for Iter<'_> {}

impl FusedIterator for Iter<'_> {}
