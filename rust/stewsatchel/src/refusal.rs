//! The refusals, by their numbers.

use std::error::Error;
use std::fmt;

/// Why something is refused. The numbers are those of the requirements.
///
/// `Script::read` and `raw_write` answer some of them only; the others belong to entries that have
/// no C name, or to memory that is lent.
#[derive(Debug, Clone, Copy, PartialEq, Eq, Hash)]
#[non_exhaustive]
pub enum Refusal {
    NotUtf8 = 1,
    TooLong,
    /// Never told by a run, which begins at the script's start.
    BadStart,
    UnterminatedString,
    UnexpectedInput,
    MalformedEscapeSequence,
    StringTooLong,
    MalformedIdentifier,
    /// Told on lent memory only.
    NoLiteralRoom,
    /// Told on lent memory only.
    NoTokenRoom,
    OpenAtEnd,
    NotOneCharacter,
    TooDeep,
    BadBook,
    /// Told by the sum of two places, which a run does not form.
    BadSum,
}

use Refusal::*;

impl Refusal {
    /// By their numbers, from 1 on.
    #[rustfmt::skip]
    pub const ALL: [Self; 15] = [
        NotUtf8, TooLong, BadStart, UnterminatedString, UnexpectedInput, MalformedEscapeSequence,
        StringTooLong, MalformedIdentifier, NoLiteralRoom, NoTokenRoom, OpenAtEnd, NotOneCharacter,
        TooDeep, BadBook, BadSum,
    ];

    pub fn number(self) -> u32 {
        self as u32
    }

    pub fn from_number(number: u32) -> Option<Self> {
        let at = number.checked_sub(1)?;
        Self::ALL.get(at as usize).copied()
    }
}

/// A sentence for people, without its full stop.
impl fmt::Display for Refusal {
    fn fmt(&self, f: &mut fmt::Formatter<'_>) -> fmt::Result {
        f.write_str(match self {
            NotUtf8 => "the text is not UTF-8",
            TooLong => "the text is longer than 16,777,216 bytes",
            BadStart => "a scan cannot start there",
            UnterminatedString => "the end of a literal is missing",
            UnexpectedInput => {
                "a character begins no token, or no quote follows the hashes of a raw literal"
            }
            MalformedEscapeSequence => "an escape sequence is malformed",
            StringTooLong => "a literal is longer than the limit",
            MalformedIdentifier => "a name has no letter behind its underscores",
            NoLiteralRoom => "the memory lent has no room for a literal",
            NoTokenRoom => "the memory lent has no room for a token",
            OpenAtEnd => {
                "a literal, a comment or an interpolation is still open at the end of the script"
            }
            NotOneCharacter => "a literal in single quotes is not one character",
            TooDeep => "interpolations stand more than 16 deep in each other",
            BadBook => "the word book is bad",
            BadSum => "a sum of two places is none",
        })
    }
}

impl Error for Refusal {}

#[cfg(test)]
mod tests {
    use super::*;

    #[test]
    fn a_number_names_its_refusal() {
        for (number, refusal) in (1..).zip(Refusal::ALL) {
            assert_eq!(refusal.number(), number);
            assert_eq!(Refusal::from_number(number), Some(refusal));
        }
        assert_eq!(Refusal::from_number(0), None);
        assert_eq!(Refusal::from_number(16), None);
    }

    #[test]
    fn every_refusal_has_a_sentence_of_its_own() {
        let sentences: Vec<String> = Refusal::ALL.iter().map(Refusal::to_string).collect();
        for (at, sentence) in sentences.iter().enumerate() {
            assert!(!sentence.is_empty() && !sentences[..at].contains(sentence));
        }
    }
}
