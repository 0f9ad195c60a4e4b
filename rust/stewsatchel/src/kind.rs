//! The kinds of token.

use std::fmt;

/// What a token is.
#[derive(Debug, Clone, Copy, PartialEq, Eq, Hash)]
#[non_exhaustive]
pub enum Kind {
    Name = 1,
    Keyword,
    Symbol,
    Number,
    String,
    /// A piece of text that `${` ends.
    Interpolated,
    /// A piece of text that its backtick ends.
    Text,
    Raw,
    Char,
    Comment,
    /// A word of the book.
    Reserved,
}

use Kind::*;

impl Kind {
    /// By their numbers, from 1 on.
    #[rustfmt::skip]
    const ALL: [Self; 11] = [
        Name, Keyword, Symbol, Number, String, Interpolated, Text, Raw, Char, Comment, Reserved,
    ];

    /// The kind's number in an entry.
    pub fn number(self) -> u32 {
        self as u32
    }

    pub fn from_number(number: u32) -> Option<Self> {
        let at = number.checked_sub(1)?;
        Self::ALL.get(at as usize).copied()
    }

    /// Whether a token of this kind has its bytes among the run's literals, and not in the script.
    pub fn is_literal(self) -> bool {
        matches!(self, String | Interpolated | Text | Raw | Char)
    }
}

/// As the listing program names it.
impl fmt::Display for Kind {
    fn fmt(&self, f: &mut fmt::Formatter<'_>) -> fmt::Result {
        f.write_str(match self {
            Name => "name",
            Keyword => "keyword",
            Symbol => "symbol",
            Number => "number",
            String => "string",
            Interpolated => "interpolated",
            Text => "text",
            Raw => "raw",
            Char => "char",
            Comment => "comment",
            Reserved => "reserved",
        })
    }
}

#[cfg(test)]
mod tests {
    use super::*;

    #[test]
    fn a_number_names_its_kind() {
        for (number, kind) in (1..).zip(Kind::ALL) {
            assert_eq!(kind.number(), number);
            assert_eq!(Kind::from_number(number), Some(kind));
        }
        assert_eq!(Kind::from_number(0), None);
        assert_eq!(Kind::from_number(12), None);
    }
}
