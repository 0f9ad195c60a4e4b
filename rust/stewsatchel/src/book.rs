//! Word books: the words that a house or an office reserves.

use crate::lent;
use std::error::Error;
use std::fmt;

const MOST_WORDS: usize = 512;
const LONGEST_WORD: usize = 10;

/// Bytes before the contents, and of a word's row in them.
const COUNT: usize = 2;
const ROW: usize = 4;

/// A word for a book. What its two flags mean is the book's owner's to say.
#[derive(Debug, Clone, Copy, PartialEq, Eq)]
pub struct Word<'w> {
    pub text: &'w str,
    pub a: bool,
    pub b: bool,
}

/// A word without flags.
impl<'w> From<&'w str> for Word<'w> {
    fn from(text: &'w str) -> Self {
        Self {
            text,
            a: false,
            b: false,
        }
    }
}

/// A good word book. A script is read with one: its words are listed as reserved.
///
/// The house's book and an office's are each a `Book`. The proved library can look a word up in two
/// books at once, but no C name leads there, so that this crate cannot.
#[derive(Debug, Clone, PartialEq, Eq)]
pub struct Book {
    bytes: Vec<u8>,
}

impl Book {
    /// The book without a word.
    pub fn empty() -> Self {
        Self {
            bytes: vec![0; COUNT],
        }
    }

    /// A book of words, which need not be in order.
    pub fn new<'w, W>(words: impl IntoIterator<Item = W>) -> Result<Self, BookError>
    where
        W: Into<Word<'w>>,
    {
        let mut words: Vec<(usize, Word)> = words.into_iter().map(W::into).enumerate().collect();
        if words.len() > MOST_WORDS {
            return Err(BookError::whole(BookFault::TooManyWords));
        }
        words.sort_by_key(|(_, word)| word.text);
        let mut before = None;
        for &(at, word) in &words {
            let text = word.text.as_bytes();
            if let Some(fault) = fault_of(text, before) {
                return Err(BookError::word(at, text, fault));
            }
            before = Some(text);
        }
        Self::from_bytes(laid_out(words.into_iter().map(|(_, word)| word)))
    }

    /// A book as it is shipped. The proved check decides whether it is good.
    pub fn from_bytes(bytes: impl Into<Vec<u8>>) -> Result<Self, BookError> {
        let bytes = bytes.into();
        match is_good(&bytes) {
            true => Ok(Self { bytes }),
            false => Err(held(&bytes)
                .err()
                .unwrap_or(BookError::whole(BookFault::Refused))),
        }
    }

    pub fn as_bytes(&self) -> &[u8] {
        &self.bytes
    }
}

/// A run over the empty script has nothing to refuse but its book.
fn is_good(bytes: &[u8]) -> bool {
    let run = lent::run(&[], bytes, 0, &mut [], &mut []);
    matches!(run.ending, lent::Ending::End(_))
}

/// The bytes of a book of words in rising order, at most 512 of at most 10 bytes.
fn laid_out<'w>(words: impl ExactSizeIterator<Item = Word<'w>>) -> Vec<u8> {
    let mut contents = (words.len() as u16).to_le_bytes().to_vec();
    let mut bodies = Vec::new();
    for Word { text, a, b } in words {
        contents.extend((bodies.len() as u16).to_le_bytes());
        contents.push(text.len() as u8);
        contents.push(u8::from(a) + 2 * u8::from(b));
        bodies.extend(text.as_bytes());
    }
    contents.append(&mut bodies);
    contents
}

/// What is wrong with a word behind another one.
fn fault_of(word: &[u8], before: Option<&[u8]>) -> Option<BookFault> {
    match before {
        _ if word.is_empty() => Some(BookFault::EmptyWord),
        _ if word.len() > LONGEST_WORD => Some(BookFault::LongWord),
        _ if !word.is_ascii() => Some(BookFault::NotAscii),
        Some(before) if before == word => Some(BookFault::Twice),
        Some(before) if before > word => Some(BookFault::Order),
        _ => None,
    }
}

/// What is wrong with a word's row: its flags, or its offset, which has to be this one.
fn fault_of_row(row: &[u8], offset: usize) -> Option<BookFault> {
    let told = u16::from_le_bytes([row[0], row[1]]);
    match row[3] {
        4.. => Some(BookFault::Flags),
        _ if usize::from(told) != offset => Some(BookFault::Offset),
        _ => None,
    }
}

/// Finds the first thing that is wrong with the bytes of a book.
fn held(bytes: &[u8]) -> Result<(), BookError> {
    let short = || BookError::whole(BookFault::Short);
    let count = match bytes {
        [low, high, ..] => usize::from(u16::from_le_bytes([*low, *high])),
        _ => return Err(short()),
    };
    if count > MOST_WORDS {
        return Err(BookError::whole(BookFault::TooManyWords));
    }
    let contents = COUNT..COUNT + ROW * count;
    let rows = bytes.get(contents.clone()).ok_or_else(short)?;
    let bodies = &bytes[contents.end..];
    let (mut offset, mut before) = (0, None);
    for (at, row) in rows.chunks_exact(ROW).enumerate() {
        let end = offset + usize::from(row[2]);
        let cut = || BookError::word(at, &bodies[offset..], BookFault::Short);
        let word = bodies.get(offset..end).ok_or_else(cut)?;
        if let Some(fault) = fault_of(word, before).or_else(|| fault_of_row(row, offset)) {
            return Err(BookError::word(at, word, fault));
        }
        (offset, before) = (end, Some(word));
    }
    match offset == bodies.len() {
        true => Ok(()),
        false => Err(BookError::whole(BookFault::Over)),
    }
}

/// Why a book is refused, and for which of its words. It is refusal 14.
#[derive(Debug, Clone, PartialEq, Eq)]
pub struct BookError {
    word: Option<(usize, String)>,
    fault: BookFault,
}

impl BookError {
    fn whole(fault: BookFault) -> Self {
        Self { word: None, fault }
    }

    fn word(at: usize, word: &[u8], fault: BookFault) -> Self {
        let word = Some((at, String::from_utf8_lossy(word).into_owned()));
        Self { word, fault }
    }

    /// The index and the text of the word that is refused, where it is one.
    pub fn refused_word(&self) -> Option<(usize, &str)> {
        self.word.as_ref().map(|(at, word)| (*at, &word[..]))
    }

    pub fn fault(&self) -> BookFault {
        self.fault
    }
}

impl fmt::Display for BookError {
    fn fmt(&self, f: &mut fmt::Formatter<'_>) -> fmt::Result {
        match self.refused_word() {
            Some((at, word)) => write!(f, "word {}, {:?}, {}", at + 1, word, self.fault),
            None => write!(f, "the word book {}", self.fault),
        }
    }
}

impl Error for BookError {}

/// What is wrong with a book or with one of its words.
#[derive(Debug, Clone, Copy, PartialEq, Eq)]
#[non_exhaustive]
pub enum BookFault {
    TooManyWords,
    EmptyWord,
    LongWord,
    NotAscii,
    Twice,
    /// In a book's bytes only: [`Book::new`] sets the words in order.
    Order,
    Flags,
    Offset,
    Short,
    Over,
    /// The proved check refuses it, and no reason of the above was found.
    Refused,
}

use BookFault::*;

/// What follows the word, or "the word book".
impl fmt::Display for BookFault {
    fn fmt(&self, f: &mut fmt::Formatter<'_>) -> fmt::Result {
        f.write_str(match self {
            TooManyWords => "has more than 512 words",
            EmptyWord => "has no byte",
            LongWord => "has more than 10 bytes",
            NotAscii => "is not ASCII",
            Twice => "stands there twice",
            Order => "stands before the word in front of it, by its bytes",
            Flags => "has other flags than a and b",
            Offset => "does not begin where the word in front of it ends",
            Short => "ends too early",
            Over => "has bytes behind its last word",
            Refused => "is refused",
        })
    }
}

#[cfg(test)]
mod tests {
    use super::*;

    /// Every change of one byte, every front, and bytes behind.
    #[test]
    fn a_reason_is_found_for_what_the_proved_check_refuses_and_for_nothing_else() {
        let good = Book::new(["goto", "import", "x"]).unwrap();
        let good = good.as_bytes();
        let mut refused = 0;
        let mut hold = |bytes: &[u8]| {
            assert_eq!(is_good(bytes), held(bytes).is_ok(), "{:?}", bytes);
            refused += usize::from(!is_good(bytes));
        };
        for at in 0..good.len() {
            hold(&good[..at]);
            for byte in 0..=255 {
                let mut changed = good.to_vec();
                changed[at] = byte;
                hold(&changed);
            }
        }
        hold(good);
        hold(&[good, b"y"].concat());
        assert!(refused > 1_000, "{}", refused);
    }
}
