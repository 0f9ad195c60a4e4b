//! Word books, which stand in for the source's `RESERVED_LIST`.

use std::collections::BTreeMap;
use std::fmt;

/// The bytes of a book, and the words that it has.
pub struct Book {
    pub bytes: Vec<u8>,
    words: Option<BTreeMap<&'static str, u8>>,
}

impl Book {
    /// The book of some words with their flags, in which 1 is a and 2 is b.
    pub fn of(words: impl IntoIterator<Item = (&'static str, u8)>) -> Self {
        let words: BTreeMap<_, _> = words.into_iter().collect();
        let mut bytes = (words.len() as u16).to_le_bytes().to_vec();
        let mut offset = 0;
        for (word, &flags) in &words {
            bytes.extend((offset as u16).to_le_bytes());
            bytes.extend([word.len() as u8, flags]);
            offset += word.len();
        }
        bytes.extend(words.keys().flat_map(|word| word.bytes()));
        Self {
            bytes,
            words: Some(words),
        }
    }

    /// Bytes that are no book.
    pub fn bad(bytes: &[u8]) -> Self {
        Self {
            bytes: bytes.to_vec(),
            words: None,
        }
    }

    pub fn is_bad(&self) -> bool {
        self.words.is_none()
    }

    pub fn has(&self, word: &str) -> bool {
        self.words.iter().any(|words| words.contains_key(word))
    }
}

/// Shown by its words, or by the bytes of a bad one.
impl fmt::Debug for Book {
    fn fmt(&self, f: &mut fmt::Formatter<'_>) -> fmt::Result {
        match &self.words {
            Some(words) => write!(f, "book of {} words", words.len()),
            None => write!(f, "bad book b\"{}\"", self.bytes.escape_ascii()),
        }
    }
}

/// One book for each way to be bad: too few bytes, a byte over, an offset that is big endian, a gap
/// or an overlap, a length of 0 or 11, flags above 3, a byte that is not ASCII, words that are
/// equal or fall, and 513 words.
pub fn bad_books() -> Vec<Book> {
    let few: [&[u8]; 13] = [
        b"",
        b"\0",
        b"\x01\0",
        b"\0\0\0",
        b"\x01\0\0\0\x01\0ab",
        b"\x02\0\0\0\x01\0\0\x01\x01\0ab",
        b"\x01\0\x01\0\x01\0\0a",
        b"\x02\0\0\0\x02\0\x01\0\x01\0ab",
        b"\x01\0\0\0\0\0",
        b"\x01\0\0\0\x0b\0aaaaaaaaaaa",
        b"\x01\0\0\0\x01\x04a",
        b"\x01\0\0\0\x01\0\x80",
        b"\x02\0\0\0\x01\0\x01\0\x01\0aa",
    ];
    let falling: &[u8] = b"\x02\0\0\0\x01\0\x01\0\x01\0ba";
    let many = many_words(513);
    let books = few.into_iter().chain([falling, &many]);
    books.map(Book::bad).collect()
}

/// A book of so many words, all of them of four letters.
fn many_words(count: u16) -> Vec<u8> {
    let mut bytes = count.to_le_bytes().to_vec();
    for word in 0..count {
        bytes.extend((4 * word).to_le_bytes());
        bytes.extend([4, 0]);
    }
    let words = (0..count).map(|word| format!("a{:03}", word));
    bytes.extend(words.flat_map(String::into_bytes));
    bytes
}

#[cfg(test)]
mod tests {
    use super::*;

    #[test]
    fn books_have_contents_first_and_rising_words() {
        let book = Book::of([("b", 3), ("ab", 0)]);
        assert_eq!(book.bytes, b"\x02\0\0\0\x02\0\x02\0\x01\x03abb");
        assert!(book.has("ab") && book.has("b") && !book.has("a"));
        assert_eq!(Book::of([]).bytes, b"\0\0");
    }

    #[test]
    fn a_bad_book_has_no_word() {
        let bad = Book::bad(b"\x01\0\0\0\x01\0ab");
        assert!(bad.is_bad() && !bad.has("a"));
        assert!(!Book::of([]).is_bad());
    }

    #[cfg(rhai_source)]
    #[test]
    fn the_oracle_reads_the_same_books() {
        use oracle::book::words;
        let book = Book::of([("b", 3), ("ab", 0)]);
        assert_eq!(words(&book.bytes), Some(vec![("ab", 0), ("b", 3)]));
        assert_eq!(words(&many_words(512)).map(|words| words.len()), Some(512));
        for book in bad_books() {
            assert_eq!(words(&book.bytes), None, "{:?}", book);
        }
    }
}
