//! Word books, and which bytes are one: document 01, "Word book".

use crate::random::Random;

/// The book without a word.
pub const EMPTY: &[u8] = &[0, 0];

/// What the books have words of. They rise, and none is a keyword.
const WORDS: [&str; 12] = [
    "Fn",
    "_1",
    "async",
    "call",
    "curry",
    "go",
    "is_shared",
    "new",
    "super",
    "this",
    "var",
    "with",
];

/// The book of some words, which rise, all with these flags.
pub fn book_of<T: AsRef<str>>(words: &[T], flags: u8) -> Vec<u8> {
    let mut book = (words.len() as u16).to_le_bytes().to_vec();
    let mut offset = 0_usize;
    for word in words {
        book.extend((offset as u16).to_le_bytes());
        book.extend([word.as_ref().len() as u8, flags]);
        offset += word.as_ref().len();
    }
    book.extend(words.iter().flat_map(|word| word.as_ref().bytes()));
    book
}

/// Some words, and their book.
pub fn random_book(random: &mut Random) -> (Vec<&'static str>, Vec<u8>) {
    let share = random.below(4);
    let mut words = WORDS.to_vec();
    words.retain(|_| random.below(4) < share);
    let flags = random.below(4) as u8;
    let book = book_of(&words, flags);
    (words, book)
}

/// A word for a script, whether the book has it or not.
pub fn random_word(random: &mut Random) -> &'static str {
    // `_1` is no name where the book does not have it.
    random.one_of(&[
        "Fn",
        "async",
        "call",
        "go",
        "is_shared",
        "this",
        "var",
        "with",
    ])
}

pub fn is_book(bytes: &[u8]) -> bool {
    let count = match bytes {
        [low, high, ..] => usize::from(u16::from_le_bytes([*low, *high])),
        _ => return false,
    };
    if count > 512 || bytes.len() < 2 + 4 * count {
        return false;
    }
    let (contents, bodies) = bytes[2..].split_at(4 * count);
    let (mut at, mut last): (usize, &[u8]) = (0, b"");
    for row in contents.chunks_exact(4) {
        let offset = usize::from(u16::from_le_bytes([row[0], row[1]]));
        let end = at + usize::from(row[2]);
        if offset != at || !(1..=10).contains(&row[2]) || row[3] > 3 || bodies.len() < end {
            return false;
        }
        let word = &bodies[at..end];
        if !word.is_ascii() || word <= last {
            return false;
        }
        (at, last) = (end, word);
    }
    at == bodies.len()
}

#[cfg(test)]
mod tests {
    use super::*;

    #[test]
    fn books_that_are_made_are_books() {
        assert!(is_book(EMPTY) && is_book(&book_of(&WORDS, 3)));
        assert_eq!(
            book_of(&["a", "bc"], 1),
            b"\x02\0\0\0\x01\x01\x01\0\x02\x01abc"
        );
    }

    #[test]
    fn each_rule_of_a_book_is_kept() {
        let bad: [&[u8]; 11] = [
            b"",
            b"\0",
            b"\x01\0",
            b"\0\0\0",
            b"\x01\0\0\0\x01\0ab",
            b"\x01\0\x01\0\x01\0\0a",
            b"\x01\0\0\0\0\0",
            b"\x01\0\0\0\x0b\0aaaaaaaaaaa",
            b"\x01\0\0\0\x01\x04a",
            b"\x01\0\0\0\x01\0\x80",
            b"\x02\0\0\0\x01\0\x01\0\x01\0aa",
        ];
        for book in bad {
            assert!(!is_book(book), "{:?}", book);
        }
        let words: Vec<String> = (0..513).map(|word| format!("a{:03}", word)).collect();
        assert!(is_book(&book_of(&words[..512], 0)) && !is_book(&book_of(&words, 0)));
    }
}
