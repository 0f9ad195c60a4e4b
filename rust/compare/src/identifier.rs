//! Identifiers, with the source's reserved words as a book and with other books.

use crate::book::{bad_books, Book};
use crate::c;
use crate::lent::{compare_short_answers, Told};
use crate::place::Packed;
use crate::report::{Case, Report};
use crate::size::Size;
use crate::start::{each_odd_start, each_random_start, longest_text, Refusal, Start, PLACES};
use crate::texts::{each_edit, each_text};
use crate::token::listed;
use oracle::identifier::{self as rust, by_book, Scanned, Word};
use oracle::{token, words};

const NAME: &str = "parse_identifier_token";

/// Letters of the words that have two, what else stands in an identifier, and what does not.
const ALPHABET: [char; 13] = [
    'a', 'd', 'f', 'g', 'i', 'n', 'o', 's', '_', '1', '!', 'é', ' ',
];

pub fn run(report: &mut Report, size: Size) {
    let books = Books::new();
    let mut identifiers = Identifiers::new(report);
    identifiers.short_texts(&books, size);
    identifiers.near_words(&books);
    identifiers.random_texts(&books, size);
    if size == Size::All {
        identifiers.compare(Start::front(&longest_text(), (1, 1)), &books.source);
    }
    identifiers.refused(&books);
}

/// The books that are lent.
struct Books {
    /// The words that the source reserves.
    source: Book,
    empty: Book,
    /// Listed words, reserved words, names, and words that are none of them.
    own: Book,
}

impl Books {
    fn new() -> Self {
        let own = ["!", "_1", "__", "a", "ad", "in", "is", "let", "sido", "~"];
        Self {
            source: Book::of(reserved().map(|word| {
                let flags = u8::from(word.function) + 2 * u8::from(word.method);
                (word.text, flags)
            })),
            empty: Book::of([]),
            own: Book::of(own.map(|word| (word, 1))),
        }
    }

    fn all(&self) -> [&Book; 3] {
        [&self.source, &self.empty, &self.own]
    }
}

/// The words that the source reserves, symbols too.
fn reserved() -> impl Iterator<Item = words::Reserved> {
    let places = words::reserved().into_iter();
    places.filter(|place| place.reserved && !place.text.is_empty())
}

/// What an identifier's scan tells, field by field as it crosses.
#[derive(Debug, Clone, Copy, PartialEq, Eq, Default)]
struct Identified {
    number: u64,
    kind: u64,
    token: u64,
    offset: u64,
    position: Packed,
    fault_place: Packed,
    /// The offset and the length of the part of the text that the fault is about.
    part: (u64, u64),
}

impl From<[u64; 8]> for Identified {
    fn from(row: [u64; 8]) -> Self {
        Self {
            number: row[0],
            kind: row[1],
            token: row[2],
            offset: row[3],
            position: Packed(row[4]),
            fault_place: Packed(row[5]),
            part: (row[6], row[7]),
        }
    }
}

/// The refusal that document 01 asks for where the Rust panics, goes on, or cannot be asked.
fn explained(start: Start, book: &Book) -> Option<Refusal> {
    let refused = start.refused();
    if refused.is_some() {
        return refused;
    }
    if start.at == start.text.len() {
        return Some(Refusal::new(3, "nothing there"));
    }
    let bad = book.is_bad();
    bad.then_some(Refusal::new(14, "bad book"))
}

/// The driver: a report, and the numbers of two tokens.
struct Identifiers<'r> {
    report: &'r mut Report,
    identifier: u64,
    reserved: u64,
}

impl<'r> Identifiers<'r> {
    fn new(report: &'r mut Report) -> Self {
        let named = |name: &str| {
            let mut numbers = 0..token::count();
            let found = numbers.find(|&number| token::name(number).as_deref() == Some(name));
            found.map_or(0, u64::from)
        };
        Self {
            report,
            identifier: named("Identifier"),
            reserved: named("Reserved"),
        }
    }

    fn compare(&mut self, start: Start, book: &Book) {
        let refused = explained(start, book);
        let text = start.str().filter(|_| refused.is_none());
        let read = text.and_then(|text| rust::parse_identifier_token(text, start.at, start.place));
        let refused = refused.map(|Refusal { number, why }| {
            let row = Identified {
                number,
                offset: start.at as u64,
                position: start.place.into(),
                fault_place: start.place.into(),
                ..Identified::default()
            };
            (why, row)
        });
        let by_book = text.zip(read.as_ref()).and_then(|(text, read)| {
            let text = &text[start.at..read.offset];
            let word = by_book(&read.word, text, book.has(text));
            let other = word != read.word;
            other.then(|| ("another book", self.told(start, read, &word)))
        });
        let right = |row: Identified| Told::right(row.number, row);
        self.report.compare(Case {
            name: NAME,
            text: start.text,
            given: (start, book),
            rust: read
                .as_ref()
                .map(|read| right(self.told(start, read, &read.word))),
            explained: refused.or(by_book).map(|(why, row)| (why, right(row))),
            ours: Told::by(|answer| c::parse_identifier_token(start, &book.bytes, answer)),
        });
    }

    /// The row of what was found by a scan of the Rust. A keyword is of letters.
    fn told(&self, start: Start, read: &Scanned, word: &Word) -> Identified {
        let found = |kind, token| Identified {
            kind,
            token,
            offset: read.offset as u64,
            position: read.position.into(),
            ..Identified::default()
        };
        match word {
            Word::Token(token) if start.text[start.at].is_ascii_alphabetic() => {
                found(2, u64::from(*token))
            }
            Word::Token(token) => found(3, u64::from(*token)),
            Word::Reserved(_) => found(11, self.reserved),
            Word::Identifier(_) => found(1, self.identifier),
            Word::LexError(fault) => Identified {
                number: 8,
                fault_place: read.place.into(),
                part: (start.at as u64, fault.part().len() as u64),
                ..found(0, 0)
            },
        }
    }

    fn is_valid(&mut self, name: &[u8]) {
        let rust = words::is_valid_identifier;
        self.report
            .holds("is_valid_identifier", name, rust, c::is_valid_identifier);
    }

    fn short_texts(&mut self, books: &Books, size: Size) {
        each_text(&ALPHABET, size.of(3, 5), &mut |text| {
            self.is_valid(text.as_bytes());
            for book in books.all() {
                self.compare(Start::front(text, (1, 1)), book);
            }
        });
        each_text(&ALPHABET, size.of(2, 3), &mut |text| {
            let behind = format!("- é{}", text);
            for at in 0..=behind.len() {
                for place in PLACES {
                    let text = behind.as_bytes();
                    self.compare(Start { text, at, place }, &books.source);
                }
            }
        });
    }

    /// Every word of either list, and everything close to one.
    fn near_words(&mut self, books: &Books) {
        for word in listed().chain(reserved().map(|place| place.text)) {
            each_edit(word.as_bytes(), &mut |text| {
                self.is_valid(text);
                let (at, place) = (0, (1, 1));
                self.compare(Start { text, at, place }, &books.source);
            });
            for book in books.all() {
                self.compare(Start::front(word, (1, 1)), book);
            }
        }
    }

    /// Words one after the other, with what else can stand between them.
    fn random_texts(&mut self, books: &Books, size: Size) {
        let others = [
            "_", "__", "1", "!", "a", "Z", "é", "€", "😀", " ", "-", "\n",
        ];
        let words = listed().chain(reserved().map(|place| place.text));
        let pieces: Vec<&str> = words.chain(others).collect();
        let count = size.of(20_000, 1_000_000);
        each_random_start(&pieces, 4, count, &mut |random, start| {
            self.is_valid(start.text);
            self.compare(start, random.one_of(&books.all()));
        });
    }

    /// Starts that are refused, bad books, both at once, and answers too short for their row.
    fn refused(&mut self, books: &Books) {
        let bad = bad_books();
        each_odd_start(&mut |start| {
            self.compare(start, &books.source);
            self.compare(start, &bad[0]);
        });
        for book in &bad {
            for text in ["a", "in", "is", "_", "é", ""] {
                self.compare(Start::front(text, (1, 1)), book);
            }
        }
        let (start, book) = (Start::front("a", (1, 1)), &books.source.bytes);
        compare_short_answers(self.report, NAME, 8, 9, |answer| {
            (c::parse_identifier_token(start, book, answer), true)
        });
    }
}

#[cfg(test)]
mod tests {
    use super::*;

    #[test]
    fn a_start_is_refused_before_a_book() {
        let (good, bad) = (Book::of([]), Book::bad(b""));
        let at_end = Start::front("", (1, 1));
        let at_letter = Start::front("a", (1, 1));
        let number = |start, book| explained(start, book).map(|refusal| refusal.number);
        assert_eq!(number(at_end, &bad), Some(3));
        assert_eq!(number(at_letter, &bad), Some(14));
        assert_eq!(number(at_letter, &good), None);
    }

    #[test]
    fn every_word_that_the_source_reserves_fits_a_book() {
        assert!(reserved().count() > 50);
        assert!(reserved().all(|word| word.text.is_ascii() && word.text.len() <= 10));
    }
}
