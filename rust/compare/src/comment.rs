//! Block comments, and which comments are doc comments.

use crate::c;
use crate::lent::{compare_short_answers, Told};
use crate::place::Packed;
use crate::report::{Case, Report};
use crate::size::Size;
use crate::start::{each_odd_start, each_random_start, longest_text, Refusal, Start, PLACES};
use crate::texts::{each_edit, each_text};
use oracle::comment as rust;

const NAME: &str = "scan_block_comment";

const LEVELS: [usize; 4] = [1, 2, 3, 65_535];

/// What a comment tells apart, and characters of two, three and four bytes.
const PIECES: [&str; 12] = [
    "/", "*", "/*", "*/", "/*/", "*/*", "\n", "\r\n", "a", "é", "€", "😀",
];

pub fn run(report: &mut Report, size: Size) {
    short_texts(report, size);
    random_texts(report, size);
    long_texts(report, size);
    refused(report);
    doc_comments(report);
}

/// What a comment's scan tells, field by field as it crosses.
#[derive(Debug, Clone, Copy, PartialEq, Eq, Default)]
struct Scanned {
    number: u64,
    level: u64,
    offset: u64,
    position: Packed,
}

impl From<[u64; 4]> for Scanned {
    fn from([number, level, offset, position]: [u64; 4]) -> Self {
        Self {
            number,
            level,
            offset,
            position: Packed(position),
        }
    }
}

/// The refusal that document 01 asks for where the Rust panics, goes on, or cannot be asked.
fn explained(start: Start, level: usize) -> Option<Refusal> {
    let bad = !(1..=65_535).contains(&level);
    let refused = start.refused();
    refused.or_else(|| bad.then_some(Refusal::new(3, "level")))
}

/// A refused scan tells what it was given.
fn compare(report: &mut Report, start: Start, level: usize) {
    let explained = explained(start, level);
    let refused = |number| Scanned {
        number,
        level: level as u64,
        offset: start.at as u64,
        position: start.place.into(),
    };
    let text = start.str().filter(|_| explained.is_none());
    let rust = text.and_then(|text| rust::scan_block_comment(text, start.at, level, start.place));
    let rust = rust.map(|read| Scanned {
        number: 0,
        level: read.level as u64,
        offset: read.offset as u64,
        position: read.position.into(),
    });
    let right = |row: Scanned| Told::right(row.number, row);
    report.compare(Case {
        name: NAME,
        text: start.text,
        given: (start, level),
        rust: rust.map(right),
        explained: explained.map(|refusal| (refusal.why, right(refused(refusal.number)))),
        ours: Told::by(|answer| c::scan_block_comment(start, level, answer)),
    });
}

fn short_texts(report: &mut Report, size: Size) {
    let alphabet = ['/', '*', '\n', 'a'];
    each_text(&alphabet, size.of(6, 9), &mut |text| {
        for level in LEVELS {
            compare(report, Start::front(text, (1, 1)), level);
        }
    });
    each_text(&alphabet, size.of(4, 7), &mut |text| {
        let behind = format!("é*{}", text);
        for place in PLACES {
            compare(report, Start::front(text, place), 2);
            let start = Start {
                text: behind.as_bytes(),
                at: 3,
                place,
            };
            compare(report, start, 1);
        }
    });
}

fn random_texts(report: &mut Report, size: Size) {
    let count = size.of(20_000, 2_000_000);
    each_random_start(&PIECES, 40, count, &mut |random, start| {
        compare(report, start, random.one_of(&LEVELS));
    });
}

/// Lines, columns and levels that reach 65,535 on the way, and the longest text.
fn long_texts(report: &mut Report, size: Size) {
    let texts = ["a", "\n", "/*", "*/"].map(|piece| piece.repeat(65_540));
    for text in &texts {
        for &place in &[(1, 1), (1, 65_535), (65_535, 1)][..size.of(1, 3)] {
            for level in LEVELS {
                compare(report, Start::front(text, place), level);
            }
        }
    }
    if size == Size::All {
        compare(report, Start::front(&longest_text(), (1, 1)), 1);
    }
}

fn refused(report: &mut Report) {
    each_odd_start(&mut |start| compare(report, start, 1));
    for level in [0, 1, 65_535, 65_536, usize::MAX] {
        for text in ["", "*/", "/*"] {
            compare(report, Start::front(text, (1, 1)), level);
        }
    }
    let start = Start::front("a*/", (1, 1));
    for (level, applies) in [(1, 9), (0, 3)] {
        compare_short_answers(report, NAME, 4, applies, |answer| {
            (c::scan_block_comment(start, level, answer), true)
        });
    }
}

fn doc_comments(report: &mut Report) {
    let mut compare = |comment: &[u8]| {
        report.holds(
            "is_doc_comment",
            comment,
            rust::is_doc_comment,
            c::is_doc_comment,
        );
    };
    each_text(&['/', '*', '!', '\n', 'a'], 6, &mut |text| {
        compare(text.as_bytes())
    });
    for comment in ["///", "////", "/**", "/***", "/**/", "/// é"] {
        each_edit(comment.as_bytes(), &mut compare);
    }
}

#[cfg(test)]
mod tests {
    use super::*;

    #[test]
    fn levels_have_both_ends_of_their_range() {
        let start = Start::front("", (1, 1));
        let is_bad = |level| explained(start, level).is_some();
        assert_eq!(
            [0, 1, 65_535, 65_536].map(is_bad),
            [true, false, false, true]
        );
        let bad = Start {
            text: b"\x80",
            ..start
        };
        assert_eq!(explained(bad, 0), bad.refused());
    }
}
