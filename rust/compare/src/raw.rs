//! Raw string literals, fresh and resumed.

use crate::literal::{Literals, Sweep, AMPLE};
use crate::report::Report;
use crate::size::Size;
use crate::start::{Start, LONGEST, PLACES};
use oracle::reading::Scanner;

const SCANS: [Scanner; 4] = [
    Scanner::Raw,
    Scanner::Resumed(1),
    Scanner::Resumed(2),
    Scanner::Resumed(3),
];

const ALPHABET: [char; 4] = ['"', '#', '\n', 'a'];

/// What a raw literal tells apart, and characters of two, three and four bytes.
const PIECES: [&str; 13] = [
    "\"", "\"#", "\"##", "\"###", "#", "##", "\n", "\r\n", "a", "é", "€", "\u{2028}", "😀",
];

pub fn run(report: &mut Report, size: Size) {
    let mut literals = Literals::new(report);
    short_texts(&mut literals, size);
    literals.random(&SCANS, &PIECES, size.of(10_000, 2_000_000));
    long_texts(&mut literals, size);
    if size == Size::All {
        literals.longest(Scanner::Resumed(1));
    }
    hash_counts(&mut literals);
    literals.refused(&SCANS);
}

fn short_texts(literals: &mut Literals, size: Size) {
    let sweep = Sweep {
        front: "",
        alphabet: &ALPHABET,
        longest: size.of(5, 8),
        places: &[(1, 1)],
        limits: &[0, 1, 2, 3, 4, 5, 6],
        rooms: &[0, 1, 2, 3, 4, 5, 6, AMPLE],
    };
    literals.sweep(&SCANS, &sweep);
    let elsewhere = Sweep {
        longest: size.of(4, 7),
        places: &PLACES,
        limits: &[0, 2],
        rooms: &[1, AMPLE],
        ..sweep
    };
    literals.sweep(&SCANS, &elsewhere);
    let behind = Sweep {
        front: "é\"#",
        longest: size.of(4, 6),
        ..elsewhere
    };
    literals.sweep(&SCANS, &behind);
}

/// Lines and columns that reach 65,535 on the way, and long openings.
fn long_texts(literals: &mut Literals, size: Size) {
    let texts = [
        format!("\"{}\"#", "a".repeat(65_540)),
        format!("\"{}\"#", "\n".repeat(65_540)),
        format!("\"{}\"#", "\"\n".repeat(65_540)),
        format!("{}\"é", "#".repeat(65_540)),
        format!("{}é", "#".repeat(65_540)),
        "#".repeat(65_540),
    ];
    for text in &texts {
        for &place in &[(1, 1), (1, 65535), (65535, 1)][..size.of(1, 3)] {
            for scan in SCANS {
                let start = Start::front(text, place);
                literals.compare(scan, start, &[0, 65_539], &[65_540, text.len()]);
            }
        }
    }
}

/// Hash counts at both ends of what document 01 allows, and past them.
fn hash_counts(literals: &mut Literals) {
    for hashes in [0, 1, LONGEST, LONGEST + 1, usize::MAX] {
        for text in ["", "\"", "\"#", "a\"#"] {
            let start = Start::front(text, (1, 1));
            literals.compare(Scanner::Resumed(hashes), start, &[0, 1], &[0, AMPLE]);
        }
    }
}
