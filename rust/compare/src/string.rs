//! String literals, for the three terminators.

use crate::literal::{Literals, Sweep, AMPLE};
use crate::report::Report;
use crate::size::Size;
use crate::start::{Start, PLACES};
use crate::texts::each_text;
use oracle::reading::Scanner;

const QUOTE: Scanner = Scanner::String(0x22);
const APOSTROPHE: Scanner = Scanner::String(0x27);
const BACKTICK: Scanner = Scanner::String(0x60);
const SCANS: [Scanner; 3] = [QUOTE, APOSTROPHE, BACKTICK];

/// For each terminator, what its literals tell apart.
const ALPHABETS: [(Scanner, [char; 7]); 3] = [
    (QUOTE, ['"', '\\', '\n', '\r', ' ', 'n', 'a']),
    (APOSTROPHE, ['\'', '\\', '\n', '\r', ' ', 't', '"']),
    (BACKTICK, ['`', '\\', '\n', '\r', '$', '{', 'a']),
];

/// What any of them tells apart.
const TOGETHER: [char; 15] = [
    '"', '\'', '`', '\\', '\n', '\r', '\t', ' ', '$', '{', 'n', 'r', 'x', 'é', '\u{3000}',
];

/// The same and whole escapes, and characters of two, three and four bytes, white ones too.
#[rustfmt::skip]
const PIECES: [&str; 40] = [
    "\"", "\"\"", "'", "''", "`", "``", "$", "${", "\\${", "{", "a", "é", "€", "😀", "\n", "\r", "\r\n",
    " ", "   ", "\t", "\u{b}", "\u{85}", "\u{a0}", "\u{2028}", "\u{3000}", "\\", "\\\n", "\\\r\n",
    "\\\n ", "\\\n   ", "\\\\", "\\n", "\\r", "\\t", "\\\"", "\\'", "\\`", "\\x41", "\\u20AC",
    "\\U0001f600",
];

pub fn run(report: &mut Report, size: Size) {
    let mut literals = Literals::new(report);
    short_texts(&mut literals, size);
    characters(&mut literals, size);
    escapes(&mut literals, size);
    literals.random(&SCANS, &PIECES, size.of(10_000, 4_000_000));
    long_texts(&mut literals, size);
    if size == Size::All {
        literals.longest(BACKTICK);
    }
    terminators(&mut literals);
    literals.refused(&SCANS);
}

fn short_texts(literals: &mut Literals, size: Size) {
    let sweep = Sweep {
        front: "",
        alphabet: &TOGETHER,
        longest: size.of(2, 4),
        places: &[(1, 1), (1, 2)],
        limits: &[0, 1, 2, 3, 4, 5, 6],
        rooms: &[0, 1, 2, 3, 4, 5, 6, AMPLE],
    };
    literals.sweep(&SCANS, &sweep);
    for (scan, alphabet) in &ALPHABETS {
        let own = Sweep {
            alphabet,
            longest: size.of(4, 6),
            places: &[(1, 1)],
            ..sweep
        };
        literals.sweep(&[*scan], &own);
        let elsewhere = Sweep {
            longest: size.of(3, 6),
            places: &PLACES,
            limits: &[0, 2],
            rooms: &[1, AMPLE],
            ..own
        };
        literals.sweep(&[*scan], &elsewhere);
        let behind = Sweep {
            front: "é\"",
            longest: size.of(3, 5),
            ..elsewhere
        };
        literals.sweep(&[*scan], &behind);
    }
}

/// Every character, or every one up to the last that is white, where white ones are skipped.
fn characters(literals: &mut Literals, size: Size) {
    let last = size.of('\u{30ff}', char::MAX);
    for ch in '\0'..=last {
        let text = format!("\\\n{}\"", ch);
        let start = Start::front(&text, (1, 1));
        literals.compare(QUOTE, start, &[0], &[AMPLE]);
    }
}

/// Either side of each range of hex digits, digits that are not ASCII, and what else can stand
/// where a digit should.
const DIGITS: [char; 17] = [
    '0', '9', 'A', 'F', 'a', 'f', '/', ':', '@', 'G', '`', 'g', '"', '\\', '\n', 'é', '０',
];

/// Numbers on either side of which something is another: the bytes of the character, surrogates,
/// the largest character, the largest number.
const EDGES: [u32; 10] = [
    0x0, 0x7f, 0x7ff, 0xd7ff, 0xdbff, 0xdfff, 0xffff, 0x10_fffd, 0x10_ffff, 0x11_ffff,
];

/// Every class of digit, every number of four digits, and numbers of eight at the edges.
fn escapes(literals: &mut Literals, size: Size) {
    each_text(&DIGITS, 2, &mut |digits| escape(literals, 'x', digits));
    each_text(&DIGITS[..size.of(6, 12)], 4, &mut |digits| {
        escape(literals, 'u', digits)
    });
    each_text(&['0', '1', 'd', 'F'], size.of(4, 8), &mut |digits| {
        escape(literals, 'U', digits);
    });

    for number in (0..=0xffff).step_by(size.of(97, 1)) {
        escape(literals, 'u', &format!("{:04x}", number));
        escape(literals, 'u', &format!("{:04X}", number));
    }
    for number in EDGES.iter().flat_map(|&edge| edge..edge + 4) {
        escape(literals, 'u', &format!("{:04x}", number));
        escape(literals, 'U', &format!("{:08x}", number));
    }
    escape(literals, 'U', "ffffffff");
}

/// An escape at the end of the text, and one with the terminators behind it.
fn escape(literals: &mut Literals, letter: char, digits: &str) {
    for behind in ["", "\"'`"] {
        let text = format!("\\{}{}{}", letter, digits, behind);
        let start = Start::front(&text, (1, 1));
        for scan in SCANS {
            literals.compare(scan, start, &[0, 1], &[0, 1, 3, AMPLE]);
        }
    }
}

/// Lines and columns that reach 65,535 on the way.
fn long_texts(literals: &mut Literals, size: Size) {
    let close = |body: String| format!("{}\"'`", body);
    let texts = [
        close("a".repeat(65_540)),
        close("\n".repeat(65_540)),
        close("\\\n".repeat(65_540)),
        close(format!("\\\n{}", " ".repeat(65_540))),
        close("\\\n  ".repeat(200)),
    ];
    for text in &texts {
        for &place in &[(1, 1), (1, 2), (1, 65534), (1, 65535), (65535, 1)][..size.of(1, 5)] {
            for scan in SCANS {
                let start = Start::front(text, place);
                literals.compare(scan, start, &[0, 65_539], &[65_540, text.len()]);
            }
        }
    }
}

/// Terminators beside the three, and numbers that only end as one of them.
fn terminators(literals: &mut Literals) {
    let beside = [0x0, 0x21, 0x23, 0x26, 0x28, 0x2f, 0x5f, 0x61];
    let ending = [0x122, 0x127, 0x160, 0x1_0022, 0x1_0027, 0x1_0060];
    let none = [0xd800, 0x11_0000, 0x100_0022, u32::MAX];
    for terminator in beside.into_iter().chain(ending).chain(none) {
        for text in ["", "\"'`", "!", "a/"] {
            let start = Start::front(text, (1, 1));
            literals.compare(Scanner::String(terminator), start, &[0], &[0, AMPLE]);
        }
    }
}
