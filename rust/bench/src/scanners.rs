//! The scanners through their C names, and the source's own on its own stream.
//!
//! Each C name checks the UTF-8 of the whole text that it is lent. So just the literal is lent.

use crate::asked::Asked;
use crate::report::{nanoseconds, ratio, shown, Table, Worst};
use crate::timing::{best, Effort};
use compare::book::Book;
use compare::c;
use compare::start::Start;
use oracle::reading::Scanner;
use oracle::{comment, identifier, raw, speed, string, Accepted, Place};

/// Where a scan stands: behind the first character.
const BEHIND: Place = (1, 1);

/// Which scanner is asked.
#[derive(Debug, Clone, Copy, PartialEq, Eq)]
enum Scan {
    /// With a terminator.
    String(char),
    Raw,
    Comment,
    Identifier,
}

const QUOTE: Scan = Scan::String('"');
const APOSTROPHE: Scan = Scan::String('\'');
const BACKTICK: Scan = Scan::String('`');

/// The bytes of a body, or nearly as many.
const SIZES: [usize; 4] = [1 << 4, 1 << 7, 1 << 10, 1 << 16];

/// An opening, a part that is repeated, and a closing.
#[rustfmt::skip]
const SHAPES: [(&str, Scan, [&str; 3]); 14] = [
    ("\" plain", QUOTE, ["", "rock awash, mud.", "\""]),
    ("\" escapes", QUOTE, ["", "\\n\\t\\\"\\x41\\u00e9", "\""]),
    ("\" doubled quotes", QUOTE, ["", "ab\"\"", "\""]),
    ("\" Cyrillic", QUOTE, ["", "камнимыс", "\""]),
    ("` plain", BACKTICK, ["", "rock awash, mud.", "`"]),
    ("` with LFs", BACKTICK, ["", "rock awash,\nmud.", "`"]),
    ("' plain", APOSTROPHE, ["", "rock awash, mud.", "'"]),
    ("raw, ASCII", Scan::Raw, ["\"", "rock awash, mud.", "\"#"]),
    ("raw, Cyrillic", Scan::Raw, ["\"", "камнимыс", "\"#"]),
    ("raw, many quotes", Scan::Raw, ["##\"", "a\"b\"#c\"d", "\"###"]),
    ("comment, ASCII", Scan::Comment, ["", "rock awash, mud.", "*/"]),
    ("comment, stars", Scan::Comment, ["", "* ** / /", "*/"]),
    ("comment, Cyrillic", Scan::Comment, ["", "камнимыс", "*/"]),
    ("comment, nested", Scan::Comment, ["", "/* ab */", "*/"]),
];

/// For the scan of identifiers. The last two are made longer.
const WORDS: [(&str, &str); 8] = [
    ("name of 1 byte", "x"),
    ("name of 5 bytes", "depth"),
    ("keyword of 3 bytes", "let"),
    ("keyword of 8 bytes", "continue"),
    ("almost a keyword", "continued"),
    ("name of 18 bytes", "correction_of_tide"),
    ("name of 200 bytes", "a"),
    ("name of 64 KB", "a"),
];

/// Prints the table of literals and comments.
pub fn literals(asked: &Asked, worst: &mut Worst) -> Result<(), String> {
    let title = "Scanners through their C names, ns a call";
    let mut table = Table::of_pairs(title, "scanner", "source", &SIZES);
    for (name, scan, [opening, part, closing]) in SHAPES {
        if !asked.has("scanner", name) {
            continue;
        }
        let mut pairs = Vec::new();
        for size in SIZES {
            let body = part.repeat((size / part.len()).max(1));
            let text = [opening, &body, closing].concat();
            let name = format!("{}, {}", name, shown(size));
            let mut scans = Scans::new(scan, &text);
            scans.check().map_err(|why| format!("{}: {}", name, why))?;
            let [ours, source] = scans.time(asked.effort(size));
            worst.see(ours / source, || name);
            pairs.push([ours, source]);
        }
        table.pairs(name, &pairs);
    }
    print!("{}", table);
    Ok(())
}

/// Prints the table of identifiers.
pub fn identifiers(asked: &Asked, worst: &mut Worst) -> Result<(), String> {
    let heads = ["word", "ours", "source", "ratio", "ours, book of 512 words"];
    let mut table = Table::new("Identifiers through their C name, ns a call", heads);
    let lengths = [1, 1, 1, 1, 1, 1, 200, 1 << 16];
    for ((name, word), times) in WORDS.into_iter().zip(lengths) {
        if !asked.has("scanner identifier", name) {
            continue;
        }
        let text = word.repeat(times);
        let mut scans = Scans::new(Scan::Identifier, &text);
        scans.check().map_err(|why| format!("{}: {}", name, why))?;
        let [ours, source, full] = scans.time(asked.effort(times));
        worst.see(ours / source, || name.into());
        let cells = [ours, source].map(nanoseconds).into_iter();
        table.row(name, cells.chain([ratio(ours / source), nanoseconds(full)]));
    }
    print!("{}", table);
    Ok(())
}

/// What is timed, with its memory.
struct Scans<'a> {
    scan: Scan,
    text: &'a str,
    out: Vec<u8>,
    answer: [u8; 88],
    source: speed::Scanner<'a>,
    /// A book of 512 words, the most that a book has.
    full: Vec<u8>,
}

impl<'a> Scans<'a> {
    fn new(scan: Scan, text: &'a str) -> Self {
        Self {
            scan,
            text,
            out: vec![0; text.len()],
            answer: [0; 88],
            source: speed::Scanner::default(),
            full: full_book(),
        }
    }

    #[inline(always)]
    fn ours(&mut self, is_full: bool) -> u32 {
        let start = Start::front(self.text, BEHIND);
        let book = if is_full { &self.full[..] } else { &[0, 0] };
        let (out, answer) = (&mut self.out[..], &mut self.answer[..]);
        match self.scan {
            Scan::String(end) => {
                c::scan_literal(Scanner::String(end.into()), start, 0, out, answer)
            }
            Scan::Raw => c::scan_literal(Scanner::Raw, start, 0, out, answer),
            Scan::Comment => c::scan_block_comment(start, 1, answer),
            Scan::Identifier => c::parse_identifier_token(start, book, answer),
        }
    }

    #[inline(always)]
    fn source(&mut self) {
        match self.scan {
            Scan::String(end) => self.source.string(self.text, BEHIND, end),
            Scan::Raw => self.source.raw(self.text, BEHIND),
            Scan::Comment => self.source.block_comment(self.text, BEHIND, 1),
            Scan::Identifier => self.source.identifier(self.text, BEHIND),
        }
    }

    /// The nanoseconds of one call: ours, the source's, and ours with a full book, as many of them
    /// as are asked for.
    fn time<const SIDES: usize>(&mut self, effort: Effort) -> [f64; SIDES] {
        best(effort, &mut |side, times| {
            for _ in 0..times {
                match side {
                    0 => drop(self.ours(false)),
                    1 => self.source(),
                    _ => drop(self.ours(true)),
                }
            }
        })
    }

    /// A number of the row that was answered.
    fn told(&self, at: usize) -> u64 {
        let eight = self.answer[8 * at..8 * at + 8].iter().rev();
        eight.fold(0, |number, &byte| number << 8 | u64::from(byte))
    }

    /// Holds ours to the source: where the scan stops, and all bytes of a body.
    fn check(&mut self) -> Result<(), String> {
        let number = self.ours(false);
        let text = self.text;
        let is_held = match self.scan {
            Scan::String(end) => {
                let read = string::parse_string_literal(text, 0, BEHIND, end, 0);
                self.is_literal(read.and_then(Result::ok))
            }
            Scan::Raw => {
                let read = raw::parse_raw_string_literal(text, 0, BEHIND, 0, 0);
                self.is_literal(read.and_then(Result::ok))
            }
            Scan::Comment => {
                let read = comment::scan_block_comment(text, 0, 1, BEHIND);
                let held =
                    read.map(|read| [read.level as u64, read.offset as u64, packed(read.position)]);
                held == Some([1, 2, 3].map(|at| self.told(at)))
            }
            Scan::Identifier => {
                let read = identifier::parse_identifier_token(text, 0, BEHIND);
                let held = read.map(|read| [read.offset as u64, packed(read.position)]);
                held == Some([3, 4].map(|at| self.told(at)))
            }
        };
        match number == 0 && is_held {
            true => Ok(()),
            false => Err(format!("ours and the source differ, number {}", number)),
        }
    }

    fn is_literal(&self, read: Option<Accepted>) -> bool {
        let read = match read {
            Some(read) => read,
            None => return false,
        };
        let length = self.told(6) as usize;
        let held = [read.offset as u64, packed(read.position)];
        held == [1, 2].map(|at| self.told(at)) && read.body.as_bytes() == &self.out[..length]
    }
}

fn packed((line, column): Place) -> u64 {
    u64::from(line) << 16 | u64::from(column)
}

fn full_book() -> Vec<u8> {
    let word = |number: usize| -> &'static str {
        Box::leak(format!("word{:05}", number).into_boxed_str())
    };
    Book::of((0..512).map(|number| (word(number), 0))).bytes
}
