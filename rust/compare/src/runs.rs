//! Compares runs over whole scripts: the driver.
//!
//! What is right is made from document 01's words over the Rust's own scanners (`oracle::script`).

use crate::c;
use crate::lent::{Bytes, Lent, Numbers};
use crate::report::{Case, Report, Why};
use oracle::script::{Bounds, Ending, Entry, Left, Part, Script};
use std::fmt;
use stewsatchel::lent::ENTRY;
use stewsatchel::{Book, Limits, Stopped, Tokens};

/// How many bytes the answer takes.
pub const ANSWER: usize = 28;

/// What a run is asked beside its script.
#[derive(Clone, Copy)]
pub struct Question<'a> {
    pub book: &'a [u8],
    pub bounds: Bounds,
    /// Bytes that are lent behind the entries, too few for one more.
    pub over: usize,
    /// Bytes that are lent for the answer.
    pub answer: usize,
}

impl fmt::Debug for Question<'_> {
    fn fmt(&self, f: &mut fmt::Formatter<'_>) -> fmt::Result {
        let Self { book, bounds, .. } = self;
        write!(f, "book b\"{}\", {:?}", book.escape_ascii(), bounds)?;
        write!(f, ", {} over, answer {}", self.over, self.answer)
    }
}

/// What a call returned, and all of the memory that was lent to it.
#[derive(Debug, PartialEq, Eq)]
struct Answer<'a> {
    returned: u32,
    answer: Numbers<'a>,
    entries: Numbers<'a>,
    literals: Bytes<'a>,
}

/// What is lent to one run.
#[derive(Default)]
struct Memory {
    literals: Lent,
    entries: Lent,
    answer: Lent,
}

impl Memory {
    fn lend(&mut self, question: Question) -> [&mut [u8]; 3] {
        let Question { bounds, over, .. } = question;
        [
            self.literals.lend(bounds.literals),
            self.entries.lend(ENTRY * bounds.entries + over),
            self.answer.lend(question.answer),
        ]
    }

    /// Lends as much, and puts there what a run has to write.
    fn hold(&mut self, question: Question, left: &Left) {
        let [literals, entries, answer] = self.lend(question);
        literals[..left.literals.len()].copy_from_slice(&left.literals);
        cross(left.entries.iter().flat_map(entry_numbers), entries);
        cross(answer_numbers(left), answer);
    }

    fn told(&self, returned: u32) -> Answer<'_> {
        Answer {
            returned,
            answer: self.answer.numbers(),
            entries: self.entries.numbers(),
            literals: self.literals.whole(),
        }
    }
}

fn entry_numbers(entry: &Entry) -> [usize; 5] {
    let Entry { kind, place, part } = *entry;
    let (line, column) = place;
    let Part { offset, length } = part;
    [kind as usize, line.into(), column.into(), offset, length]
}

fn answer_numbers(left: &Left) -> [usize; 7] {
    let Ending { place, part, .. } = left.ending;
    [
        left.ending.number as usize,
        place.0.into(),
        place.1.into(),
        left.entries.len(),
        left.literals.len(),
        part.offset,
        part.length,
    ]
}

/// Puts numbers at the front, little endian, four bytes each.
fn cross(numbers: impl IntoIterator<Item = usize>, bytes: &mut [u8]) {
    for (number, bytes) in numbers.into_iter().zip(bytes.chunks_exact_mut(4)) {
        bytes.copy_from_slice(&(number as u32).to_le_bytes());
    }
}

/// Why the Rust's own run does not end with this number, where it never does.
fn explained(number: u32) -> Option<Why> {
    match number {
        1 => Some("not UTF-8"),
        2 => Some("text too long"),
        9 => Some("no room"),
        10 => Some("no entry left"),
        11 => Some("open at the end"),
        12 => Some("not one character"),
        13 => Some("interpolation too deep"),
        14 => Some("bad book"),
        _ => None,
    }
}

/// A script's reading, and bounds that cut nothing of it.
pub struct Whole<'a> {
    pub text: &'a [u8],
    pub book: &'a [u8],
    pub script: Script<'a>,
    pub left: Left,
    pub bounds: Bounds,
}

impl<'a> Whole<'a> {
    /// No literal has more bytes than it takes. Every token takes some, but for a piece of text
    /// behind its `}`.
    pub fn new(text: &'a [u8], book: &'a [u8]) -> Self {
        let script = Script::read(text, book);
        let mut bounds = Bounds {
            limit: 0,
            literals: text.len(),
            entries: 2 * text.len(),
        };
        let left = script.cut(bounds);
        bounds.entries = left.entries.len();
        Self {
            text,
            book,
            script,
            left,
            bounds,
        }
    }
}

/// The driver: a report, and memory to lend and to hold what is right.
pub struct Runs<'r> {
    report: &'r mut Report,
    lent: Memory,
    right: Memory,
}

impl<'r> Runs<'r> {
    pub fn new(report: &'r mut Report) -> Self {
        Self {
            report,
            lent: Memory::default(),
            right: Memory::default(),
        }
    }

    /// Compares a run that has to leave this.
    pub fn compare(&mut self, text: &[u8], question: Question, left: &Left) {
        let (number, why) = self.hold(question, left);
        let right = self.right.told(number);
        let (rust, explained) = match why {
            None => (Some(right), None),
            Some(why) => (None, Some((why, right))),
        };
        let [literals, entries, answer] = self.lent.lend(question);
        let limit = question.bounds.limit as u64;
        let returned = c::run(text, question.book, limit, literals, entries, answer);
        self.report.compare(Case {
            name: "run",
            text,
            given: question,
            rust,
            explained,
            ours: self.lent.told(returned),
        });
    }

    /// Holds what has to be written. Tells what has to be returned, and why where no Rust would.
    fn hold(&mut self, question: Question, left: &Left) -> (u32, Option<Why>) {
        let number = left.ending.number;
        if question.answer >= ANSWER {
            self.right.hold(question, left);
            return (number, explained(number));
        }
        self.right.lend(question);
        let is_refused = [2, 1, 14].contains(&number);
        let returned = if is_refused { number } else { 9 };
        (returned, Some("answer too short"))
    }

    /// Compares a script within bounds, and tells whether they cut anything.
    pub fn cut(&mut self, whole: &Whole, bounds: Bounds) -> bool {
        let left = whole.script.cut(bounds);
        let question = Question {
            book: whole.book,
            bounds,
            over: 0,
            answer: ANSWER,
        };
        self.compare(whole.text, question, &left);
        left != whole.left
    }

    /// A script under every limit and in every room, from the least to the first that cuts nothing.
    pub fn cuts(&mut self, text: &[u8], book: &[u8]) {
        let whole = &Whole::new(text, book);
        let cuts: [fn(usize, Bounds) -> Bounds; 3] = [
            |n, ample| Bounds {
                limit: n + 1,
                ..ample
            },
            |literals, ample| Bounds { literals, ..ample },
            |entries, ample| Bounds { entries, ..ample },
        ];
        for bounds in cuts {
            let mut least = 0;
            while self.cut(whole, bounds(least, whole.bounds)) {
                least += 1;
            }
        }
    }

    /// A script that nothing cuts, as C and as a Rust program sees it.
    pub fn whole(&mut self, text: &[u8], book: &[u8]) {
        let whole = &Whole::new(text, book);
        self.cut(whole, whole.bounds);
        self.through_rust(whole);
    }

    /// Tokens with the names of their kinds and their bytes, and the ending, in memory that grows.
    fn through_rust(&mut self, whole: &Whole) {
        let book = Book::from_bytes(whole.book).expect("a whole script has a good book");
        let read = stewsatchel::Script::read(whole.text, &book, &Limits::NONE);
        let tokens = match &read {
            Ok(tokens) => tokens.iter(),
            Err(stopped) => stopped.tokens_before(),
        };
        let ours = tokens.map(|token| {
            let place = (token.place.line, token.place.column);
            (format!("{:?}", token.kind), place, token.bytes)
        });
        let left = &whole.left;
        let rust = left.entries.iter().map(|entry| {
            let Part { offset, length } = entry.part;
            let bytes = match entry.kind as u32 {
                5..=9 => &left.literals[..],
                _ => whole.text,
            };
            let kind = format!("{:?}", entry.kind);
            (kind, entry.place, &bytes[offset..offset + length])
        });
        self.report.compare(Case {
            name: "run, through Rust",
            text: whole.text,
            given: (),
            rust: Some((rust.collect(), left.ending)),
            explained: None,
            ours: (ours.collect::<Vec<_>>(), ending_of(&read)),
        });
    }
}

/// The ending of what was read, as the oracle has it.
fn ending_of(read: &Result<Tokens, Stopped>) -> Ending {
    let (number, place, part) = match read {
        Ok(tokens) => (0, tokens.end(), None),
        Err(stopped) => {
            let part = stopped.fault().part.clone();
            (stopped.number(), stopped.place(), part)
        }
    };
    let part = part.unwrap_or(0..0);
    Ending {
        number,
        place: (place.line, place.column),
        part: Part {
            offset: part.start,
            length: part.len(),
        },
    }
}

#[cfg(test)]
mod tests {
    use super::*;

    const EMPTY: &[u8] = &[0, 0];

    #[test]
    fn what_a_run_writes_and_leaves_alone() {
        let whole = Whole::new(b"'a';", EMPTY);
        let bounds = Bounds {
            entries: 1,
            ..whole.bounds
        };
        let question = Question {
            book: EMPTY,
            bounds,
            over: 3,
            answer: 30,
        };
        let mut memory = Memory::default();
        memory.hold(question, &whole.script.cut(bounds));
        let lent = u32::MAX;
        let answer = format!("[10, 1, 4, 1, 1, 0, 0, {0}, {0}, 65535]", lent);
        let entries = format!("[9, 1, 1, 0, 1, {0}, {0}, 16777215]", lent);
        let literals = format!("b\"a{}\"", "\\xff".repeat(11));
        let told = memory.told(10);
        assert_eq!(format!("{:?}", told.answer), answer);
        assert_eq!(format!("{:?}", told.entries), entries);
        assert_eq!(format!("{:?}", told.literals), literals);
    }

    #[test]
    fn a_short_answer_is_refused_behind_what_is_lent() {
        let mut report = Report::default();
        let mut runs = Runs::new(&mut report);
        let returned = |runs: &mut Runs, text: &[u8], book: &[u8], answer| {
            let whole = Whole::new(text, book);
            let question = Question {
                book,
                bounds: whole.bounds,
                over: 0,
                answer,
            };
            runs.hold(question, &whole.left).0
        };
        assert_eq!(returned(&mut runs, b"~", EMPTY, 27), 9);
        assert_eq!(returned(&mut runs, b"~", EMPTY, 28), 5);
        assert_eq!(returned(&mut runs, b"\x80", b"", 27), 1);
        assert_eq!(returned(&mut runs, b"~", b"", 27), 14);
        assert!(runs.right.literals.is_as_lent() && runs.right.entries.is_as_lent());
    }
}
