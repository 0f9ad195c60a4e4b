//! Whole scripts: the proved run, the source's own, and the plain lexer's.

use crate::plain;
use crate::timing::{best, Effort};
use compare::book::Book;
use oracle::{speed, words};
use std::str;
use stewsatchel::lent::c;

/// How many bytes an entry has.
pub const ENTRY: usize = 20;

/// The empty book.
pub const EMPTY: [u8; 2] = [0, 0];

/// Memory that a run is lent, made once.
pub struct Lent {
    pub literals: Vec<u8>,
    pub entries: Vec<u8>,
    answer: [u8; 28],
}

impl Lent {
    /// For scripts of so many bytes.
    fn new(longest: usize) -> Self {
        Self {
            literals: vec![0; longest],
            entries: vec![0; ENTRY * longest],
            answer: [0; 28],
        }
    }

    pub fn ours(&mut self, script: &[u8], book: &[u8]) -> u32 {
        let (literals, entries) = (&mut self.literals, &mut self.entries);
        c::run(script, book, 0, literals, entries, &mut self.answer)
    }

    pub fn plain(&mut self, script: &[u8]) -> u32 {
        let (literals, entries) = (&mut self.literals, &mut self.entries);
        plain::run(script, literals, entries, &mut self.answer)
    }

    /// A number of the answer.
    pub fn number(&self, at: usize) -> usize {
        number(&self.answer, at)
    }

    pub fn listed(&self) -> usize {
        self.number(3)
    }

    /// What was told: the answer, the entries and the literal bytes.
    pub fn told(&self) -> (&[u8], &[u8], &[u8]) {
        let entries = &self.entries[..ENTRY * self.listed()];
        (&self.answer, entries, &self.literals[..self.number(4)])
    }

    /// Kind, line, column, offset and length.
    pub fn entry(&self, at: usize) -> [usize; 5] {
        let entry = &self.entries[ENTRY * at..];
        [0, 1, 2, 3, 4].map(|part| number(entry, part))
    }
}

/// The number at a place of bytes that cross, four to a number.
fn number(bytes: &[u8], at: usize) -> usize {
    let four = [0, 1, 2, 3].map(|byte| bytes[4 * at + byte]);
    u32::from_le_bytes(four) as usize
}

/// The nanoseconds of a run over one script, or of a byte of it.
#[derive(Debug, Clone, Copy)]
pub struct Times {
    pub ours: f64,
    /// Ours with the source's reserved words as a book.
    pub booked: f64,
    pub plain: f64,
    /// The source with its comments returned.
    pub source: f64,
    /// The source with its comments skipped, which ours never does.
    pub skipping: f64,
}

/// What is timed, with its memory.
pub struct Runs {
    pub ours: Lent,
    pub other: Lent,
    /// The source's reserved words.
    pub book: Vec<u8>,
}

impl Runs {
    /// For scripts of so many bytes.
    pub fn new(longest: usize) -> Self {
        let reserved = words::reserved().into_iter();
        let reserved = reserved.filter(|word| word.reserved && !word.text.is_empty());
        Self {
            ours: Lent::new(longest),
            other: Lent::new(longest),
            book: Book::of(reserved.map(|word| (word.text, 0))).bytes,
        }
    }

    /// The times of a byte, of all sides.
    pub fn time(&mut self, script: &[u8], effort: Effort) -> Times {
        let text = str::from_utf8(script).unwrap_or_default();
        let calls = best(effort, &mut |side, times| {
            for _ in 0..times {
                match side {
                    3 => drop(speed::run(text, true)),
                    4 => drop(speed::run(text, false)),
                    side => self.call(side, script),
                }
            }
        });
        let [ours, plain, booked, source, skipping] = calls.map(|call| call / script.len() as f64);
        Times {
            ours,
            booked,
            plain,
            source,
            skipping,
        }
    }

    /// The same without the source, whose own run need not end.
    pub fn time_alone(&mut self, script: &[u8], effort: Effort) -> Times {
        let calls = best(effort, &mut |side, times| {
            for _ in 0..times {
                self.call(side, script);
            }
        });
        let [ours, plain, booked] = calls.map(|call| call / script.len() as f64);
        Times {
            ours,
            booked,
            plain,
            source: f64::NAN,
            skipping: f64::NAN,
        }
    }

    #[inline(always)]
    fn call(&mut self, side: usize, script: &[u8]) {
        match side {
            0 => self.ours.ours(script, &EMPTY),
            1 => self.other.plain(script),
            _ => self.ours.ours(script, &self.book),
        };
    }
}
