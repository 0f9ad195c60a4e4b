//! Compares literals: the driver, and the lists of cases that all scanners of literals share.

use crate::c;
use crate::lent::{compare_short_answers, Bytes, Lent, Told};
use crate::place::{Packed, Place};
use crate::report::{Case, Report};
use crate::start::{each_odd_start, each_random_start, longest_text, Refusal, Start, LONGEST};
use crate::texts::each_text;
use oracle::reading::{Read, Reading, Scanner};
use std::fmt;

/// A room that no body of a short text passes.
pub const AMPLE: usize = 16;

/// What a literal's scan tells, field by field as it crosses.
#[derive(Debug, Clone, Copy, PartialEq, Eq, Default)]
struct Scanned {
    number: u64,
    offset: u64,
    position: Packed,
    first: Packed,
    /// The character on record, and how often it stands.
    record: (u64, u64),
    length: u64,
    interpolated: u64,
    fault_place: Packed,
    /// The offset and the length of the part of the text that the fault is about.
    part: (u64, u64),
}

impl From<[u64; 11]> for Scanned {
    fn from(row: [u64; 11]) -> Self {
        Self {
            number: row[0],
            offset: row[1],
            position: Packed(row[2]),
            first: Packed(row[3]),
            record: (row[4], row[5]),
            length: row[6],
            interpolated: row[7],
            fault_place: Packed(row[8]),
            part: (row[9], row[10]),
        }
    }
}

impl Scanned {
    /// A refusal of the start, or for want of room: all is as given, and nothing is on record.
    fn refused(number: u64, start: Start) -> Self {
        Self {
            number,
            offset: start.at as u64,
            position: start.place.into(),
            fault_place: start.place.into(),
            ..Self::default()
        }
    }

    /// The Rust's answer. `None` where its fault has no number, or is about no part of the text.
    fn of(read: &Read, text: &[u8]) -> Option<Self> {
        let read = match read {
            Err(read) => read,
            Ok(read) => {
                return Some(Self {
                    offset: read.offset as u64,
                    position: read.position.into(),
                    first: read.first.into(),
                    record: record(read.record.as_deref()),
                    length: read.body.len() as u64,
                    interpolated: read.interpolated.into(),
                    ..Self::default()
                })
            }
        };
        let part = read.fault.part();
        let taken = text[..read.offset].strip_suffix(part.as_bytes())?;
        Some(Self {
            number: read.fault.number()?.into(),
            offset: read.offset as u64,
            position: read.position.into(),
            record: record(read.record.as_deref()),
            fault_place: read.place.into(),
            part: match part {
                "" => (0, 0),
                _ => (taken.len() as u64, part.len() as u64),
            },
            ..Self::default()
        })
    }
}

fn record(record: Option<&str>) -> (u64, u64) {
    let record = record.unwrap_or("");
    let ch = record.chars().next().map_or(0, u64::from);
    (ch, record.chars().count() as u64)
}

/// The refusal that document 01 asks for where the Rust panics, goes on, or cannot be asked.
fn explained(scan: Scanner, start: Start) -> Option<Refusal> {
    let (bad, why) = match scan {
        Scanner::Raw => (false, ""),
        Scanner::Resumed(hashes) => (!(1..=LONGEST).contains(&hashes), "hash count"),
        Scanner::String(0x22) => (start.place.1 == 0, "column 0 in an ordinary literal"),
        Scanner::String(terminator) => (![0x27, 0x60].contains(&terminator), "terminator"),
    };
    let refused = start.refused();
    refused.or_else(|| bad.then_some(Refusal::new(3, why)))
}

/// `None` where the Rust has no answer.
fn reading_of(scan: Scanner, start: Start) -> Option<Reading> {
    Reading::new(scan, start.str()?, start.at, start.place)
}

const NO_ROOM: Refusal = Refusal::new(9, "no room");

/// What a scanner is asked.
#[derive(Clone, Copy)]
struct Question<'a> {
    scan: Scanner,
    start: Start<'a>,
    limit: usize,
    room: usize,
}

impl fmt::Debug for Question<'_> {
    fn fmt(&self, f: &mut fmt::Formatter<'_>) -> fmt::Result {
        let Self { limit, room, .. } = self;
        write!(
            f,
            "{:?} {:?}, limit {}, room {}",
            self.scan, self.start, limit, room
        )
    }
}

/// What has to be answered, and the body that has to be written.
struct Right<'a> {
    rust: Option<Scanned>,
    explained: Option<Refusal>,
    body: &'a str,
}

/// An answer, and all of the memory lent for the body.
#[derive(Debug, PartialEq, Eq)]
struct Answer<'a> {
    told: Told<Scanned>,
    out: Bytes<'a>,
}

impl Question<'_> {
    fn name(&self) -> &'static str {
        match self.scan {
            Scanner::Raw => "parse_raw_string_literal",
            Scanner::Resumed(_) => "resume_raw_string_literal",
            Scanner::String(_) => "parse_string_literal",
        }
    }

    fn ask(&self, out: &mut [u8], answer: &mut [u8]) -> u32 {
        c::scan_literal(self.scan, self.start, self.limit, out, answer)
    }
}

/// The driver: a report, and memory to lend.
pub struct Literals<'r> {
    report: &'r mut Report,
    lent: Lent,
    right: Lent,
}

impl<'r> Literals<'r> {
    pub fn new(report: &'r mut Report) -> Self {
        Self {
            report,
            lent: Lent::default(),
            right: Lent::default(),
        }
    }

    /// Compares a literal under every limit and in every room.
    pub fn compare(&mut self, scan: Scanner, start: Start, limits: &[usize], rooms: &[usize]) {
        let refused = explained(scan, start);
        let reading = match refused {
            Some(_) => None,
            None => reading_of(scan, start),
        };
        let reading = reading.as_ref();
        for &limit in limits {
            let read = reading.and_then(|reading| reading.limited(limit));
            let rust = read.as_ref().and_then(|read| Scanned::of(read, start.text));
            for &room in rooms {
                let full = matches!(reading, Some(reading) if reading.is_full(limit, room));
                let right = Right {
                    rust,
                    explained: refused.or_else(|| full.then_some(NO_ROOM)),
                    body: match &read {
                        Some(Ok(accepted)) if !full => &accepted.body,
                        _ => "",
                    },
                };
                let question = Question {
                    scan,
                    start,
                    limit,
                    room,
                };
                self.ask(question, right);
            }
        }
    }

    fn ask(&mut self, question: Question, right: Right) {
        self.right.hold(question.room, right.body.as_bytes());
        let out = self.lent.lend(question.room);
        let told = Told::by(|answer| question.ask(out, answer));
        let written = self.right.whole();
        let answer = |row: Scanned| Answer {
            told: Told::right(row.number, row),
            out: written,
        };
        let refused = |Refusal { number, why }| {
            let row = Scanned::refused(number, question.start);
            (why, answer(row))
        };
        self.report.compare(Case {
            name: question.name(),
            text: question.start.text,
            given: question,
            rust: right.rust.map(answer),
            explained: right.explained.map(refused),
            ours: Answer {
                told,
                out: self.lent.whole(),
            },
        });
    }

    /// Every short text over an alphabet, behind a front that is passed over.
    pub fn sweep(&mut self, scans: &[Scanner], sweep: &Sweep) {
        let mut text = String::from(sweep.front);
        each_text(sweep.alphabet, sweep.longest, &mut |short| {
            text.truncate(sweep.front.len());
            text.push_str(short);
            for &place in sweep.places {
                let start = Start {
                    text: text.as_bytes(),
                    at: sweep.front.len(),
                    place,
                };
                for &scan in scans {
                    self.compare(scan, start, sweep.limits, sweep.rooms);
                }
            }
        });
    }

    pub fn random(&mut self, scans: &[Scanner], pieces: &[&str], count: usize) {
        each_random_start(pieces, 24, count, &mut |random, start| {
            let longest = start.text.len() + 2;
            let limits = [0, random.below(longest)];
            let rooms = [random.below(longest), random.below(longest), longest];
            self.compare(random.one_of(scans), start, &limits, &rooms);
        });
    }

    /// The longest text in the domain.
    pub fn longest(&mut self, scan: Scanner) {
        let text = longest_text();
        self.compare(scan, Start::front(&text, (1, 1)), &[0], &[LONGEST]);
    }

    /// Starts that are refused, and answers too short for their row.
    pub fn refused(&mut self, scans: &[Scanner]) {
        each_odd_start(&mut |start| {
            for &scan in scans {
                self.compare(scan, start, &[0, 1, usize::MAX], &[0, 1, AMPLE]);
            }
        });
        for &scan in scans {
            self.short_answers(scan);
        }
    }

    fn short_answers(&mut self, scan: Scanner) {
        let question = Question {
            scan,
            start: Start::front("\"a\"#", (1, 1)),
            limit: 0,
            room: AMPLE,
        };
        let lent = &mut self.lent;
        compare_short_answers(self.report, question.name(), 11, 9, |answer| {
            let returned = question.ask(lent.lend(AMPLE), answer);
            (returned, lent.is_as_lent())
        });
    }
}

/// A list of short texts, and of what is asked about each.
pub struct Sweep<'a> {
    pub front: &'a str,
    pub alphabet: &'a [char],
    pub longest: usize,
    pub places: &'a [Place],
    pub limits: &'a [usize],
    pub rooms: &'a [usize],
}

#[cfg(test)]
mod tests {
    use super::*;
    use crate::start::LINE_0;

    fn front(text: &str, place: Place) -> Start<'_> {
        Start::front(text, place)
    }

    #[test]
    fn arguments_that_document_01_refuses() {
        let is_bad = |scan, column| explained(scan, front("", (1, column))).is_some();
        assert!(!is_bad(Scanner::Raw, 0));
        let hashes = [0, 1, LONGEST, LONGEST + 1].map(Scanner::Resumed);
        assert_eq!(
            hashes.map(|scan| is_bad(scan, 0)),
            [true, false, false, true]
        );
        let strings = [0x22, 0x27, 0x60, 0x2f].map(Scanner::String);
        assert_eq!(
            strings.map(|scan| is_bad(scan, 0)),
            [true, false, false, true]
        );
        assert_eq!(
            strings.map(|scan| is_bad(scan, 1)),
            [false, false, false, true]
        );
        assert_eq!(explained(Scanner::Raw, front("", (0, 1))), Some(LINE_0));
    }

    #[test]
    fn a_fault_is_about_the_part_before_its_offset() {
        let text = "aé\\x4g\"";
        let scanned = |text, limit| {
            let reading = reading_of(Scanner::String(0x22), front(text, (1, 1)))?;
            Scanned::of(&reading.limited(limit)?, text.as_bytes())
        };
        let malformed = scanned(text, 0).expect("an answer");
        assert_eq!((malformed.number, malformed.offset), (6, 7));
        assert_eq!((malformed.part, malformed.record), ((3, 4), (0x22, 1)));
        assert_eq!(malformed.fault_place, (1, 7).into());
        let long = scanned(text, 1).expect("an answer");
        assert_eq!((long.number, long.part), (7, (0, 0)));
    }

    #[test]
    fn a_record_is_a_character_and_its_count() {
        assert_eq!(record(None), (0, 0));
        assert_eq!(record(Some("##")), (0x23, 2));
    }
}
