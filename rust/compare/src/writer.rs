//! The raw writer: held to one made from document 01's words, and read back by the Rust.

use crate::c;
use crate::lent::{Bytes, Lent};
use crate::random::Random;
use crate::report::{Case, Report, Why};
use crate::size::Size;
use crate::start::LONGEST;
use crate::texts::each_text;
use oracle::raw as rust;

const NAME: &str = "raw_write";

/// What decides how many hashes a body needs, and characters of every width.
const PIECES: [&str; 11] = [
    "\"", "#", "\"#", "\"##", "##", "a", "\n", "\\", "é", "€", "😀",
];

pub fn run(report: &mut Report, size: Size) {
    let mut writer = Writer::new(report);
    each_text(&['"', '#', 'a'], size.of(6, 9), &mut |body| {
        writer.compare(body.as_bytes());
    });
    let mut random = Random::new(1);
    for _ in 0..size.of(5_000, 1_000_000) {
        let body = random.text(&PIECES, 24);
        writer.compare(body.as_bytes());
        let before = random.text(&PIECES, 4);
        let after = random.text(&PIECES, 4);
        writer.read_back(&before, &body, &after);
        writer.compare(&random.damaged(body.as_bytes()));
    }
    writer.long_bodies();
    writer.short_answers();
}

/// The raw literal of a body: the least number of hashes, at least one, that follow no quote in it.
fn literal_of(body: &str) -> String {
    let mut hashes = String::from("#");
    while body.contains(&format!("\"{}", hashes)) {
        hashes.push('#');
    }
    format!("{0}\"{1}\"{0}", hashes, body)
}

/// What has to be returned, and why where nothing is written; else the literal.
fn right(body: &[u8], room: usize) -> Result<String, (u32, Why)> {
    if body.len() > LONGEST {
        return Err((2, "text too long"));
    }
    let literal = match std::str::from_utf8(body) {
        Ok(body) => literal_of(body),
        Err(_) => return Err((1, "not UTF-8")),
    };
    if literal.len() > room {
        return Err((9, "no room"));
    }
    Ok(literal)
}

/// What a call returned, and all of the memory that was lent to it.
#[derive(Debug, PartialEq, Eq)]
struct Answer<'a> {
    returned: u32,
    out: Bytes<'a>,
    length: Bytes<'a>,
}

/// The driver: a report, and memory to lend and to hold what is right.
struct Writer<'r> {
    report: &'r mut Report,
    lent: [Lent; 2],
    right: [Lent; 2],
}

impl<'r> Writer<'r> {
    fn new(report: &'r mut Report) -> Self {
        Self {
            report,
            lent: Default::default(),
            right: Default::default(),
        }
    }

    /// A body in rooms that its literal does not fit, just fits, and fits easily.
    fn compare(&mut self, body: &[u8]) {
        let enough = right(body, usize::MAX).map_or(0, |literal| literal.len());
        for room in [0, enough.saturating_sub(1), enough, enough + 3] {
            self.compare_in(body, room, right(body, room));
        }
    }

    fn compare_in(&mut self, body: &[u8], room: usize, right: Result<String, (u32, Why)>) {
        let (returned, why, literal) = match right {
            Ok(literal) => (0, None, literal),
            Err((number, why)) => (number, Some(why), String::new()),
        };
        self.right[0].hold(room, literal.as_bytes());
        self.right[1].hold(5, &(literal.len() as u32).to_le_bytes());
        let rows = Answer {
            returned,
            out: self.right[0].whole(),
            length: self.right[1].whole(),
        };
        let [out, length] = &mut self.lent;
        let returned = c::raw_write(body, out.lend(room), length.lend(5));
        let (made, explained) = match why {
            None => (Some(rows), None),
            Some(why) => (None, Some((why, rows))),
        };
        self.report.compare(Case {
            name: NAME,
            text: if body.len() > 64 { b"" } else { body },
            given: (body.len(), room),
            rust: made,
            explained,
            ours: Answer {
                returned,
                out: self.lent[0].whole(),
                length: self.lent[1].whole(),
            },
        });
    }

    /// What ours makes of a body, between two texts, is that body to the Rust's own scanner.
    fn read_back(&mut self, before: &str, body: &str, after: &str) {
        let room = literal_of(body).len();
        let mut literal = vec![0; room];
        c::raw_write(body.as_bytes(), &mut literal, &mut [0; 4]);
        let literal = String::from_utf8_lossy(&literal);
        let text = [before, &literal, after].concat();
        let read = rust::parse_raw_string_literal(&text, before.len() + 1, (1, 1), 0, 0);
        let read = read.and_then(Result::ok);
        let read = read.map(|read| (read.body, read.offset, read.record));
        let right = (body.to_string(), before.len() + room, None);
        let given = (before, body, after);
        self.report
            .same("raw_write, read back", given, read, Some(right));
    }

    /// The longest body that is taken, one that is too long, and the shortest literal that is longer
    /// than a script may be.
    fn long_bodies(&mut self) {
        let plain = vec![b'a'; LONGEST];
        self.compare_in(&plain, LONGEST + 4, right(&plain, LONGEST + 4));
        for byte in [b'a', 0x80] {
            let long = vec![byte; LONGEST + 1];
            self.compare_in(&long, 0, right(&long, 0));
        }
        let hashes = "#".repeat(5_592_404);
        let body = format!("\"{}", hashes);
        let literal = format!("#{0}\"{1}\"#{0}", hashes, body);
        assert_eq!(literal.len(), LONGEST + 1);
        self.compare_in(body.as_bytes(), LONGEST + 1, Ok(literal));
    }

    /// An answer that is too short for the length: nothing is written, and a bad body goes first.
    fn short_answers(&mut self) {
        for (body, number) in [(&b"a"[..], 9), (b"\x80", 1), (&vec![b'a'; LONGEST + 1], 2)] {
            for length in 0..4 {
                let [out, answer] = &mut self.lent;
                let returned = c::raw_write(body, out.lend(16), answer.lend(length));
                self.report.compare(Case {
                    name: NAME,
                    text: b"",
                    given: ("length of the answer", length),
                    rust: None,
                    explained: Some(("answer too short", (number, true, true))),
                    ours: (returned, out.is_as_lent(), answer.is_as_lent()),
                });
            }
        }
    }
}

#[cfg(test)]
mod tests {
    use super::*;

    #[test]
    fn the_least_hashes_are_taken() {
        assert_eq!(literal_of(""), "#\"\"#");
        assert_eq!(literal_of("\"##"), "###\"\"##\"###");
        assert_eq!(literal_of("#\"#"), "##\"#\"#\"##");
    }

    #[test]
    fn refusals_come_in_order() {
        assert_eq!(right(b"\x80", 0), Err((1, "not UTF-8")));
        assert_eq!(right(b"", 3), Err((9, "no room")));
        assert_eq!(right(b"", 4), Ok("#\"\"#".to_string()));
    }
}
