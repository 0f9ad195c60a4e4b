//! Where the last tokens ended: `record_token` of every token, at the edges and at random.

use crate::c;
use crate::lent::{compare_short_answers, Told};
use crate::place::{Packed, Place};
use crate::random::Random;
use crate::report::{Case, Report, Why};
use crate::size::Size;
use crate::start::LINE_0;
use oracle::run::{self as rust, Ends};
use oracle::token;

const NAME: &str = "record_token";

/// Where a line or a column is 0, 1 or close to the largest.
const EDGES: [u16; 5] = [0, 1, 2, 65_534, 65_535];

/// Comment and EOF, which leave the last end alone; tokens that do not, the first and the last of
/// them; and numbers that name none.
const TOKENS: [u8; 8] = [COMMENT, EOF, 0, PLUS, 89, 91, 92, 255];

const PLUS: u8 = 13;
const COMMENT: u8 = 86;
const EOF: u8 = 90;

pub fn run(report: &mut Report, size: Size) {
    let places = edges();
    for &place in &places {
        for &last in &places {
            for &previous in &places {
                let ends = Ends { last, previous };
                each(report, &TOKENS, ends, place);
            }
        }
    }
    let every: Vec<u8> = (0..=255).collect();
    for &place in &places {
        let ends = Ends {
            last: (3, 7),
            previous: (2, 65_535),
        };
        each(report, &every, ends, place);
    }

    let mut random = Random::new(3);
    for _ in 0..size.of(20_000, 1_000_000) {
        let token = random.number() as u8;
        let [place, last, previous] = [(); 3].map(|()| random_place(&mut random));
        compare(report, token, Ends { last, previous }, place);
    }
    compare_short_answers(report, NAME, 3, 9, |answer| {
        let ends = [(3, 7), (3, 5)];
        (c::record_token(PLUS, (3, 9), ends, answer), true)
    });
}

fn edges() -> Vec<Place> {
    let lines = EDGES.iter();
    lines
        .flat_map(|&line| EDGES.iter().map(move |&column| (line, column)))
        .collect()
}

/// Numbers of every length come equally often.
fn random_place(random: &mut Random) -> Place {
    let mut number = || random.number() as u16 >> random.below(17).min(15);
    (number(), number())
}

fn each(report: &mut Report, tokens: &[u8], ends: Ends, place: Place) {
    for &token in tokens {
        compare(report, token, ends, place);
    }
}

/// What is told of a token that is recorded, field by field as it crosses.
#[derive(Debug, Clone, Copy, PartialEq, Eq)]
struct Recorded {
    number: u64,
    last: Packed,
    previous: Packed,
}

impl From<[u64; 3]> for Recorded {
    fn from([number, last, previous]: [u64; 3]) -> Self {
        Self {
            number,
            last: Packed(last),
            previous: Packed(previous),
        }
    }
}

impl From<Ends> for Recorded {
    fn from(ends: Ends) -> Self {
        Self {
            number: 0,
            last: ends.last.into(),
            previous: ends.previous.into(),
        }
    }
}

/// The answer that document 01 asks for where the Rust panics or moves on line 0; and that of any
/// token for a number that names none, which cannot be put to the Rust.
fn explained(number: u8, ends: Ends, place: Place) -> Option<(Why, Recorded)> {
    if number == COMMENT || number == EOF {
        return None;
    }
    if place.0 == 0 {
        return Some((LINE_0.why, Recorded::from([LINE_0.number, 0, 0])));
    }
    if u32::from(number) < token::count() {
        return None;
    }
    let recorded = rust::record_token(ends, PLUS.into(), place)?;
    Some(("number that names no token", recorded.into()))
}

fn compare(report: &mut Report, token: u8, ends: Ends, place: Place) {
    let right = |row: Recorded| Told::right(row.number, row);
    let recorded = rust::record_token(ends, token.into(), place);
    report.compare(Case {
        name: NAME,
        text: b"",
        given: (token, ends, place),
        rust: recorded.map(|ends| right(ends.into())),
        explained: explained(token, ends, place).map(|(why, row)| (why, right(row))),
        ours: Told::by(|answer| c::record_token(token, place, [ends.last, ends.previous], answer)),
    });
}

#[cfg(test)]
mod tests {
    use super::*;

    #[test]
    fn tokens_have_their_numbers() {
        let named = |number: u8| token::name(number.into());
        assert_eq!(named(PLUS).as_deref(), Some("Plus"));
        assert_eq!(named(COMMENT).as_deref(), Some("Comment"));
        assert_eq!(named(EOF).as_deref(), Some("EOF"));
        assert_eq!(named(91), None);
    }

    #[test]
    fn what_does_not_move_is_not_refused() {
        let ends = Ends {
            last: (0, 0),
            previous: (0, 0),
        };
        let number =
            |token, place| explained(token, ends, place).map(|(_, recorded)| recorded.number);
        assert_eq!(number(COMMENT, (0, 0)), None);
        assert_eq!(number(EOF, (0, 1)), None);
        assert_eq!(number(PLUS, (0, 1)), Some(3));
        assert_eq!(number(255, (0, 1)), Some(3));
        assert_eq!(number(91, (1, 0)), Some(0));
        assert_eq!(number(PLUS, (1, 0)), None);
    }
}
