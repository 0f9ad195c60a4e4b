//! `Position` and `Span`: every function at the edges and at random, every form in every room.

use crate::c;
use crate::lent::{compare_short_answers, compare_written, row};
use crate::place::{edges, Place};
use crate::random::Random;
use crate::report::{Case, Report};
use crate::size::Size;
use crate::start::{Refusal, LINE_0};
use oracle::position as rust;

pub fn run(report: &mut Report, size: Size) {
    let edges = edges();
    for &place in &edges {
        one_place(report, place);
        for &other in &edges {
            two_places(report, place, other);
        }
    }

    let mut random = Random::new(1);
    for _ in 0..size.of(3_000, 1_000_000) {
        let place = random_place(&mut random);
        one_place(report, place);
        two_places(report, place, random_place(&mut random));
    }

    let at = (3, 7);
    compare_short_answers(report, "place", 8, 9, |answer| (c::place(at, answer), true));
    compare_short_answers(report, "places", 5, 9, |answer| {
        (c::places(at, at, answer), true)
    });
}

/// Numbers of every length come equally often.
fn random_place(random: &mut Random) -> Place {
    let mut number = || random.number() as u16 >> random.below(16);
    (number(), number())
}

/// What is told of a place, field by field as it crosses.
struct OfOne {
    /// In the order of `MOVES`.
    moves: [Result<Place, u64>; 4],
    line: Option<u64>,
    position: Option<u64>,
    is_beginning_of_line: u64,
    is_none: u64,
}

impl From<[u64; 8]> for OfOne {
    fn from(row: [u64; 8]) -> Self {
        Self {
            moves: [row[0], row[5], row[6], row[7]].map(c::placed),
            line: c::coordinate(row[1]),
            position: c::coordinate(row[2]),
            is_beginning_of_line: row[3],
            is_none: row[4],
        }
    }
}

/// What is told of two places, and of the span between them.
struct OfTwo {
    or_else: Result<Place, u64>,
    sum: Result<Place, u64>,
    start: Result<Place, u64>,
    end: Result<Place, u64>,
    is_none: u64,
}

impl From<[u64; 5]> for OfTwo {
    fn from([or_else, sum, start, end, is_none]: [u64; 5]) -> Self {
        Self {
            or_else: c::placed(or_else),
            sum: c::placed(sum),
            start: c::placed(start),
            end: c::placed(end),
            is_none,
        }
    }
}

type Move = (&'static str, fn(Place) -> Asked, fn(Place) -> Option<Place>);

const MOVES: [Move; 4] = [
    ("position_new", Asked::New, new),
    ("position_advance", Asked::Advance, rust::advance),
    ("position_rewind", Asked::Rewind, rust::rewind),
    ("position_new_line", Asked::NewLine, rust::new_line),
];

fn new((line, column): Place) -> Option<Place> {
    rust::new(line, column)
}

type Form = (
    &'static str,
    fn(Place) -> String,
    fn(Place, &mut [u8]) -> Result<u64, u64>,
);

const FORMS: [Form; 2] = [
    ("position_display", rust::display, c::position_display),
    ("position_debug", rust::debug, c::position_debug),
];

fn one_place(report: &mut Report, at: Place) {
    let ours: OfOne = row(|answer| c::place(at, answer));
    for ((name, asked, rust), ours) in MOVES.into_iter().zip(ours.moves) {
        placed(report, name, asked(at), rust(at), ours);
    }
    for (name, rust, ours) in FORMS {
        compare_written(report, name, at, Some(&rust(at)), |out| ours(at, out));
    }
    let line = rust::line(at).map(|line| line as u64);
    report.same("position_line", at, line, ours.line);
    let column = rust::position(at).map(|column| column as u64);
    report.same("position_position", at, column, ours.position);
    let begins = rust::is_beginning_of_line(at).into();
    let name = "position_is_beginning_of_line";
    report.same(name, at, begins, ours.is_beginning_of_line);
    let is_none = rust::is_none(at).into();
    report.same("position_is_none", at, is_none, ours.is_none);
}

fn two_places(report: &mut Report, at: Place, to: Place) {
    let ours: OfTwo = row(|answer| c::places(at, to, answer));
    let sum = rust::add(at, to);
    placed(report, "position_sum", Asked::Sum(at, to), sum, ours.sum);

    let places = (at, to);
    let other = Ok(rust::or_else(at, to));
    report.same("position_or_else", places, other, ours.or_else);
    let start = Ok(rust::span_start(at, to));
    report.same("span_start", places, start, ours.start);
    let end = Ok(rust::span_end(at, to));
    report.same("span_end", places, end, ours.end);
    let is_none = rust::span_is_none(at, to).into();
    report.same("span_is_none", places, is_none, ours.is_none);

    let display = rust::span_display(at, to);
    compare_written(report, "span_display", places, Some(&display), |out| {
        c::span_display(at, to, out)
    });
}

/// What may be refused.
#[derive(Debug, Clone, Copy)]
enum Asked {
    New(Place),
    Advance(Place),
    Rewind(Place),
    NewLine(Place),
    Sum(Place, Place),
}

/// The refusal that document 01 asks for where the Rust panics, wraps, or goes on from line 0.
fn explained(asked: Asked) -> Option<Refusal> {
    use Asked::*;

    match asked {
        New((0, _)) | Advance((0, _)) | NewLine((0, _)) | Rewind((0, _)) => Some(LINE_0),
        Rewind((_, 0)) => Some(Refusal::new(3, "rewind at column 0")),
        Sum(_, (0, 0)) => None,
        Sum((0, _), _) | Sum(_, (0, _)) => Some(Refusal::new(15, "sum with line 0")),
        Sum(left, right) => {
            let line = left.0.checked_add(right.0);
            let column = left.1.checked_add(right.1);
            let passes = line.is_none() || (right.1 != 0 && column.is_none());
            passes.then_some(Refusal::new(15, "sum past 65,535"))
        }
        _ => None,
    }
}

fn placed(
    report: &mut Report,
    name: &'static str,
    asked: Asked,
    rust: Option<Place>,
    ours: Result<Place, u64>,
) {
    report.compare(Case {
        name,
        text: b"",
        given: asked,
        rust: rust.map(Ok),
        explained: explained(asked).map(|refusal| (refusal.why, Err(refusal.number))),
        ours,
    });
}

#[cfg(test)]
mod tests {
    use super::*;

    fn number(asked: Asked) -> Option<u64> {
        explained(asked).map(|refusal| refusal.number)
    }

    #[test]
    fn places_on_line_0_do_not_move() {
        assert_eq!(number(Asked::New((0, 1))), Some(3));
        assert_eq!(number(Asked::Advance((0, 1))), Some(3));
        assert_eq!(number(Asked::NewLine((0, 0))), Some(3));
        assert_eq!(number(Asked::Rewind((0, 1))), Some(3));
        assert_eq!(number(Asked::Rewind((1, 0))), Some(3));
        assert_eq!(number(Asked::Rewind((1, 1))), None);
        assert_eq!(number(Asked::Advance((65535, 65535))), None);
    }

    #[test]
    fn sums_are_bounded_before_their_minus_one() {
        let sum = |left, right| number(Asked::Sum(left, right));
        assert_eq!(sum((0, 0), (0, 0)), None);
        assert_eq!(sum((0, 0), (1, 0)), Some(15));
        assert_eq!(sum((1, 0), (0, 1)), Some(15));
        assert_eq!(sum((65534, 0), (1, 0)), None);
        assert_eq!(sum((65535, 0), (1, 0)), Some(15));
        assert_eq!(sum((1, 65534), (1, 1)), None);
        assert_eq!(sum((1, 65535), (1, 1)), Some(15));
        assert_eq!(sum((1, 65535), (1, 0)), None);
    }
}
