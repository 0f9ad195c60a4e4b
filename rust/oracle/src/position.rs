//! `Position` and `Span`, over places as they are stored.

use crate::caught::caught;
use crate::types::position::access::{from_pair, to_pair};
use crate::types::{Position, Span};
use crate::Place;

pub const NONE: Place = to_pair(Position::NONE);
pub const START: Place = to_pair(Position::START);

pub fn new(line: u16, position: u16) -> Option<Place> {
    caught(|| to_pair(Position::new(line, position)))
}

pub fn line(place: Place) -> Option<usize> {
    from_pair(place).line()
}

pub fn position(place: Place) -> Option<usize> {
    from_pair(place).position()
}

pub fn advance(place: Place) -> Option<Place> {
    moved(place, Position::advance)
}

pub fn rewind(place: Place) -> Option<Place> {
    moved(place, Position::rewind)
}

pub fn new_line(place: Place) -> Option<Place> {
    moved(place, Position::new_line)
}

fn moved(place: Place, step: fn(&mut Position)) -> Option<Place> {
    let mut place = from_pair(place);
    caught(|| {
        step(&mut place);
        to_pair(place)
    })
}

pub fn is_beginning_of_line(place: Place) -> bool {
    from_pair(place).is_beginning_of_line()
}

pub fn is_none(place: Place) -> bool {
    from_pair(place).is_none()
}

pub fn or_else(place: Place, fallback: Place) -> Place {
    to_pair(from_pair(place).or_else(from_pair(fallback)))
}

pub fn add(left: Place, right: Place) -> Option<Place> {
    caught(|| to_pair(from_pair(left) + from_pair(right)))
}

/// The Display form, as `line 1, position 2`.
pub fn display(place: Place) -> String {
    from_pair(place).to_string()
}

/// The Debug form, as `1:2`.
pub fn debug(place: Place) -> String {
    format!("{:?}", from_pair(place))
}

/// A span's Display form, as `1:2-3`. Its Debug form is the same.
pub fn span_display(start: Place, end: Place) -> String {
    Span::new(from_pair(start), from_pair(end)).to_string()
}

pub fn span_start(start: Place, end: Place) -> Place {
    to_pair(Span::new(from_pair(start), from_pair(end)).start())
}

pub fn span_end(start: Place, end: Place) -> Place {
    to_pair(Span::new(from_pair(start), from_pair(end)).end())
}

pub fn span_is_none(start: Place, end: Place) -> bool {
    Span::new(from_pair(start), from_pair(end)).is_none()
}
