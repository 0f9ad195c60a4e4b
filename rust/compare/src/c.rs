//! The C names of the proved library. The two for the compile tool are those of `stewsatchel`.
//!
//! A slice crosses as a pointer and a length: `&[u8]` is `*const u8, usize` here, `&mut [u8]` is
//! `*mut u8, usize`, each pair where the slice stands among the parameters. Numbers and truth
//! values cross as they are. A safe function over each name lends its slices whole.
//!
//! A number that stands for a place, a length or a token comes out as such. One that stands for
//! none of them is kept as it is, so that it equals no right answer.

use crate::place::Place;
use crate::start::Start;
use oracle::reading::Scanner;

pub use stewsatchel::lent::c::{raw_write, run};

extern "C" {
    fn stew_place(line: u16, column: u16, answer: *mut u8, answer_room: usize) -> u32;
    fn stew_places(
        line: u16,
        column: u16,
        other_line: u16,
        other_column: u16,
        answer: *mut u8,
        answer_room: usize,
    ) -> u32;

    fn stew_record_token(
        token: u8,
        line: u16,
        column: u16,
        last_line: u16,
        last_column: u16,
        previous_line: u16,
        previous_column: u16,
        answer: *mut u8,
        answer_room: usize,
    ) -> u32;

    fn stew_display(
        form: u8,
        line: u16,
        column: u16,
        other_line: u16,
        other_column: u16,
        out: *mut u8,
        room: usize,
    ) -> u64;

    fn stew_operators(token: u8, answer: *mut u8, answer_room: usize) -> u32;

    fn stew_lookup_symbol_from_syntax(text: *const u8, length: usize) -> u64;
    fn stew_literal_syntax(token: u8, out: *mut u8, room: usize) -> u64;
    fn stew_is_valid_identifier(name: *const u8, length: usize) -> bool;
    fn stew_is_doc_comment(comment: *const u8, length: usize) -> bool;

    fn stew_parse_identifier_token(
        text: *const u8,
        length: usize,
        at: usize,
        line: u16,
        column: u16,
        book: *const u8,
        book_length: usize,
        answer: *mut u8,
        answer_room: usize,
    ) -> u32;

    fn stew_scan_block_comment(
        text: *const u8,
        length: usize,
        at: usize,
        line: u16,
        column: u16,
        level: usize,
        answer: *mut u8,
        answer_room: usize,
    ) -> u32;

    fn stew_parse_raw_string_literal(
        text: *const u8,
        length: usize,
        at: usize,
        line: u16,
        column: u16,
        limit: usize,
        out: *mut u8,
        room: usize,
        answer: *mut u8,
        answer_room: usize,
    ) -> u32;
    fn stew_resume_raw_string_literal(
        text: *const u8,
        length: usize,
        at: usize,
        line: u16,
        column: u16,
        hashes: usize,
        limit: usize,
        out: *mut u8,
        room: usize,
        answer: *mut u8,
        answer_room: usize,
    ) -> u32;
    fn stew_parse_string_literal(
        text: *const u8,
        length: usize,
        at: usize,
        line: u16,
        column: u16,
        terminator: u32,
        limit: usize,
        out: *mut u8,
        room: usize,
        answer: *mut u8,
        answer_room: usize,
    ) -> u32;
}

// SAFETY, of every call below: the names are total. They read and write nothing but the slices
// lent, each given by its own pointer and length, and keep none of them.

/// What a refusal's number and "no number" are multiplied by.
const REFUSED: u64 = 1 << 32;

/// The number that says that there is no token.
const NO_TOKEN: u64 = 256;

/// The refusal's number, where there is one.
fn accepted(number: u64) -> Result<u64, u64> {
    match (number / REFUSED, number % REFUSED) {
        (0, accepted) => Ok(accepted),
        (refused, 0) => Err(refused),
        _ => Err(number),
    }
}

pub fn placed(number: u64) -> Result<Place, u64> {
    accepted(number).map(|packed| ((packed >> 16) as u16, packed as u16))
}

fn unless(none: u64, number: u64) -> Option<u64> {
    Some(number).filter(|&number| number != none)
}

pub fn coordinate(number: u64) -> Option<u64> {
    unless(REFUSED, number)
}

pub fn token(number: u64) -> Option<u64> {
    unless(NO_TOKEN, number)
}

pub fn place(at: Place, answer: &mut [u8]) -> u32 {
    unsafe { stew_place(at.0, at.1, answer.as_mut_ptr(), answer.len()) }
}

pub fn places(at: Place, to: Place, answer: &mut [u8]) -> u32 {
    let (answer, room) = (answer.as_mut_ptr(), answer.len());
    unsafe { stew_places(at.0, at.1, to.0, to.1, answer, room) }
}

/// The ends that are found: the last one, and the one before it.
pub fn record_token(token: u8, at: Place, ends: [Place; 2], answer: &mut [u8]) -> u32 {
    let [last, previous] = ends;
    unsafe {
        stew_record_token(
            token,
            at.0,
            at.1,
            last.0,
            last.1,
            previous.0,
            previous.1,
            answer.as_mut_ptr(),
            answer.len(),
        )
    }
}

fn display(form: u8, at: Place, to: Place, out: &mut [u8]) -> Result<u64, u64> {
    let (out, room) = (out.as_mut_ptr(), out.len());
    accepted(unsafe { stew_display(form, at.0, at.1, to.0, to.1, out, room) })
}

/// The second place is not looked at.
pub fn position_display(place: Place, out: &mut [u8]) -> Result<u64, u64> {
    display(0, place, (0, 0), out)
}

/// The second place is not looked at.
pub fn position_debug(place: Place, out: &mut [u8]) -> Result<u64, u64> {
    display(1, place, (0, 0), out)
}

pub fn span_display(start: Place, end: Place, out: &mut [u8]) -> Result<u64, u64> {
    display(2, start, end, out)
}

pub fn operators(token: u8, answer: &mut [u8]) -> u32 {
    unsafe { stew_operators(token, answer.as_mut_ptr(), answer.len()) }
}

pub fn lookup_symbol_from_syntax(text: &[u8]) -> Option<u64> {
    token(unsafe { stew_lookup_symbol_from_syntax(text.as_ptr(), text.len()) })
}

pub fn literal_syntax(token: u8, out: &mut [u8]) -> Result<u64, u64> {
    accepted(unsafe { stew_literal_syntax(token, out.as_mut_ptr(), out.len()) })
}

pub fn is_valid_identifier(name: &[u8]) -> bool {
    unsafe { stew_is_valid_identifier(name.as_ptr(), name.len()) }
}

pub fn is_doc_comment(comment: &[u8]) -> bool {
    unsafe { stew_is_doc_comment(comment.as_ptr(), comment.len()) }
}

pub fn parse_identifier_token(start: Start, book: &[u8], answer: &mut [u8]) -> u32 {
    unsafe {
        stew_parse_identifier_token(
            start.text.as_ptr(),
            start.text.len(),
            start.at,
            start.place.0,
            start.place.1,
            book.as_ptr(),
            book.len(),
            answer.as_mut_ptr(),
            answer.len(),
        )
    }
}

pub fn scan_block_comment(start: Start, level: usize, answer: &mut [u8]) -> u32 {
    unsafe {
        stew_scan_block_comment(
            start.text.as_ptr(),
            start.text.len(),
            start.at,
            start.place.0,
            start.place.1,
            level,
            answer.as_mut_ptr(),
            answer.len(),
        )
    }
}

pub fn scan_literal(
    scan: Scanner,
    start: Start,
    limit: usize,
    out: &mut [u8],
    answer: &mut [u8],
) -> u32 {
    let (text, length) = (start.text.as_ptr(), start.text.len());
    let (at, (line, column)) = (start.at, start.place);
    let (out, room) = (out.as_mut_ptr(), out.len());
    let (row, row_room) = (answer.as_mut_ptr(), answer.len());
    match scan {
        Scanner::Raw => unsafe {
            stew_parse_raw_string_literal(
                text, length, at, line, column, limit, out, room, row, row_room,
            )
        },
        Scanner::Resumed(hashes) => unsafe {
            stew_resume_raw_string_literal(
                text, length, at, line, column, hashes, limit, out, room, row, row_room,
            )
        },
        Scanner::String(terminator) => unsafe {
            stew_parse_string_literal(
                text, length, at, line, column, terminator, limit, out, room, row, row_room,
            )
        },
    }
}

#[cfg(test)]
mod tests {
    use super::*;

    #[test]
    fn numbers_that_stand_for_nothing_are_kept() {
        assert_eq!(placed(65536), Ok((1, 0)));
        assert_eq!(placed(REFUSED - 1), Ok((65535, 65535)));
        assert_eq!(placed(15 * REFUSED), Err(15));
        assert_eq!(placed(15 * REFUSED + 1), Err(15 * REFUSED + 1));
        assert_eq!(placed(u64::MAX), Err(u64::MAX));
        assert_eq!(coordinate(65535), Some(65535));
        assert_eq!(coordinate(REFUSED), None);
        assert_eq!(token(255), Some(255));
        assert_eq!(token(256), None);
        assert_eq!(token(257), Some(257));
    }
}
