//! The checked examples of the requirements that concern carried functions. Scans start after the
//! opener, which stands at 1:1 where the example names no place.
#![cfg(rhai_source)]

use oracle::comment::scan_block_comment;
use oracle::identifier::{parse_identifier_token, Word};
use oracle::raw::parse_raw_string_literal;
use oracle::string::parse_string_literal;
use oracle::{token, Accepted, LexError, Place, Refused};

const OPENER: Place = (1, 1);

fn raw(text: &str, place: Place, hash_count: usize) -> Accepted {
    let read = parse_raw_string_literal(text, 0, place, hash_count, 0);
    read.expect("no panic").expect("no fault")
}

fn string(text: &str, terminator: char, limit: usize) -> Result<Accepted, Refused> {
    parse_string_literal(text, 0, OPENER, terminator, limit).expect("no panic")
}

fn body(text: &str, terminator: char) -> String {
    string(text, terminator, 0).expect("no fault").body
}

fn fault(text: &str, limit: usize) -> LexError {
    string(text, '"', limit).expect_err("a fault").fault
}

fn word(text: &str) -> Word {
    let scanned = parse_identifier_token(text, 0, OPENER);
    scanned.expect("a character").word
}

#[test]
fn raw_literal_with_a_quote_inside() {
    let read = raw(r##""a"b"#;"##, OPENER, 0);
    assert_eq!(read.body, r#"a"b"#);
    assert_eq!(read.offset, 6);
    assert_eq!(read.record, None);
}

#[test]
fn resumed_raw_literal_with_too_few_hashes_inside() {
    assert_eq!(raw(r###""#"##"###, OPENER, 2).body, r##""#"##);
}

#[test]
fn resumed_raw_literal_left_open_drops_its_pending_quote() {
    let read = raw(r#"ab""#, OPENER, 1);
    assert_eq!(read.body, "ab");
    assert_eq!(read.record.as_deref(), Some("#"));
}

#[test]
fn new_line_after_a_quote_of_a_raw_literal_starts_no_line() {
    assert_eq!(raw("\"\nx\"#", (1, 3), 1).position, (1, 8));
    assert_eq!(raw("\nx\"#", (1, 3), 1).position, (2, 3));
}

#[test]
fn doubled_terminator_gives_itself() {
    assert_eq!(body(r#"a""b""#, '"'), r#"a"b"#);
}

#[test]
fn numbered_escapes_are_encoded() {
    let bytes = body(r#"\x41\u00e9""#, '"').into_bytes();
    assert_eq!(bytes, [0x41, 0xc3, 0xa9]);
}

#[test]
fn surrogates_and_numbers_that_are_too_large_are_malformed() {
    for escape in [r"\uD800", r"\U00110000"] {
        let text = format!("{}\"", escape);
        let expected = LexError::MalformedEscapeSequence(escape.into());
        assert_eq!(fault(&text, 0), expected);
    }
}

#[test]
fn limit_counts_and_is_not_tested_where_the_end_is_a_fault() {
    assert!(string(r#"abc""#, '"', 3).is_ok());
    assert_eq!(fault(r#"abc""#, 2), LexError::StringTooLong(2));
    assert_eq!(fault("abc", 2), LexError::UnterminatedString);
    assert_eq!(fault("abc", 1), LexError::StringTooLong(1));
}

#[test]
fn escaped_interpolation_counts_one_column_for_both() {
    let read = string(r"a\${b`", '`', 0).expect("no fault");
    assert_eq!(read.body, "a${b");
    assert_eq!(read.position, (1, 6));
}

#[test]
fn comment_marks_are_eaten_whole() {
    let read = scan_block_comment("/*/ */*/x", 0, 1, OPENER).expect("no panic");
    assert_eq!(read.level, 0);
    assert_eq!(read.offset, 8);
}

#[test]
fn underscores_need_a_letter() {
    for text in ["_1", "__"] {
        let expected = Word::LexError(LexError::MalformedIdentifier(text.into()));
        assert_eq!(word(text), expected);
    }
    assert_eq!(word("_a1"), Word::Identifier("_a1".into()));

    let underscore = token::lookup_symbol_from_syntax("_").expect("a symbol");
    assert_eq!(word("_"), Word::Token(underscore));
    assert_eq!(token::name(underscore).as_deref(), Some("Underscore"));
}

#[test]
fn written_raw_literal_reads_back() {
    let written = r####"###""##"###"####;
    let read = parse_raw_string_literal(written, 1, OPENER, 0, 0);
    let read = read.expect("no panic").expect("no fault");
    assert_eq!(read.body, r###""##"###);
    assert_eq!(read.offset, written.len());
    assert_eq!(read.record, None);
}
