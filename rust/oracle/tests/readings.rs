//! Where a sentence of the requirements can be read in two ways, what the Rust does.
#![cfg(rhai_source)]

use oracle::comment::{is_doc_comment, scan_block_comment};
use oracle::identifier::{by_book, parse_identifier_token, Word};
use oracle::raw::parse_raw_string_literal;
use oracle::string::parse_string_literal;
use oracle::{position, token, Accepted, LexError, Place, Refused};

const OPENER: Place = (1, 1);

type Read = Result<Accepted, Refused>;

fn raw(text: &str) -> Read {
    parse_raw_string_literal(text, 0, OPENER, 0, 0).expect("no panic")
}

fn string(text: &str, terminator: char) -> Read {
    string_at(OPENER, text, terminator)
}

fn string_at(place: Place, text: &str, terminator: char) -> Read {
    parse_string_literal(text, 0, place, terminator, 0).expect("no panic")
}

fn accepted(read: Read) -> Accepted {
    read.expect("no fault")
}

fn refused(read: Read) -> Refused {
    read.expect_err("a fault")
}

#[test]
fn hashes_without_a_quote_are_reported_at_the_first() {
    let read = refused(raw("#é"));
    assert_eq!(read.fault, LexError::UnexpectedInput("é".into()));
    assert_eq!(read.fault.part(), "é");
    assert_eq!(read.place, OPENER);
    assert_eq!((read.offset, read.position), (3, (1, 2)));

    for text in ["", "#"] {
        let read = refused(raw(text));
        assert_eq!(read.fault, LexError::UnterminatedString);
        assert_eq!(read.place, OPENER);
    }
}

#[test]
fn open_literals_at_the_end() {
    assert_eq!(accepted(string("", '`')).position, (1, 2));
    assert_eq!(accepted(string("\n", '`')).position, (2, 1));
    assert_eq!(accepted(string("a\\", '"')).position, (1, 4));
    assert_eq!(accepted(raw("\"")).position, (1, 2));
    for (text, terminator) in [("", '"'), ("", '\''), ("a\\", '\''), ("a\\\n", '"')] {
        let read = refused(string(text, terminator));
        assert_eq!(read.fault, LexError::UnterminatedString);
        assert_eq!((read.place, read.record), (OPENER, None));
    }
}

#[test]
fn column_0_stops_only_a_line_continuation() {
    assert_eq!(accepted(string_at((1, 0), "a'", '\'')).body, "a");
    assert_eq!(accepted(string_at((1, 0), "a\n`", '`')).body, "a\n");
    assert_eq!(accepted(string_at((1, 0), "a\"", '"')).body, "a");
    assert_eq!(parse_string_literal("\\\n\"", 0, (1, 0), '"', 0), None);
}

#[test]
fn first_places() {
    assert_eq!(accepted(string("ab\"", '"')).first, (1, 2));
    assert_eq!(accepted(string("\"\"\"", '"')).first, (1, 3));
    assert_eq!(accepted(string("\n`", '`')).first, (1, 2));
    assert_eq!(accepted(raw("\"\n\"#")).first, (2, 0));
    assert_eq!(accepted(string("\r\n`", '`')).first, (1, 2));
    assert_eq!(accepted(string("\\", '"')).first, (1, 2));
    assert_eq!(accepted(raw("\"\"#")).first, (1, 3));
    for (text, terminator) in [("${", '`'), ("\"", '"'), ("", '`')] {
        assert_eq!(accepted(string(text, terminator)).first, position::NONE);
    }
    assert_eq!(accepted(raw("\"")).first, position::NONE);
}

#[test]
fn numbered_escapes_take_whatever_comes() {
    let read = refused(string("\\x4", '"'));
    assert_eq!(read.fault, LexError::MalformedEscapeSequence("\\x4".into()));
    assert_eq!((read.place, read.position), ((1, 4), (1, 4)));
    for stray in ["\"", "\n", "\r"] {
        let read = refused(string(&format!("\\x{}", stray), '"'));
        let part = format!("\\x{}", stray);
        assert_eq!(read.fault, LexError::MalformedEscapeSequence(part));
        assert_eq!((read.place, read.position), ((1, 4), (1, 4)));
        assert_eq!((read.offset, read.record.as_deref()), (3, Some("\"")));
    }
}

#[test]
fn what_ends_the_skipping_after_a_line_continuation() {
    let body = |place, text| accepted(string_at(place, text, '"')).body;
    // White space past the start's column, a plain character, a doubled terminator.
    assert_eq!(body((1, 1), "\\\n  a\""), " a");
    assert_eq!(body((1, 9), "\\\n  a b\""), "a b");
    assert_eq!(body((1, 9), "\\\n \"\" \""), "\" ");
    // A CR before an LF and an escape do not end it.
    assert_eq!(body((1, 9), "\\\r\n a\\\r\n b\""), "ab");
    assert_eq!(body((1, 9), "\\\n \\t b\""), "\tb");
    // No column is past the last.
    let wide = format!("\\\n{}a\"", " ".repeat(65540));
    assert_eq!(body((1, 65535), &wide), "a");
}

#[test]
fn faults_and_what_stays_on_record() {
    let limited = |text, limit| {
        let read = parse_string_literal(text, 0, OPENER, '`', limit);
        refused(read.expect("no panic"))
    };
    assert_eq!(limited("abc`", 2).record.as_deref(), Some("`"));
    assert_eq!(limited("abc${", 2).record, None);
    assert_eq!(refused(string("a\nb", '"')).position, (1, 2));
    assert_eq!(refused(string("\\q", '"')).record.as_deref(), Some("\""));
}

#[test]
fn apostrophe_follows_the_rule_right_after_its_opener() {
    assert_eq!(accepted(string("'", '\'')).body, "");
    assert_eq!(
        refused(string("''", '\'')).fault,
        LexError::UnterminatedString
    );
    assert_eq!(accepted(string("'''", '\'')).body, "'");
}

#[test]
fn identifiers_take_any_first_character() {
    let word = |text| parse_identifier_token(text, 0, OPENER).map(|scanned| scanned.word);
    let not_in = token::lookup_symbol_from_syntax("!in").expect("a symbol");
    assert_eq!(word("!in"), Some(Word::Token(not_in)));
    let malformed = LexError::MalformedIdentifier("éa".into());
    assert_eq!(word("éa"), Some(Word::LexError(malformed)));
    assert_eq!(word("this "), Some(Word::Reserved("this".into())));
    assert_eq!(word(""), None);

    let scanned = parse_identifier_token("- abc ", 2, (3, 7)).expect("a character");
    assert_eq!(scanned.place, (3, 7));
    assert_eq!((scanned.offset, scanned.position), (5, (3, 9)));
}

#[test]
fn keyword_before_reserved_before_validity() {
    let keyword = Word::Token(49);
    let reserved = |text: &str| Word::Reserved(text.into());
    let malformed = Word::LexError(LexError::MalformedIdentifier("_1".into()));
    assert_eq!(by_book(&keyword, "in", true), keyword);
    assert_eq!(by_book(&malformed, "_1", true), reserved("_1"));
    assert_eq!(by_book(&malformed, "_1", false), malformed);
    // What the source's own list says does not count.
    let name = Word::Identifier("is".into());
    assert_eq!(by_book(&reserved("is"), "is", false), name);
}

#[test]
fn comments_may_pass_the_largest_level_given() {
    let read = scan_block_comment("/*", 0, 65535, OPENER).expect("no panic");
    assert_eq!(read.level, 65536);
    assert!(is_doc_comment("/**/"));
    assert!(!is_doc_comment("/***/"));
    assert!(!is_doc_comment("////"));
}
