//! Tokens by their numbers, and words by their texts.

use crate::c;
use crate::lent::{compare_short_answers, compare_written, row};
use crate::random::Random;
use crate::report::{Case, Report};
use crate::size::Size;
use crate::texts::{each_edit, each_list};
use oracle::{token as rust, words};
use std::str;

pub fn run(report: &mut Report, size: Size) {
    for number in 0..=255 {
        operators(report, number);
        let syntax = rust::literal_syntax(number.into());
        compare_written(report, "literal_syntax", number, syntax, |out| {
            c::literal_syntax(number, out)
        });
    }
    compare_short_answers(report, "operators", 9, 9, |answer| {
        (c::operators(0, answer), true)
    });
    short_texts(report, size);
    near_words(report);
    random_texts(report, size);
}

/// What is told of a token, field by field as it crosses.
struct Operators {
    precedence: u64,
    base: Option<u64>,
    assignment: Option<u64>,
    /// In the order of `TESTS`.
    tests: [u64; 6],
}

impl From<[u64; 9]> for Operators {
    fn from([precedence, base, assignment, tests @ ..]: [u64; 9]) -> Self {
        Self {
            precedence,
            base: c::token(base),
            assignment: c::token(assignment),
            tests,
        }
    }
}

type Test = (&'static str, fn(u32) -> bool);

const TESTS: [Test; 6] = [
    ("is_bind_right", rust::is_bind_right),
    ("is_op_assignment", rust::is_op_assignment),
    ("has_op_assignment", rust::has_op_assignment),
    ("is_literal", rust::is_literal),
    ("is_standard_symbol", rust::is_standard_symbol),
    ("is_standard_keyword", rust::is_standard_keyword),
];

fn operators(report: &mut Report, number: u8) {
    let ours: Operators = row(|answer| c::operators(number, answer));

    let precedence = rust::precedence(number.into()).unwrap_or(0).into();
    report.same("precedence", number, precedence, ours.precedence);

    let base = rust::get_base_op_from_assignment(number.into()).map(u64::from);
    report.same("get_base_op_from_assignment", number, base, ours.base);

    let assignment = rust::convert_to_op_assignment(number.into()).map(u64::from);
    let name = "convert_to_op_assignment";
    report.same(name, number, assignment, ours.assignment);

    for ((name, test), ours) in TESTS.into_iter().zip(ours.tests) {
        report.same(name, number, test(number.into()).into(), ours);
    }
}

/// Every punctuation mark of ASCII, and the letters of the words that have two.
const ALPHABET: &[u8] = b"!\"#$%&'()*+,-./:;<=>?@[\\]^_`{|}~adfinos";

fn short_texts(report: &mut Report, size: Size) {
    each_list(ALPHABET, size.of(3, 4), &mut |text| lookup(report, text));
}

/// The words of the source's list, each once.
pub fn listed() -> impl Iterator<Item = &'static str> {
    let texts = words::keywords().into_iter().map(|place| place.text);
    texts.filter(|text| !text.is_empty())
}

fn near_words(report: &mut Report) {
    for word in listed() {
        each_edit(word.as_bytes(), &mut |edit| lookup(report, edit));
    }
}

/// Words one after the other, whole or damaged.
fn random_texts(report: &mut Report, size: Size) {
    let mut random = Random::new(2);
    let words: Vec<&str> = listed().collect();
    for _ in 0..size.of(10_000, 2_000_000) {
        let text = random.text(&words, 4);
        lookup(report, text.as_bytes());
        let damaged = random.damaged(text.as_bytes());
        lookup(report, &damaged);
    }
}

fn lookup(report: &mut Report, text: &[u8]) {
    let asked = str::from_utf8(text).ok();
    let looked_up = |text| rust::lookup_symbol_from_syntax(text).map(u64::from);
    report.compare(Case {
        name: "lookup_symbol_from_syntax",
        text,
        given: (),
        rust: asked.map(looked_up),
        explained: explained(text).map(|answer| ("not UTF-8", answer)),
        ours: c::lookup_symbol_from_syntax(text),
    });
}

/// What is no text cannot be put to the Rust. It stands in no list, so it is no word.
fn explained(text: &[u8]) -> Option<Option<u64>> {
    str::from_utf8(text).is_err().then_some(None)
}

#[cfg(test)]
mod tests {
    use super::*;

    #[test]
    fn what_is_no_text_is_no_word() {
        assert_eq!(explained(b"let\xff"), Some(None));
        assert_eq!(explained(b"let"), None);
    }

    #[test]
    fn the_alphabet_has_what_short_words_are_made_of() {
        let short = || listed().filter(|word| word.len() < 3);
        assert!(short().count() > 40);
        for word in short() {
            assert!(
                word.bytes().all(|byte| ALPHABET.contains(&byte)),
                "{}",
                word
            );
        }
    }
}
