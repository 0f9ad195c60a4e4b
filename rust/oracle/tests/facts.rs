//! What the requirements state as facts about the Rust, and what the oracle itself rests on.
#![cfg(rhai_source)]

use oracle::{position, run, token, words, Place};
use std::collections::BTreeSet;

/// The number of the token with this name.
fn named(name: &str) -> u32 {
    let mut numbers = 0..token::count();
    let found = numbers.find(|&number| token::name(number).as_deref() == Some(name));
    found.unwrap_or_else(|| panic!("no token {}", name))
}

#[test]
fn every_number_below_the_count_names_a_token() {
    let names: BTreeSet<_> = (0..token::count()).map(token::name).collect();
    assert_eq!(names.len(), token::count() as usize);
    assert!(!names.contains(&None));
    assert_eq!(token::name(token::count()), None);

    let first = [
        "IntegerConstant",
        "FloatConstant",
        "Identifier",
        "CharConstant",
        "StringConstant",
        "InterpolatedString",
        "LeftBrace",
    ];
    assert_eq!(first.map(named), [0, 1, 2, 3, 4, 5, 6]);
    assert_eq!(named("EOF"), token::count() - 1);
}

#[test]
fn words_are_the_entries_of_the_list() {
    let list = words::keywords();
    assert_eq!(list.len(), 153);
    let find = |text: &str| {
        let found = list.iter().find(|place| place.text == text);
        found.filter(|_| !text.is_empty()).map(|place| place.token)
    };
    let mut texts = near(list.iter().map(|place| place.text));
    texts.extend(short_texts());
    for text in texts {
        assert_eq!(
            token::lookup_symbol_from_syntax(&text),
            find(&text),
            "{:?}",
            text
        );
    }
}

#[test]
fn reserved_words_are_the_rows_that_are_on() {
    let rows = words::reserved();
    assert_eq!(rows.len(), 150);
    let find = |text: &str| {
        let mut on = rows
            .iter()
            .filter(|row| row.reserved && !row.text.is_empty());
        let found = on.find(|row| row.text == text);
        found.map_or((false, false, false), |row| {
            (true, row.function, row.function && row.method)
        })
    };
    let mut texts = near(rows.iter().map(|row| row.text));
    texts.extend(short_texts());
    for text in texts {
        assert_eq!(
            words::is_reserved_keyword_or_symbol(&text),
            find(&text),
            "{:?}",
            text
        );
    }
}

/// The words, and each with one character dropped, doubled or made another.
fn near<'a>(words: impl Iterator<Item = &'a str>) -> BTreeSet<String> {
    let mut texts = BTreeSet::new();
    for word in words.filter(|word| !word.is_empty()) {
        texts.insert(word.to_string());
        for at in 0..word.len() {
            let (front, back) = (&word[..at], &word[at + 1..]);
            for middle in ["", &word[at..=at].repeat(2), "x", "_", "é", "\u{ff}"] {
                texts.insert(format!("{}{}{}", front, middle, back));
            }
        }
    }
    texts
}

/// Every text of up to two printable ASCII characters.
fn short_texts() -> BTreeSet<String> {
    let mut texts = BTreeSet::from([String::new()]);
    for _ in 0..2 {
        let longer = |text: &String| {
            let text = text.clone();
            (' '..='~').map(move |last| format!("{}{}", text, last))
        };
        let next: Vec<_> = texts.iter().flat_map(longer).collect();
        texts.extend(next);
    }
    texts
}

#[test]
fn syntax_looks_up_as_its_token() {
    let unary = [("UnaryPlus", "Plus"), ("UnaryMinus", "Minus")];
    let unary = unary.map(|(sign, plain)| (named(sign), named(plain)));
    let listed: BTreeSet<_> = words::keywords().iter().map(|place| place.token).collect();

    for number in 0..token::count() {
        let syntax = token::literal_syntax(number);
        let found = syntax.and_then(token::lookup_symbol_from_syntax);
        let sign = unary.iter().find(|(sign, _)| *sign == number);
        if let Some((_, plain)) = sign {
            assert_eq!(found, Some(*plain));
        } else if listed.contains(&number) && number != named("EOF") {
            assert_eq!(found, Some(number));
        } else {
            assert_eq!(syntax, None);
        }
    }
}

#[test]
fn eleven_operators_and_their_assignments_invert_each_other() {
    let numbers = || 0..token::count();
    assert_eq!(
        numbers().filter(|&n| token::has_op_assignment(n)).count(),
        11
    );
    assert_eq!(
        numbers().filter(|&n| token::is_op_assignment(n)).count(),
        11
    );
    for number in numbers() {
        let assignment = token::convert_to_op_assignment(number);
        assert_eq!(assignment.is_some(), token::has_op_assignment(number));
        if let Some(assignment) = assignment {
            assert!(token::is_op_assignment(assignment));
            assert_eq!(token::get_base_op_from_assignment(assignment), Some(number));
        }
    }
    let right: Vec<_> = numbers().filter(|&n| token::is_bind_right(n)).collect();
    assert_eq!(right, [named("PowerOf")]);
}

#[test]
fn positions_panic_and_saturate() {
    let top: Place = (65535, 65535);
    assert_eq!(position::new(0, 1), None);
    assert_eq!(position::advance(position::NONE), None);
    assert_eq!(position::new_line(position::NONE), None);
    assert_eq!(position::rewind(position::START), None);
    assert_eq!(position::advance(top), Some(top));
    assert_eq!(position::new_line(top), Some((65535, 0)));

    // A place on line 0 that is not NONE moves.
    assert_eq!(position::advance((0, 1)), Some((0, 2)));
    assert_eq!(position::new_line((0, 1)), Some((1, 0)));
}

#[test]
fn sums_are_checked_for_overflow() {
    assert_eq!(position::add((2, 3), position::NONE), Some((2, 3)));
    assert_eq!(position::add((2, 3), (4, 0)), Some((5, 3)));
    assert_eq!(position::add((2, 3), (4, 5)), Some((5, 7)));
    assert_eq!(position::add((65535, 1), (1, 1)), None);
    assert_eq!(position::add((1, 65535), (1, 1)), None);
    // A place that is none, out of a sum with line 0.
    assert_eq!(position::add((0, 0), (1, 1)), Some((0, 0)));
}

#[test]
fn forms_of_positions_and_spans() {
    assert_eq!(position::display((1, 2)), "line 1, position 2");
    assert_eq!(position::display(position::NONE), "none");
    assert_eq!(position::debug(position::START), "1");
    assert_eq!(position::debug((0, 5)), "0:5");
    assert_eq!(position::span_display((1, 9), (1, 15)), "1:9-15");
    assert_eq!(position::span_display((1, 9), (2, 0)), "1:9-2");
    assert_eq!(position::span_display((0, 0), (2, 3)), "..2:3");
    assert_eq!(position::span_start((1, 9), (2, 3)), (1, 9));
    assert_eq!(position::span_end((1, 9), (2, 3)), (2, 3));
    assert!(position::span_is_none(position::NONE, position::NONE));
    assert!(!position::span_is_none(position::NONE, (0, 1)));
}

#[test]
fn white_space_is_the_unicode_property() {
    let ranges = [
        '\u{9}'..='\u{d}',
        '\u{20}'..='\u{20}',
        '\u{85}'..='\u{85}',
        '\u{a0}'..='\u{a0}',
        '\u{1680}'..='\u{1680}',
        '\u{2000}'..='\u{200a}',
        '\u{2028}'..='\u{2028}',
        '\u{2029}'..='\u{2029}',
        '\u{202f}'..='\u{202f}',
        '\u{205f}'..='\u{205f}',
        '\u{3000}'..='\u{3000}',
    ];
    for ch in '\0'..=char::MAX {
        let white = ranges.iter().any(|range| range.contains(&ch));
        assert_eq!(ch.is_whitespace(), white, "{:?}", ch);
    }
}

#[test]
fn comments_leave_the_last_end_alone() {
    let ends = run::Ends {
        last: (1, 4),
        previous: (1, 2),
    };
    let comment = run::record_token(ends, named("Comment"), (1, 9)).expect("no panic");
    assert_eq!((comment.last, comment.previous), ((1, 4), (1, 4)));
    let plus = run::record_token(ends, named("Plus"), (1, 9)).expect("no panic");
    assert_eq!((plus.last, plus.previous), ((1, 10), (1, 4)));
    assert_eq!(run::record_token(ends, named("Plus"), position::NONE), None);
}

#[test]
fn the_source_runs_over_a_whole_script() {
    let listed = |script: &str| -> Vec<_> {
        let tokens = run::tokens(script).expect("no panic");
        let shown = tokens.into_iter().map(|(number, place)| {
            let name = token::name(number).expect("a token");
            format!("{} {}", position::debug(place), name)
        });
        shown.collect()
    };
    assert_eq!(
        listed("let d = #\"a\"b\"#;\n"),
        [
            "1:1 Let",
            "1:5 Identifier",
            "1:7 Equals",
            "1:9 StringConstant",
            "1:16 SemiColon",
            "2:1 EOF"
        ]
    );
    assert_eq!(
        listed("`a${ #{} }b`"),
        [
            "1:1 InterpolatedString",
            "1:4 LeftBrace",
            "1:6 MapStart",
            "1:8 RightBrace",
            "1:10 RightBrace",
            "1:11 StringConstant",
            "1:13 EOF"
        ]
    );
}
