//! Words looked up in the list of keywords and symbols.

use crate::asked::Asked;
use crate::report::{nanoseconds, ratio, Table};
use crate::scripts::NAMES;
use crate::timing::best;
use compare::c;
use oracle::{speed, token, words};

const ALMOST: [&str; 8] = [
    "lets",
    "iff",
    "constan",
    "whil",
    "continues",
    "fals",
    "xn",
    "_",
];

pub fn table(asked: &Asked) -> Result<Table, String> {
    let listed = words::keywords().into_iter().map(|word| word.text);
    let listed: Vec<&str> = listed.filter(|text| !text.is_empty()).collect();
    let (letters, symbols): (Vec<&str>, Vec<&str>) = listed
        .iter()
        .partition(|text| text.starts_with(|ch: char| ch.is_ascii_alphabetic()));

    let heads = ["words", "ours", "source", "ratio"];
    let mut table = Table::new("Words looked up in the list, ns a word", heads);
    for (name, words) in [
        ("all that are listed", &listed[..]),
        ("keywords", &letters),
        ("symbols", &symbols),
        ("names", &NAMES),
        ("almost keywords", &ALMOST),
    ] {
        if !asked.has("lookup", name) {
            continue;
        }
        check(words)?;
        let [ours, source] = timed(asked, words);
        table.row(
            name,
            [nanoseconds(ours), nanoseconds(source), ratio(ours / source)],
        );
    }
    Ok(table)
}

fn check(words: &[&str]) -> Result<(), String> {
    for word in words {
        let ours = c::lookup_symbol_from_syntax(word.as_bytes());
        let source = token::lookup_symbol_from_syntax(word).map(u64::from);
        if ours != source || speed::lookup(word) != ours.is_some() {
            return Err(format!("lookup, {:?}: {:?} and {:?}", word, ours, source));
        }
    }
    Ok(())
}

/// The time of one word.
fn timed(asked: &Asked, words: &[&str]) -> [f64; 2] {
    let all: [f64; 2] = best(asked.effort(0), &mut |side, times| {
        for _ in 0..times {
            match side {
                0 => words.iter().for_each(|word| {
                    speed::kept(&c::lookup_symbol_from_syntax(word.as_bytes()));
                }),
                _ => words.iter().for_each(|word| {
                    speed::kept(*word);
                    speed::lookup(word);
                }),
            }
        }
    });
    all.map(|time| time / words.len() as f64)
}
