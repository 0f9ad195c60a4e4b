//! The check of UTF-8 alone, and that of Rust's core.
//!
//! It has no C name of its own. A run checks the script's length, its UTF-8 and then the book: with
//! no byte of a book it answers 14 there.

use crate::asked::Asked;
use crate::report::Table;
use crate::timing::best;
use oracle::speed::kept;
use std::str;
use stewsatchel::lent::c;

const SIZES: [usize; 3] = [1 << 10, 1 << 16, 1 << 20];

const TEXTS: [(&str, &str); 6] = [
    ("ASCII", "rock awash, seen from the boat. "),
    ("Cyrillic", "камни у мыса, глубина по карте. "),
    ("mixed", "rock камни 水深 у мыса, 7 m 🚢, "),
    ("emoji", "🚢⚓🌊🧭"),
    ("CJK", "水深約三米灯台の南"),
    (
        "one wide in 64",
        "rock awash, seen from the boat é, and held to the station at th.",
    ),
];

pub fn table(asked: &Asked) -> Result<Table, String> {
    let title = "The check of UTF-8 alone, ns a call";
    let mut table = Table::of_pairs(title, "text", "core", &SIZES);
    for (name, part) in TEXTS {
        if !asked.has("UTF-8", name) {
            continue;
        }
        let mut pairs = Vec::new();
        for size in SIZES {
            let text = part.repeat(size / part.len());
            let number = ours(text.as_bytes());
            if number != 14 {
                return Err(format!("UTF-8, {}: the run answers {}", name, number));
            }
            pairs.push(timed(asked, text.as_bytes()));
        }
        table.pairs(name, &pairs);
    }
    Ok(table)
}

fn timed(asked: &Asked, text: &[u8]) -> [f64; 2] {
    best(asked.effort(text.len()), &mut |side, times| {
        for _ in 0..times {
            match side {
                0 => drop(ours(text)),
                _ => {
                    kept(text);
                    kept(&str::from_utf8(text));
                }
            }
        }
    })
}

fn ours(text: &[u8]) -> u32 {
    c::run(text, &[], 0, &mut [], &mut [], &mut [0; 28])
}
