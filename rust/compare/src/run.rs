//! Runs over whole scripts.

use crate::book::{bad_books, Book};
use crate::random::Random;
use crate::report::Report;
use crate::runs::{Question, Runs, Whole, ANSWER};
use crate::scripts::random_script;
use crate::size::Size;
use crate::start::{LONGEST, TEXTS};
use crate::texts::{each_edit, each_text};
use oracle::script::{Bounds, Script};
use stewsatchel::lent::ENTRY;

/// What a run tells apart.
const TOGETHER: [char; 14] = [
    '"', '\'', '`', '$', '{', '}', '#', '/', '*', '\\', '\n', 'a', '1', ' ',
];

/// What some of its tokens tell apart; the longest texts of it in a share, and in everything.
const ALPHABETS: [(&[char], usize, usize); 6] = [
    (&['`', '$', '{', '}', 'a'], 6, 8),
    (&['#', '"', '{', '}', '\n', 'a'], 4, 6),
    (&['/', '*', '\n', '\r', 'a'], 5, 7),
    (&['\'', '"', '\\', 'x', '4', 'é'], 4, 6),
    (&['!', 'i', 'n', '_', '1', 'é'], 4, 6),
    (&['=', '.', '<', '*', '?', '(', ')', ':', '-'], 3, 5),
];

/// The empty book.
const EMPTY: &[u8] = &[0, 0];

pub fn run(report: &mut Report, size: Size) {
    // Listed words, names, words that are no names, and what no identifier is.
    let words = ["!", "1", "_", "_1", "__", "a1", "go", "let", "~"];
    let book = Book::of(words.map(|word| (word, 3))).bytes;
    let mut runs = Runs::new(report);
    short_texts(&mut runs, &book, size);
    random_scripts(&mut runs, &book, size);
    damaged_scripts(&mut runs, &book, size);
    every_room(&mut runs, &book, size);
    deep_scripts(&mut runs, &book);
    long_scripts(&mut runs, size);
    books(&mut runs);
    refused(&mut runs);
}

fn short_texts(runs: &mut Runs, book: &[u8], size: Size) {
    each_text(&TOGETHER, size.of(3, 5), &mut |text| {
        runs.cuts(text.as_bytes(), book);
    });
    for (alphabet, share, all) in ALPHABETS {
        each_text(alphabet, size.of(share, all), &mut |text| {
            runs.cuts(text.as_bytes(), book);
        });
    }
    each_text(&TOGETHER, size.of(4, 6), &mut |text| {
        let whole = Whole::new(text.as_bytes(), book);
        runs.cut(&whole, whole.bounds);
    });
}

/// Scripts, a quarter of them damaged: with enough of everything, with too little of one thing, and
/// with too little of all.
fn random_scripts(runs: &mut Runs, book: &[u8], size: Size) {
    let mut random = Random::new(1);
    for _ in 0..size.of(6_000, 600_000) {
        let mut text = random_script(&mut random, 40).into_bytes();
        if random.below(4) == 0 {
            text = random.damaged(&text);
        }
        let whole = Whole::new(&text, random.one_of(&[book, EMPTY]));
        for bounds in random_bounds(&mut random, &whole) {
            let question = Question {
                book: whole.book,
                bounds,
                over: random.below(ENTRY),
                answer: random.one_of(&[ANSWER, ANSWER + 1, 40]),
            };
            runs.compare(&text, question, &whole.script.cut(bounds));
        }
    }
}

fn random_bounds(random: &mut Random, whole: &Whole) -> [Bounds; 5] {
    let ample = whole.bounds;
    // The last one has a lower half that is 1.
    let limit = random.one_of(&[0, 1, 2, 3, 4, 5, 6, 9, usize::MAX, 1 << 32 | 1]);
    let literals = random.below(whole.left.literals.len() + 2);
    let entries = random.below(whole.left.entries.len() + 2);
    [
        ample,
        Bounds { limit, ..ample },
        Bounds { literals, ..ample },
        Bounds { entries, ..ample },
        Bounds {
            limit,
            literals,
            entries,
        },
    ]
}

/// Scripts cut off at every length, and with another byte at every place.
fn damaged_scripts(runs: &mut Runs, book: &[u8], size: Size) {
    let mut random = Random::new(2);
    for _ in 0..size.of(10, 2_000) {
        let mut text = random_script(&mut random, 40).into_bytes();
        for at in 0..text.len() {
            runs.whole(&text[..at], book);
            let byte = text[at];
            text[at] = random.number().to_le_bytes()[7];
            runs.whole(&text, book);
            text[at] = byte;
        }
    }
}

/// Short scripts under limits from 0 to 6, in every room from 0 to two more than enough.
fn every_room(runs: &mut Runs, book: &[u8], size: Size) {
    let mut random = Random::new(3);
    for _ in 0..size.of(60, 5_000) {
        let text = random_script(&mut random, 6);
        let whole = Whole::new(text.as_bytes(), book);
        let most = (whole.left.literals.len() + 2, whole.left.entries.len() + 2);
        for limit in 0..=6 {
            for literals in 0..=most.0 {
                for entries in 0..=most.1 {
                    let bounds = Bounds {
                        limit,
                        literals,
                        entries,
                    };
                    runs.cut(&whole, bounds);
                }
            }
        }
    }
}

/// About as many open interpolations as there may be, and what may stand in the innermost.
fn deep_scripts(runs: &mut Runs, book: &[u8]) {
    let inner = [
        "", " ", "b", "`", "`b", "`b`", "`b${", "{}", "#{}", "}", "}`", "}b", "}b${",
    ];
    for depth in 14..=18 {
        let opened = "`é${".repeat(depth);
        for inner in inner {
            runs.cuts([&opened, inner].concat().as_bytes(), book);
        }
        let closed = "}`".repeat(depth);
        runs.cuts([opened, closed].concat().as_bytes(), book);
    }
}

/// Lines and columns that reach 65,535 on the way, as many braces in an interpolation, as many
/// tokens, and the longest scripts.
fn long_scripts(runs: &mut Runs, size: Size) {
    let mut whole = |text: &str| {
        let whole = Whole::new(text.as_bytes(), EMPTY);
        runs.cut(&whole, whole.bounds);
    };
    let behind = "a\"\\\n b\"`c${ {d} }e`/*f*/ //g\n #\"h\"#";
    let pieces = [" ", "\n", "a", "1", "'a'", "{", "}", "/*\n*/", "\"\\\n\""];
    for piece in &pieces[..size.of(3, pieces.len())] {
        whole(&format!("{}{}", piece.repeat(65_540), behind));
    }
    let braces = ["{", "}"].map(|brace| brace.repeat(65_540));
    whole(&format!("`${{{}}}`", braces.concat()));
    if size == Size::All {
        for (first, last) in [(" ", "a"), ("`", "`"), ("/", "\n")] {
            whole(&[first, &"/".repeat(LONGEST - 2), last].concat());
        }
    }
}

/// Bad books, and every change of one byte of a good one.
fn books(runs: &mut Runs) {
    let mut compare = |text: &str, book: &[u8]| {
        let whole = Whole::new(text.as_bytes(), book);
        runs.cut(&whole, whole.bounds);
    };
    for book in bad_books() {
        for text in ["", "a", "~", "\"a"] {
            compare(text, &book.bytes);
        }
    }
    let good = Book::of([("_1", 0), ("b", 3)]);
    each_edit(&good.bytes, &mut |book| compare("a b _1", book));
}

/// What is no text, or too long, under a good book and a bad one; and answers of every length.
fn refused(runs: &mut Runs) {
    let long = [b' ', 0x80].map(|byte| vec![byte; LONGEST + 1]);
    let odd = TEXTS.map(|text| [b"a \"", text, b"\""].concat());
    let good = ["", "a", "\"a\"~"].map(|text| text.as_bytes().to_vec());
    for text in long.iter().chain(&odd).chain(&good) {
        for book in [EMPTY, b""] {
            for answer in [0, 1, 4, 27, 28, 40] {
                in_answer(runs, text, book, answer);
            }
        }
    }
    for answer in 0..=ANSWER {
        in_answer(runs, b"a \"a\"", EMPTY, answer);
    }
}

fn in_answer(runs: &mut Runs, text: &[u8], book: &[u8], answer: usize) {
    let script = Script::read(text, book);
    for (literals, entries, over) in [(0, 0, 0), (0, 0, 19), (9, 1, 0), (9, 9, 19)] {
        let question = Question {
            book,
            bounds: Bounds {
                limit: 0,
                literals,
                entries,
            },
            over,
            answer,
        };
        runs.compare(text, question, &script.cut(question.bounds));
    }
}
