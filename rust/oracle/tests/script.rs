//! Whole scripts: what document 01 says of a run, and how it is read where it can be read in two
//! ways. The answers are written from its words.
#![cfg(rhai_source)]

use oracle::script::{listing, Bounds, Entry, Kind, Left, Part, Script, LONGEST, LONGEST_SYMBOL};
use oracle::words;

const NO_WORDS: &[u8] = &[0, 0];

/// No limit, and room for anything.
const AMPLE: Bounds = Bounds {
    limit: 0,
    literals: 100_000,
    entries: 1_000,
};

fn run(script: &str, bounds: Bounds) -> Left {
    Script::read(script.as_bytes(), NO_WORDS).cut(bounds)
}

/// The script's listing within bounds is these lines.
fn within(bounds: Bounds, script: &str, lines: &[&str]) {
    let shown = run(script, bounds).listing(script.as_bytes());
    let shown: Vec<&str> = shown.lines().collect();
    assert_eq!(shown, lines, "{:?} {:?}", script, bounds);
}

/// The script's listing is these lines.
fn lists(script: &str, lines: &[&str]) {
    within(AMPLE, script, lines);
}

/// The same under a book of one word with no flags.
fn with_word(word: &str, script: &str, lines: &[&str]) {
    let book = [&[1, 0, 0, 0, word.len() as u8, 0], word.as_bytes()].concat();
    let left = Script::read(script.as_bytes(), &book).cut(AMPLE);
    let shown = left.listing(script.as_bytes());
    let shown: Vec<&str> = shown.lines().collect();
    assert_eq!(shown, lines, "{:?} with {:?}", script, word);
}

fn part(script: &str) -> (usize, usize) {
    let Part { offset, length } = run(script, AMPLE).ending.part;
    (offset, length)
}

#[test]
fn the_listing_of_the_requirements() {
    let listed = listing(b"let d = #\"a\"b\"#;\n");
    assert_eq!(
        listed,
        "1:1 keyword 6c6574\n\
         1:5 name 64\n\
         1:7 symbol 3d\n\
         1:9 raw 612262\n\
         1:16 symbol 3b\n\
         end 2\n"
    );
}

#[test]
fn the_listing_program_has_its_own_bounds() {
    assert_eq!(listing(b""), "end 1\n");
    assert_eq!(listing(b"a~"), "1:1 name 61\nstop 5 1:2\n");
    assert_eq!(listing(&[0x80; 32_769]), "stop 2 1\n");
    assert_eq!(listing(&[b' '; 32_768]), "end 1:32768\n");
    assert_eq!(listing(b"\x80"), "stop 1 1\n");
    let many = listing(&b"; ".repeat(1_801));
    assert_eq!(many.lines().count(), 1_801);
    assert!(many.ends_with("1:3599 symbol 3b\nstop 10 1:3601\n"));
}

#[test]
fn the_end_adds_no_column() {
    lists("", &["end 1"]);
    lists("a", &["1:1 name 61", "end 1:1"]);
    lists(" ", &["end 1:1"]);
    lists("\n", &["end 2"]);
    lists("a\n", &["1:1 name 61", "end 2"]);
}

#[test]
fn literals_cut_off_by_the_end() {
    // 4 where the scan says 4.
    for script in ["\"", "\"a", "\"\\\n", "'", "'a", "'\\", "#", "##"] {
        lists(script, &["stop 4 1:1"]);
    }
    lists(" \"a\nb\"", &["stop 4 1:2"]);
    // 11 where it is Ok and something is still on record: text and `"` have the added column.
    lists("`", &["stop 11 1:2"]);
    lists("`a", &["stop 11 1:3"]);
    lists("`\n", &["stop 11 2:1"]);
    lists("`$", &["stop 11 1:3"]);
    lists("\"\\", &["stop 11 1:3"]);
    lists("\"a\\", &["stop 11 1:4"]);
    // Raw literals and comments have none.
    lists("#\"", &["stop 11 1:2"]);
    lists("#\"a\"", &["stop 11 1:4"]);
    lists("##\"\n", &["stop 11 2"]);
    lists("/*", &["stop 11 1:2"]);
    lists("/* /* */", &["stop 11 1:8"]);
    lists("/*\n", &["stop 11 2"]);
}

#[test]
fn interpolations_cut_off_by_the_end() {
    let opened = ["1:1 interpolated -", "1:3 symbol 7b"];
    lists("`${", &[&opened[..], &["stop 11 1:3"]].concat());
    lists("`${ ", &[&opened[..], &["stop 11 1:4"]].concat());
    lists("`${\n", &[&opened[..], &["stop 11 2"]].concat());
    let braces = ["1:4 symbol 7b", "1:5 symbol 7d", "stop 11 1:5"];
    lists("`${{}", &[&opened[..], &braces].concat());
    // A resumed text is a text.
    let resumed = ["1:4 symbol 7d", "stop 11 1:6"];
    lists("`${}a", &[&opened[..], &resumed].concat());
}

#[test]
fn apostrophes() {
    lists("''", &["stop 12 1:1"]);
    lists("'''", &["stop 4 1:1"]);
    lists("''''", &["1:1 char 27", "end 1:4"]);
    lists("'a'", &["1:1 char 61", "end 1:3"]);
    lists("'é'", &["1:1 char c3a9", "end 1:3"]);
    lists("'\\u00e9'", &["1:1 char c3a9", "end 1:8"]);
    lists("'\\''", &["1:1 char 27", "end 1:4"]);
    lists(" 'ab'", &["stop 12 1:2"]);
    lists("'\n'", &["stop 4 1:1"]);
    // One character, though there are two code points in what is seen.
    lists("'e\u{301}'", &["stop 12 1:1"]);
}

#[test]
fn hashes() {
    lists("##", &["stop 4 1:1"]);
    lists(" #x", &["stop 5 1:2"]);
    assert_eq!(part(" #x"), (2, 1));
    lists("##é", &["stop 5 1:1"]);
    assert_eq!(part("##é"), (2, 2));
    lists("##{", &["stop 5 1:1"]);
    assert_eq!(part("##{"), (2, 1));
    lists("#{", &["1:1 symbol 237b", "end 1:2"]);
    lists("#{}", &["1:1 symbol 237b", "1:3 symbol 7d", "end 1:3"]);
    lists("#\"\"#", &["1:1 raw -", "end 1:4"]);
    lists("##\"a\"#\"##", &["1:1 raw 612223", "end 1:9"]);
    // A new line after a quote of an attempt starts no line.
    lists("#\"\"\n\"# a", &["1:1 raw 220a", "1:8 name 61", "end 1:8"]);
    lists("#\"\n\"# a", &["1:1 raw 0a", "2:4 name 61", "end 2:4"]);
}

#[test]
fn comments() {
    lists("//", &["1:1 comment 2f2f", "end 1:2"]);
    lists("//\r\n", &["1:1 comment 2f2f0d", "end 2"]);
    lists("//\ra", &["1:1 comment 2f2f0d61", "end 1:4"]);
    lists("//a\nb", &["1:1 comment 2f2f61", "2:1 name 62", "end 2:1"]);
    lists("///*\n", &["1:1 comment 2f2f2f2a", "end 2"]);
    lists("/**/", &["1:1 comment 2f2a2a2f", "end 1:4"]);
    lists("/*/", &["stop 11 1:3"]);
    lists(
        "/*\n*/a",
        &["1:1 comment 2f2a0a2a2f", "2:3 name 61", "end 2:3"],
    );
    lists(
        "/*/**/*/a",
        &["1:1 comment 2f2a2f2a2a2f2a2f", "1:9 name 61", "end 1:9"],
    );
    lists("*/", &["1:1 symbol 2a", "1:2 symbol 2f", "end 1:2"]);
    lists("/=", &["1:1 symbol 2f3d", "end 1:2"]);
}

#[test]
fn words_and_names() {
    lists("_", &["1:1 symbol 5f", "end 1:1"]);
    lists(" __", &["stop 8 1:2"]);
    assert_eq!(part(" __"), (1, 2));
    lists("_1", &["stop 8 1:1"]);
    lists("_a1", &["1:1 name 5f6131", "end 1:3"]);
    lists("in", &["1:1 keyword 696e", "end 1:2"]);
    lists("inx", &["1:1 name 696e78", "end 1:3"]);
    // What the source reserves is a name: the book stands in for its list.
    lists("go", &["1:1 name 676f", "end 1:2"]);
    // No letter but an ASCII one.
    lists("aé", &["1:1 name 61", "stop 5 1:2"]);
    assert_eq!(part("aé"), (1, 2));
}

#[test]
fn symbols() {
    lists("===", &["1:1 symbol 3d3d", "1:3 symbol 3d", "end 1:3"]);
    lists("~", &["stop 5 1:1"]);
    assert_eq!(part("~"), (0, 1));
    lists("a\n €", &["1:1 name 61", "stop 5 2:2"]);
    assert_eq!(part("a\n €"), (3, 3));
    for unlisted in ["?", "@", "$", "\\", "\0"] {
        lists(unlisted, &["stop 5 1:1"]);
    }
    lists("()", &["1:1 symbol 2829", "end 1:2"]);
    lists("( )", &["1:1 symbol 28", "1:3 symbol 29", "end 1:3"]);
    lists("..=", &["1:1 symbol 2e2e3d", "end 1:3"]);
    lists("...", &["1:1 symbol 2e2e", "1:3 symbol 2e", "end 1:3"]);
    lists("**==", &["1:1 symbol 2a2a3d", "1:4 symbol 3d", "end 1:4"]);
    lists("++", &["1:1 symbol 2b", "1:2 symbol 2b", "end 1:2"]);
    lists("-1", &["1:1 symbol 2d", "1:2 number 31", "end 1:2"]);
    lists("}", &["1:1 symbol 7d", "end 1:1"]);
    lists("{", &["1:1 symbol 7b", "end 1:1"]);
}

#[test]
fn not_in_is_a_symbol_only_before_no_identifier_character() {
    lists("!in", &["1:1 symbol 21696e", "end 1:3"]);
    lists("!in(", &["1:1 symbol 21696e", "1:4 symbol 28", "end 1:4"]);
    lists("!iné", &["1:1 symbol 21696e", "stop 5 1:4"]);
    lists("!inx", &["1:1 symbol 21", "1:2 name 696e78", "end 1:4"]);
    lists("!in_", &["1:1 symbol 21", "1:2 name 696e5f", "end 1:4"]);
    lists("!in1", &["1:1 symbol 21", "1:2 name 696e31", "end 1:4"]);
    lists("!i", &["1:1 symbol 21", "1:2 name 69", "end 1:2"]);
    lists(
        "!in!in",
        &["1:1 symbol 21696e", "1:4 symbol 21696e", "end 1:6"],
    );
}

#[test]
fn no_listed_symbol_is_longer() {
    let symbols = words::keywords().into_iter().map(|word| word.text);
    let symbols = symbols.filter(|text| !text.starts_with(|ch: char| ch.is_ascii_alphabetic()));
    assert_eq!(symbols.map(str::len).max(), Some(LONGEST_SYMBOL));
}

#[test]
fn numbers_are_runs() {
    lists(
        "1..5",
        &[
            "1:1 number 31",
            "1:2 symbol 2e2e",
            "1:4 number 35",
            "end 1:4",
        ],
    );
    lists(
        "3.28",
        &[
            "1:1 number 33",
            "1:2 symbol 2e",
            "1:3 number 3238",
            "end 1:4",
        ],
    );
    lists("0x1f", &["1:1 number 30783166", "end 1:4"]);
    lists("1_a_Z", &["1:1 number 315f615f5a", "end 1:5"]);
    lists("0x", &["1:1 number 3078", "end 1:2"]);
    lists("1é", &["1:1 number 31", "stop 5 1:2"]);
}

#[test]
fn books() {
    with_word("_1", "_1", &["1:1 reserved 5f31", "end 1:2"]);
    with_word("go", "go", &["1:1 reserved 676f", "end 1:2"]);
    with_word("go", "gone", &["1:1 name 676f6e65", "end 1:4"]);
    with_word("let", "let", &["1:1 keyword 6c6574", "end 1:3"]);
    with_word("_", "_", &["1:1 symbol 5f", "end 1:1"]);
    with_word("~", "~", &["stop 5 1:1"]);
    with_word("1", "1", &["1:1 number 31", "end 1:1"]);
    with_word("+", "+", &["1:1 symbol 2b", "end 1:1"]);
}

#[test]
fn refusals_of_what_is_lent_stand_at_the_start() {
    let too_long = vec![0x80; LONGEST + 1];
    let ending = |script: &[u8], book: &[u8]| {
        let left = Script::read(script, book).cut(AMPLE);
        assert_eq!((left.entries.len(), left.literals.len()), (0, 0));
        left.listing(script)
    };
    assert_eq!(ending(&too_long, b""), "stop 2 1\n");
    assert_eq!(ending(&too_long[1..], b""), "stop 1 1\n");
    assert_eq!(ending(b"a\xff", NO_WORDS), "stop 1 1\n");
    assert_eq!(ending(b"", b""), "stop 14 1\n");
    assert_eq!(ending(b"~", b"\0"), "stop 14 1\n");
}

#[test]
fn books_are_good_or_bad() {
    let words = |book: &'static [u8]| oracle::book::words(book);
    assert_eq!(words(b"\0\0"), Some(vec![]));
    assert_eq!(words(b"\x01\0\0\0\x01\x03a"), Some(vec![("a", 3)]));
    assert_eq!(
        words(b"\x02\0\0\0\x02\0\x02\0\x01\x01abb"),
        Some(vec![("ab", 0), ("b", 1)])
    );
    for bad in [
        &b""[..],
        b"\0",
        b"\0\0\0",
        b"\x01\0\0\0\x01\0",
        b"\x01\0\0\0\x01\0ab",
        b"\x01\0\x01\0\x01\0\0a",
        b"\x02\0\0\0\x02\0\x01\0\x01\0ab",
        b"\x02\0\0\0\x01\0\0\x01\x01\0ab",
        b"\x01\0\0\0\0\0",
        b"\x01\0\0\0\x0b\0aaaaaaaaaaa",
        b"\x01\0\0\0\x01\x04a",
        b"\x01\0\0\0\x01\0\x80",
        b"\x01\0\0\0\x02\0\xc3\xa9",
        b"\x02\0\0\0\x01\0\x01\0\x01\0aa",
        b"\x02\0\0\0\x01\0\x01\0\x01\0ba",
    ] {
        assert_eq!(words(bad), None, "{:?}", bad);
    }
}

#[test]
fn white_space() {
    // Only LF starts a line; every other one takes a column.
    for white in ["\r", "\u{b}", "\u{c}", "\u{85}", "\u{2028}", "\u{3000}"] {
        lists(&format!("{}a", white), &["1:2 name 61", "end 1:2"]);
    }
    lists("\r\n a", &["2:2 name 61", "end 2:2"]);
    // U+180E and U+200B are not white.
    lists("\u{180e}", &["stop 5 1:1"]);
    lists("\u{200b}", &["stop 5 1:1"]);
    lists("`\n`", &["1:1 text 0a", "end 2:1"]);
}

#[test]
fn places_saturate() {
    let wide = format!("{}a", " ".repeat(65_540));
    lists(&wide, &["1:65535 name 61", "end 1:65535"]);
    let tall = format!("{}a", "\n".repeat(65_540));
    lists(&tall, &["65535:1 name 61", "end 65535:1"]);
}

#[test]
fn interpolated_texts() {
    lists(
        "`${}`",
        &[
            "1:1 interpolated -",
            "1:3 symbol 7b",
            "1:4 symbol 7d",
            "1:4 text -",
            "end 1:5",
        ],
    );
    lists(
        "`a${b}c${d}e`",
        &[
            "1:1 interpolated 61",
            "1:4 symbol 7b",
            "1:5 name 62",
            "1:6 symbol 7d",
            "1:6 interpolated 63",
            "1:9 symbol 7b",
            "1:10 name 64",
            "1:11 symbol 7d",
            "1:11 text 65",
            "end 1:13",
        ],
    );
    // A dollar sign without its brace, and one that is escaped.
    lists("`$a\\${b`", &["1:1 text 2461247b62", "end 1:7"]);
}

#[test]
fn braces_are_counted_in_an_interpolation() {
    lists(
        "`${ {} #{ {} } }x` }",
        &[
            "1:1 interpolated -",
            "1:3 symbol 7b",
            "1:5 symbol 7b",
            "1:6 symbol 7d",
            "1:8 symbol 237b",
            "1:11 symbol 7b",
            "1:12 symbol 7d",
            "1:14 symbol 7d",
            "1:16 symbol 7d",
            "1:16 text 78",
            "1:20 symbol 7d",
            "end 1:20",
        ],
    );
    // Braces in literals and comments are not counted.
    lists(
        "`${'}'/*}*/}`",
        &[
            "1:1 interpolated -",
            "1:3 symbol 7b",
            "1:4 char 7d",
            "1:7 comment 2f2a7d2a2f",
            "1:12 symbol 7d",
            "1:12 text -",
            "end 1:13",
        ],
    );
}

#[test]
fn a_text_in_a_text() {
    lists(
        "`a${`b${c}d`}e`",
        &[
            "1:1 interpolated 61",
            "1:4 symbol 7b",
            "1:5 interpolated 62",
            "1:8 symbol 7b",
            "1:9 name 63",
            "1:10 symbol 7d",
            "1:10 text 64",
            "1:13 symbol 7d",
            "1:13 text 65",
            "end 1:15",
        ],
    );
    // Each level has its own count.
    lists(
        "`${{`${{}}`}}`",
        &[
            "1:1 interpolated -",
            "1:3 symbol 7b",
            "1:4 symbol 7b",
            "1:5 interpolated -",
            "1:7 symbol 7b",
            "1:8 symbol 7b",
            "1:9 symbol 7d",
            "1:10 symbol 7d",
            "1:10 text -",
            "1:12 symbol 7d",
            "1:13 symbol 7d",
            "1:13 text -",
            "end 1:14",
        ],
    );
}

#[test]
fn sixteen_interpolations_may_be_open() {
    let ending = |script: &str, bounds| {
        let left = run(script, bounds);
        let shown = left.listing(script.as_bytes());
        let last = shown.lines().last().map(String::from);
        (left.entries.len(), last.expect("an ending"))
    };
    let sixteen = "`${".repeat(16);
    assert_eq!(ending(&sixteen, AMPLE), (32, "stop 11 1:48".into()));
    let closed = format!("{}{}", sixteen, "}`".repeat(16));
    assert_eq!(ending(&closed, AMPLE), (64, "end 1:80".into()));
    // Closing one makes room for another.
    let again = format!("{}}}${{", sixteen);
    assert_eq!(ending(&again, AMPLE), (35, "stop 11 1:51".into()));

    let seventeen = "`${".repeat(17);
    assert_eq!(ending(&seventeen, AMPLE), (32, "stop 13 1:49".into()));
    // A text that opens no interpolation may stand there.
    let text = format!("{}`a`", sixteen);
    assert_eq!(ending(&text, AMPLE), (33, "stop 11 1:51".into()));

    // The piece's own 7 and 9 go before 13, and 10 comes after it.
    let long = format!("{}`é${{", sixteen);
    let limited = Bounds { limit: 1, ..AMPLE };
    assert_eq!(ending(&long, limited), (32, "stop 7 1:49".into()));
    let narrow = Bounds {
        literals: 1,
        ..AMPLE
    };
    assert_eq!(ending(&long, narrow), (32, "stop 9 1:49".into()));
    let full = Bounds {
        entries: 32,
        ..AMPLE
    };
    assert_eq!(ending(&seventeen, full), (32, "stop 13 1:49".into()));
    assert_eq!(run(&long, AMPLE).literals, b"");
}

#[test]
fn token_room() {
    let room = |entries| Bounds { entries, ..AMPLE };
    within(room(0), "", &["end 1"]);
    within(room(0), " ", &["end 1:1"]);
    within(room(0), " a", &["stop 10 1:2"]);
    within(room(1), "a \n ", &["1:1 name 61", "end 2:1"]);
    within(room(1), "a;", &["1:1 name 61", "stop 10 1:2"]);
    // A faulty token keeps its own fault.
    for (script, ending) in [
        ("~", "stop 5 1:1"),
        ("__", "stop 8 1:1"),
        ("\"", "stop 4 1:1"),
        ("\"\\q\"", "stop 6 1:3"),
        ("`", "stop 11 1:2"),
        ("''", "stop 12 1:1"),
        ("/*", "stop 11 1:2"),
        ("#x", "stop 5 1:1"),
    ] {
        within(room(0), script, &[ending]);
    }
    // A token that is refused an entry writes no literal byte.
    assert_eq!(run("\"a\"", room(0)).literals, b"");
    within(room(0), "\"a\"", &["stop 10 1:1"]);
    // A resumed piece's 10 stands at the `}`.
    let three = ["1:1 interpolated -", "1:3 symbol 7b", "1:4 symbol 7d"];
    within(room(3), "`${}`", &[&three[..], &["stop 10 1:4"]].concat());
    within(room(2), "`${}`", &[&three[..2], &["stop 10 1:4"]].concat());
}

#[test]
fn literal_room() {
    let room = |literals| Bounds { literals, ..AMPLE };
    within(room(0), "\"\"", &["1:1 string -", "end 1:2"]);
    within(room(0), "\"a\"", &["stop 9 1:1"]);
    within(room(1), "\"é\"", &["stop 9 1:1"]);
    within(
        room(1),
        "a\"b\"",
        &["1:1 name 61", "1:2 string 62", "end 1:4"],
    );
    // What earlier literals used is gone.
    within(room(2), "'a'\"bc\"", &["1:1 char 61", "stop 9 1:4"]);
    within(
        room(3),
        "'a'\"bc\"",
        &["1:1 char 61", "1:4 string 6263", "end 1:7"],
    );
    // 9 goes before what stands behind it, 11, 12, 13 and 10 too.
    within(room(0), "\"a", &["stop 9 1:1"]);
    within(room(0), "\"a\\q", &["stop 9 1:1"]);
    within(room(0), "`a", &["stop 9 1:1"]);
    within(room(0), "#\"a", &["stop 9 1:1"]);
    within(room(1), "'ab'", &["stop 9 1:1"]);
    let none = Bounds {
        entries: 0,
        ..room(0)
    };
    within(none, "\"a\"", &["stop 9 1:1"]);
    within(none, "\"\"", &["stop 10 1:1"]);
    // A quote with hashes that may still close is not yet bytes.
    within(room(0), "#\"\"", &["stop 11 1:3"]);
    within(room(1), "#\"\"a", &["stop 9 1:1"]);
    // A resumed piece's 9 stands at the `}`.
    let three = ["1:1 interpolated -", "1:3 symbol 7b", "1:4 symbol 7d"];
    within(room(0), "`${}a`", &[&three[..], &["stop 9 1:4"]].concat());
}

#[test]
fn limits() {
    let limit = |limit| Bounds { limit, ..AMPLE };
    within(limit(3), "\"abc\"", &["1:1 string 616263", "end 1:5"]);
    within(limit(2), "\"abc\"", &["stop 7 1:1"]);
    // Nothing is tested where the end is 4.
    within(limit(2), "\"abc", &["stop 4 1:1"]);
    within(limit(1), "\"abc", &["stop 7 1:1"]);
    // It is tested again at a good end, so 7 comes before 11, 12 and 13.
    within(limit(1), "`é", &["stop 7 1:1"]);
    within(limit(1), "'ab'", &["stop 7 1:1"]);
    within(limit(1), "#\"é", &["stop 7 1:1"]);
    // It counts bytes, of each literal for itself, and of no other token.
    within(limit(1), "'é'", &["stop 7 1:1"]);
    within(
        limit(1),
        "abc'a'`b`",
        &["1:1 name 616263", "1:4 char 61", "1:7 text 62", "end 1:9"],
    );
    // A resumed piece is a literal of its own, and its 7 stands at the `}`.
    let piece = ["1:1 interpolated 61", "1:4 symbol 7b", "1:5 symbol 7d"];
    let whole = [&piece[..], &["1:5 text 62", "end 1:7"]].concat();
    within(limit(1), "`a${}b`", &whole);
    let long = [&piece[..], &["stop 7 1:5"]].concat();
    within(limit(1), "`a${}é`", &long);
    // One step that passes both the room and the limit is 9, and else the first of them comes.
    let both = |limit, literals| Bounds {
        limit,
        literals,
        ..AMPLE
    };
    within(both(1, 1), "#\"é\"#", &["stop 9 1:1"]);
    within(both(1, 2), "#\"é\"#", &["stop 7 1:1"]);
    within(both(1, 2), "\"abcd\"", &["stop 7 1:1"]);
    within(both(2, 1), "\"abcd\"", &["stop 9 1:1"]);
}

#[test]
fn faults_within_a_script() {
    lists("let \"\\q\"", &["1:1 keyword 6c6574", "stop 6 1:7"]);
    assert_eq!(part("let \"\\q\""), (5, 2));
    lists("'\\uD800'", &["stop 6 1:7"]);
    assert_eq!(part("'\\uD800'"), (1, 6));
    // 4, 7 and 9 to 13 are about no part.
    for script in ["a\"", "a`", "a''", "a/*"] {
        assert_eq!(part(script), (0, 0), "{:?}", script);
    }
}

#[test]
fn offsets_go_to_the_script_or_to_the_packed_literals() {
    let script = "\"a\" \"\" é";
    let left = run("\"a\" \"\" é", AMPLE);
    let entry = |kind, column, offset, length| Entry {
        kind,
        place: (1, column),
        part: Part { offset, length },
    };
    let strings = [entry(Kind::String, 1, 0, 1), entry(Kind::String, 5, 1, 0)];
    assert_eq!(left.entries, strings);
    assert_eq!(part(script), (7, 2));

    let left = run("'é'a`b`", AMPLE);
    let tokens = [
        entry(Kind::Char, 1, 0, 2),
        entry(Kind::Name, 4, 4, 1),
        entry(Kind::Text, 5, 2, 1),
    ];
    assert_eq!(left.entries, tokens);
    assert_eq!(left.literals, "éb".as_bytes());
}

#[test]
fn kinds_have_their_numbers() {
    use Kind::*;
    let kinds = [
        Name,
        Keyword,
        Symbol,
        Number,
        String,
        Interpolated,
        Text,
        Raw,
        Char,
        Comment,
        Reserved,
    ];
    let numbers = kinds.map(|kind| kind as u32);
    assert_eq!(numbers, [1, 2, 3, 4, 5, 6, 7, 8, 9, 10, 11]);
}
