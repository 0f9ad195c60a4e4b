//! Scripts of 64 KB that nobody writes, each of one thing again and again: where a scanner takes
//! its dearest way, or keeps on taking it back.

use crate::scripts::KEYWORDS;

const LENGTH: usize = 1 << 16;

/// What the source makes of a script.
#[derive(Debug, Clone, Copy, PartialEq, Eq)]
pub enum Source {
    /// The same tokens as document 01's run, or the same tokens and a fault.
    Same,
    /// It refuses the first character.
    Refuses,
    /// Tokens of its own, so that there is nothing to hold ours to, or to time it for.
    Other,
}

pub struct Hostile {
    pub name: &'static str,
    pub script: Vec<u8>,
    pub source: Source,
}

/// A name, and a front, a part that is repeated, and a back.
type Row = (&'static str, [&'static str; 3]);

const STRINGS: [Row; 13] = [
    ("doubled quotes only", ["\"", "\"\"", "\""]),
    ("doubled quote every 3 bytes", ["\"", "a\"\"", "\""]),
    ("escapes \\n only", ["\"", "\\n", "\""]),
    ("escapes \\\\ only", ["\"", "\\\\", "\""]),
    ("escapes \\x41 only", ["\"", "\\x41", "\""]),
    ("escapes \\u00e9 only", ["\"", "\\u00e9", "\""]),
    ("escapes \\U0001F6A2 only", ["\"", "\\U0001F6A2", "\""]),
    ("escape in each string", ["", "\"\\n\",", ""]),
    ("continuations only", ["\"", "\\\n", "\""]),
    ("continuations, indented", ["\"", "a\\\n        ", "\""]),
    ("empty strings", ["", "\"\",", ""]),
    ("chars", ["", "'a',", ""]),
    ("chars of escapes", ["", "'\\u0041',", ""]),
];

const RAWS: [Row; 8] = [
    ("raw, quotes only", ["#\"", "\"", "\"#"]),
    ("raw, quote every 2 bytes", ["#\"", "a\"", "a\"#"]),
    ("raw, near closings", ["#####\"", "\"####", "\"#####"]),
    ("raw, LFs after quotes", ["#\"", "\"\n", "a\"#"]),
    ("raw, LFs only", ["#\"", "\n", "\"#"]),
    ("raw, quotes before Cyrillic", ["#\"", "\"я", "\"#"]),
    ("raw, hashes one short", ["##\"", "\"#a", "\"##"]),
    ("empty raws", ["", "#\"\"#,", ""]),
];

const TEXTS: [Row; 9] = [
    ("empty texts", ["", "``,", ""]),
    ("text, dollars only", ["`", "$", "`"]),
    ("text, escaped ${ only", ["`", "\\${", "`"]),
    ("text, doubled backticks", ["`a", "``", "`"]),
    ("text, LFs only", ["`a", "\n", "`"]),
    ("text, CRLFs only", ["`a", "\r\n", "`"]),
    ("text, lone CRs", ["`a", "\ra", "`"]),
    ("text, ${1} only", ["`a", "${1}", "`"]),
    ("texts of ${x}", ["", "`${x}`,", ""]),
];

const COMMENTS: [Row; 7] = [
    ("comment, stars only", ["/* ", "*", " */"]),
    ("comment, slashes only", ["/* ", "/", " */"]),
    (
        "comment, stars and slashes",
        ["/* ", "/ ** /* */ //* */", "*/"],
    ),
    ("comment, pairs", ["/* ", "/**/", "*/"]),
    ("comment, LFs only", ["/* ", "\n", "*/"]),
    ("comments /* */", ["", "/* */", ""]),
    ("comments of no byte", ["", "//\n", ""]),
];

const WHITES: [Row; 6] = [
    ("LFs", ["", "\n", ""]),
    ("spaces", ["", " ", ""]),
    ("tabs", ["", "\t", ""]),
    ("CRs", ["", "\r", ""]),
    ("CRLFs", ["", "\r\n", ""]),
    ("form feeds", ["", "\u{c}", ""]),
];

const SYMBOLS: [Row; 12] = [
    ("braces", ["", "{}", ""]),
    ("open parentheses", ["", "(", ""]),
    ("symbols of 1 byte", ["", "[;,.])", ""]),
    ("symbols of 2 bytes", ["", "()=>::", ""]),
    ("symbols of 3 bytes", ["", "<<=>>=**=", ""]),
    ("!in", ["", "!in ", ""]),
    ("! before names in..", ["", "!ins ", ""]),
    ("..=", ["", "..= ", ""]),
    ("?.", ["", "?.", ""]),
    ("#{", ["", "#{", ""]),
    ("_", ["", "_ ", ""]),
    ("! and i", ["", "!i", ""]),
];

const WORDS: [Row; 8] = [
    ("one name", ["", "a", ""]),
    ("one name of underscores", ["", "_", "a"]),
    ("one number", ["", "7", ""]),
    ("numbers of 1 byte", ["", "7 ", ""]),
    ("hex numbers", ["", "0x1F ", ""]),
    ("names of 1 byte", ["", "a b c ", ""]),
    ("names with _", ["", "_a __b ___c7 ", ""]),
    (
        "names almost keywords",
        ["", "lets iff constan whil continues fals ", ""],
    ),
];

const WIDE: [Row; 10] = [
    ("Cyrillic string", ["\"", "камнимыс", "\""]),
    ("Cyrillic raw", ["#\"", "камнимыс", "\"#"]),
    ("Cyrillic text", ["`", "камнимыс", "`"]),
    ("Cyrillic block comment", ["/* ", "камнимыс", "*/"]),
    ("Cyrillic line comment", ["// ", "камнимыс", ""]),
    ("emoji string", ["\"", "🚢", "\""]),
    ("CJK text", ["`", "水深", "`"]),
    ("CJK block comment", ["/* ", "水深", "*/"]),
    ("widths 1 to 4 in a comment", ["/* ", "aя水🚢", "*/"]),
    ("widths 1 to 4 in a string", ["\"", "aя水🚢", "\""]),
];

/// They end in a fault that the source has too.
const FAULTS: [Row; 6] = [
    ("string not ended", ["\"", "a", ""]),
    ("text not ended", ["`", "a", ""]),
    ("raw not ended", ["#\"", "a", ""]),
    ("string ended by LF", ["\"", "a", "\n"]),
    ("wrong escape at the end", ["\"", "a", "\\q\""]),
    ("wrong character at the end", ["", "a + ", "é"]),
];

/// The source's white space is that of ASCII.
const REFUSED: [Row; 3] = [
    ("NBSP", ["", "\u{a0}", ""]),
    ("U+2028", ["", "\u{2028}", ""]),
    ("U+3000", ["", "\u{3000}", ""]),
];

/// The source takes the second star of `/**/` as a comment's text. It answers a comment that is not
/// ended as a token, and again for ever.
const OTHER: [Row; 2] = [
    ("comments /**/", ["", "/**/", ""]),
    ("comment not ended", ["/* ", "a", ""]),
];

pub fn scripts() -> Vec<Hostile> {
    let tables: [&[Row]; 9] = [
        &STRINGS, &RAWS, &TEXTS, &COMMENTS, &WHITES, &SYMBOLS, &WORDS, &WIDE, &FAULTS,
    ];
    let same = tables.into_iter().flatten().map(|row| (row, Source::Same));
    let refused = REFUSED.iter().map(|row| (row, Source::Refuses));
    let other = OTHER.iter().map(|row| (row, Source::Other));
    let rows = same.chain(refused).chain(other);
    let rows = rows.map(|(&(name, parts), source)| Hostile {
        name,
        script: filled(parts),
        source,
    });
    rows.chain(made()).collect()
}

/// The part is repeated as often as the length lets it.
fn filled([front, part, back]: [&str; 3]) -> Vec<u8> {
    let times = (LENGTH - front.len() - back.len()) / part.len();
    [front, &part.repeat(times), back].concat().into()
}

/// Those whose parts are made.
fn made() -> impl Iterator<Item = Hostile> {
    let pairs = LENGTH / 4;
    let nested = format!("{}{}", "/*".repeat(pairs), "*/".repeat(pairs));
    let deep = format!("{}x{}", "`${".repeat(16), "}`".repeat(16));
    let blocks = format!("`${{{}{}}}`,", "{".repeat(50), "}".repeat(50));
    let keywords = KEYWORDS.join(" ") + " ";
    let half = " ".repeat(LENGTH / 2 - 4);
    // The string starts far to the right, so that all white space of its second line is skipped.
    let skipped = format!("{}\"\\\n{}\"", half, half);
    let scripts = [
        ("comments, nested", nested),
        ("interpolations, 16 deep", repeated(&deep)),
        ("braces in interpolations", repeated(&blocks)),
        ("keywords", repeated(&keywords)),
        ("indentation skipped", skipped),
    ];
    scripts.into_iter().map(|(name, script)| Hostile {
        name,
        script: script.into(),
        source: Source::Same,
    })
}

fn repeated(part: &str) -> String {
    part.repeat(LENGTH / part.len())
}
