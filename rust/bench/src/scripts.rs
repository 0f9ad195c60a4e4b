//! Scripts of the kinds that a survey office has, the same in every run.
//!
//! The source lists by other rules than document 01 where a number has a point or a sign, where a
//! symbol is one that it reserves, and where a comment is one of its documentation's. None of that
//! is in these scripts, so that both sides have the same tokens to list.

use compare::random::Random;

/// Makes the next piece of a script.
pub type Piece = fn(&mut Random) -> String;

/// The kinds, by the pieces that they are made of.
pub const KINDS: [(&str, Piece); 11] = [
    ("words", words),
    ("symbols", symbols),
    ("raw", raw),
    ("escapes", escapes),
    ("short strings", short_strings),
    ("interpolation", interpolation),
    ("comments", comments),
    ("one line", call),
    ("non-ASCII", non_ascii),
    ("white space", white_space),
    ("mixed", mixed),
];

/// A script of exactly so many bytes, filled up with spaces.
pub fn script(piece: Piece, size: usize) -> Vec<u8> {
    let mut random = Random::new(size as u64);
    let mut script = Vec::with_capacity(size);
    loop {
        let piece = piece(&mut random);
        if script.len() + piece.len() > size {
            script.resize(size, b' ');
            return script;
        }
        script.extend(piece.bytes());
    }
}

#[rustfmt::skip]
pub const NAMES: [&str; 24] = [
    "depth", "buoy", "sounding", "lat", "lon", "chart_datum", "survey", "wreck", "rock", "light",
    "sector", "tide", "station", "beacon", "draught", "x", "y", "z2", "line_7", "_margin", "swath",
    "correction_of_tide", "berth", "fathom",
];

#[rustfmt::skip]
pub const KEYWORDS: [&str; 24] = [
    "true", "false", "let", "const", "if", "else", "switch", "do", "while", "until", "loop", "for",
    "in", "fn", "continue", "break", "return", "throw", "try", "catch", "private", "import",
    "export", "as",
];

#[rustfmt::skip]
const SYMBOLS: [&str; 54] = [
    "{", "}", "(", ")", "[", "]", "()", "+", "-", "*", "/", "%", "**", "<<", ">>", ";", ":", "::",
    "=>", ",", ".", "?.", "??", "?[", "..", "..=", "#{", "=", "<", ">", "<=", ">=", "==", "!=",
    "!", "|", "||", "^", "&", "&&", "+=", "-=", "*=", "/=", "<<=", ">>=", "&=", "|=", "^=", "%=",
    "**=", ";", ",", ".",
];

const REMARKS: [&str; 8] = [
    "the buoy is out of its place",
    "sounded at low water",
    "rock awash, seen from the boat",
    "light burns red to the north",
    "see \"List of Lights\" of this year",
    "wreck swept to eleven metres",
    "mud and shells",
    "held to the station at the mole",
];

const FOREIGN: [&str; 10] = [
    "камни у мыса",
    "глубина по карте",
    "огонь виден с моря",
    "ύφαλος κοντά στο λιμάνι",
    "βάθος νερού",
    "灯台の南",
    "水深約三米",
    "⚓ 🚢",
    "Straße zum Häfen",
    "затонувшее судно",
];

const ESCAPES: [&str; 8] = [
    "\\n",
    "\\t",
    "\\\"",
    "\\\\",
    "\\x41",
    "\\u00e9",
    "\\U0001F6A2",
    "\\r",
];

/// Some of the texts, between spaces, up to a number of bytes.
fn prose(random: &mut Random, texts: &[&str], least: usize, most: usize) -> String {
    let length = least + random.below(most - least + 1);
    let mut prose = random.one_of(texts).to_string();
    while prose.len() < length {
        prose += " ";
        prose += random.one_of(texts);
    }
    while prose.len() > most || prose.ends_with('"') {
        prose.pop();
    }
    prose
}

fn name(random: &mut Random) -> &'static str {
    random.one_of(&NAMES)
}

fn words(random: &mut Random) -> String {
    let mut line = name(random).to_string();
    for _ in 0..6 + random.below(6) {
        line += " ";
        line += match random.below(4) {
            0 => random.one_of(&KEYWORDS),
            _ => name(random),
        };
    }
    line + "\n"
}

fn symbols(random: &mut Random) -> String {
    let short = ["a", "b", "x", "y2", "dx", "lat", "t"];
    let mut line = random.one_of(&short).to_string();
    for _ in 0..10 + random.below(10) {
        line += match random.below(30) {
            0 => " !in ",
            _ => random.one_of(&SYMBOLS),
        };
        line += random.one_of(&short);
    }
    line + "\n"
}

fn raw(random: &mut Random) -> String {
    format!("#\"{}\"#,\n", prose(random, &REMARKS, 40, 200))
}

fn escapes(random: &mut Random) -> String {
    let mut line = String::from("\"");
    for _ in 0..8 + random.below(24) {
        line += random.one_of(&ESCAPES);
        line += ["", "", "m", "7"][random.below(4)];
    }
    line + "\",\n"
}

fn short_strings(random: &mut Random) -> String {
    let mut line = String::new();
    for _ in 0..6 {
        let length = 3 + random.below(10);
        let letter = |_| random.one_of(b"abcdefghijklmnopqrstuvwxyz ") as char;
        let body: String = (0..length).map(letter).collect();
        line += &format!("\"{}\", ", body);
    }
    line + "\n"
}

fn interpolation(random: &mut Random) -> String {
    let (first, second) = (name(random), name(random));
    let number = random.below(100);
    match random.below(3) {
        0 => format!("`depth ${{{} + {}}} m`;\n", first, number),
        1 => format!("`${{{}}} of ${{{} * {}}}`;\n", first, second, number),
        _ => format!("`at {} ${{#{{a: {}}}}} and no more`;\n", first, second),
    }
}

fn comments(random: &mut Random) -> String {
    let remark = prose(random, &REMARKS, 20, 100);
    match random.below(3) {
        0 => format!("/* {} */\n", remark),
        1 => format!("/* {}\n   {} */\n", remark, name(random)),
        _ => format!("// {}\n", remark),
    }
}

/// A call with its arguments, and no line feed.
fn call(random: &mut Random) -> String {
    let (called, first, second) = (name(random), name(random), name(random));
    let (metres, tenths) = (random.below(5000), random.below(100));
    match random.below(3) {
        0 => format!("{}({}, {}, \"{}\"); ", called, first, metres, second),
        1 => format!("{}({} - {}, {}); ", called, first, tenths, second),
        _ => format!(
            "{}.{}([{}, {}], {}); ",
            called, first, metres, tenths, second
        ),
    }
}

fn non_ascii(random: &mut Random) -> String {
    let remark = prose(random, &FOREIGN, 30, 120);
    match random.below(4) {
        0 => format!("// {}\n", remark),
        1 => format!("/* {} */\n", remark),
        2 => format!("\"{}\",\n", remark),
        _ => format!("#\"{}\"#,\n", remark),
    }
}

fn white_space(random: &mut Random) -> String {
    let indent = " ".repeat(4 * (1 + random.below(8)));
    let blanks = ["", " ", "   ", "\t", "\r"][random.below(5)];
    let lines = "\n".repeat(1 + random.below(4));
    match random.below(3) {
        0 => format!("{}{}{}{}", indent, name(random), blanks, lines),
        1 => format!("{}{}\n{}\n", indent, blanks, indent),
        _ => format!("\t\t\t{};{}{}", name(random), blanks, lines),
    }
}

/// Lines of a survey's script.
fn mixed(random: &mut Random) -> String {
    let (first, second) = (name(random), name(random));
    let number = random.below(20000);
    let remark = prose(random, &REMARKS, 20, 60);
    match random.below(10) {
        0 => format!("// {}\n", remark),
        1 => format!("let {} = {};\n", first, number),
        2 => format!(
            "    if {} > {} && {} !in [1, 2, 3] {{\n",
            first, number, second
        ),
        3 => format!(
            "        {}({}, \"{}\");\n    }}\n",
            first,
            second,
            remark.replace('"', "")
        ),
        4 => format!("    {}.note = #\"{}\"#;\n", first, remark),
        5 => format!("    print(`{} is ${{{} / 10}} m deep`);\n", second, first),
        6 => format!(
            "    /* {}\n       {} */\n",
            remark,
            prose(random, &FOREIGN, 10, 30)
        ),
        7 => format!(
            "    for {} in 0..{} {{ {} += 1; }}\n",
            first, number, second
        ),
        8 => format!(
            "    #{{ {}: \"a\\tb\\n\", {}: '{}' }};\n\n",
            first, second, "é"
        ),
        _ => format!("    {} = {} << 2 | {};\n", first, second, number),
    }
}
