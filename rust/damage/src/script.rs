//! Scripts of the kinds that customers write. Each is made token by token, so that it is known what
//! a run has to list, and where the script may not be cut without a stop: no run is asked.

use crate::book;
use crate::random::Random;
use crate::writer::hashes;

pub const KEYWORD: u32 = 2;
pub const SYMBOL: u32 = 3;
pub const STRING: u32 = 5;
pub const INTERPOLATED: u32 = 6;
pub const TEXT: u32 = 7;
pub const RAW: u32 = 8;
pub const CHAR: u32 = 9;
pub const COMMENT: u32 = 10;
const NAME: u32 = 1;
const NUMBER: u32 = 4;
const RESERVED: u32 = 11;

/// How many interpolations may be open.
const LEVELS: usize = 16;

const KEYWORDS: [&str; 12] = [
    "let", "const", "if", "else", "while", "for", "in", "fn", "return", "switch", "true", "false",
];

const NAMES: [&str; 8] = ["a", "b1", "_x", "Z_", "depth", "buoy_17", "__a", "chart"];

const NUMBERS: [&str; 6] = ["0", "12", "0x1f", "1_000", "9a", "65536"];

#[rustfmt::skip]
const SYMBOLS: [&str; 37] = [
    "+", "-", "*", "/", "%", "=", "==", "!=", "<", "<=", ">", ">=", "<<", "<<=", ">>", "**", "**=",
    "&&", "||", "^", "!", "!in", "..", "..=", "?.", "??", "::", "=>", "(", ")", "()", "[", "]", ",",
    ";", ".", "_",
];

const WHITE: [&str; 9] = [
    " ", " ", " ", "\n", "\n", "\t", "\r\n", "\u{a0}", "\u{3000}",
];

/// What stands in a literal, and the bytes that it gives. No two of them make a third.
type Unit = (&'static str, &'static str);

#[rustfmt::skip]
const STRING_UNITS: [Unit; 18] = [
    ("a", "a"), ("depth ", "depth "), ("é", "é"), ("€", "€"), ("😀", "😀"), ("\\n", "\n"),
    ("\\r", "\r"), ("\\t", "\t"), ("\\\\", "\\"), ("\\\"", "\""), ("\\x41", "A"), ("\\u00e9", "é"),
    ("\\U0001f600", "😀"), ("\\\nx", "x"), ("${", "${"), ("`", "`"), ("//", "//"), ("'", "'"),
];

#[rustfmt::skip]
const TEXT_UNITS: [Unit; 16] = [
    ("a", "a"), (" m, ", " m, "), ("é", "é"), ("€", "€"), ("😀", "😀"), ("\n", "\n"),
    ("\r\n", "\n"), ("$x", "$x"), ("\\${", "${"), ("\\ ", "\\ "), ("{", "{"), ("}", "}"),
    ("\"", "\""), ("#\"", "#\""), ("'", "'"), ("/*", "/*"),
];

const CHARS: [Unit; 9] = [
    ("a", "a"),
    ("é", "é"),
    ("😀", "😀"),
    ("\"", "\""),
    ("''", "'"),
    ("\\'", "'"),
    ("\\n", "\n"),
    ("\\x41", "A"),
    ("\\u20ac", "€"),
];

const RAW_UNITS: [&str; 11] = [
    "a", " rock ", "é", "€", "\n", "\r\n", "\\", "\"", "\"#", "#", "`${",
];

const COMMENT_UNITS: [&str; 9] = ["a", " shoal ", "é", "😀", "*x", "/x", "\n", "\"", "`${"];

/// A token that a run has to list.
pub struct Token {
    pub kind: u32,
    pub bytes: Vec<u8>,
    /// Where it ends in the script.
    pub end: usize,
}

pub struct Script {
    pub text: Vec<u8>,
    pub tokens: Vec<Token>,
    /// For each number of bytes whether the script, cut to so many, has to stop: a literal, a
    /// comment or an interpolation is open.
    pub stops: Vec<bool>,
}

/// What a script has most of.
#[derive(Clone, Copy)]
enum Flavour {
    Words,
    Symbols,
    Raw,
    Strings,
    Texts,
    Comments,
    Mixed,
}

/// A script of up to `longest` tokens, and some more to close what is open, for a book of these
/// words.
pub fn random_script(random: &mut Random, words: &[&str], longest: usize) -> Script {
    use Flavour::*;
    let flavour = random.one_of(&[Words, Symbols, Raw, Strings, Texts, Comments, Mixed]);
    let left = random.below(longest + 1);
    let mut maker = Maker {
        random,
        words,
        flavour,
        left,
        inside: 0,
        script: String::new(),
        tokens: Vec::new(),
        stops: vec![false],
    };
    while maker.left > 0 {
        maker.item();
    }
    Script {
        text: maker.script.into_bytes(),
        tokens: maker.tokens,
        stops: maker.stops,
    }
}

struct Maker<'a> {
    random: &'a mut Random,
    /// Those of the book.
    words: &'a [&'a str],
    flavour: Flavour,
    /// How many tokens may still be begun.
    left: usize,
    /// How many interpolations are open.
    inside: usize,
    script: String,
    tokens: Vec<Token>,
    stops: Vec<bool>,
}

impl Maker<'_> {
    /// Adds to the script. Behind each of the bytes a literal or a comment is open, or none is.
    fn put(&mut self, text: &str, is_open: bool) {
        self.script.push_str(text);
        let stops = is_open || self.inside > 0;
        self.stops.resize(self.script.len() + 1, stops);
    }

    fn list(&mut self, kind: u32, bytes: &str) {
        self.tokens.push(Token {
            kind,
            bytes: bytes.into(),
            end: self.script.len(),
        });
    }

    /// A token that stands in the script as it is listed.
    fn plain(&mut self, kind: u32, text: &str) {
        self.put(text, false);
        self.list(kind, text);
    }

    /// One token or more, and white space.
    fn item(&mut self) {
        self.left = self.left.saturating_sub(1);
        let flavour = if self.random.once_in(2) {
            self.flavour
        } else {
            Flavour::Mixed
        };
        match flavour {
            Flavour::Words => self.word(),
            Flavour::Symbols => self.symbol(),
            Flavour::Raw => self.raw(),
            Flavour::Strings => self.string(),
            Flavour::Texts => self.text(),
            Flavour::Comments => self.comment(),
            Flavour::Mixed => self.any(),
        }
        self.white();
    }

    fn any(&mut self) {
        match self.random.below(12) {
            0..=2 => self.word(),
            3 => self.number(),
            4..=5 => self.symbol(),
            6 => self.raw(),
            7 => self.string(),
            8 => self.char(),
            9 => self.text(),
            10 => self.block(),
            _ => self.comment(),
        }
    }

    fn white(&mut self) {
        let white = self.random.one_of(&WHITE);
        self.put(white, false);
    }

    fn word(&mut self) {
        match self.random.below(3) {
            0 => {
                let word = self.random.one_of(&KEYWORDS);
                self.plain(KEYWORD, word);
            }
            1 => {
                let word = self.random.one_of(&NAMES);
                self.plain(NAME, word);
            }
            _ => {
                let word = book::random_word(self.random);
                let is_reserved = self.words.contains(&word);
                self.plain(if is_reserved { RESERVED } else { NAME }, word);
            }
        }
    }

    fn number(&mut self) {
        let number = self.random.one_of(&NUMBERS);
        self.plain(NUMBER, number);
    }

    fn symbol(&mut self) {
        let symbol = self.random.one_of(&SYMBOLS);
        self.plain(SYMBOL, symbol);
    }

    /// Braces, which an interpolation around them counts.
    fn block(&mut self) {
        let brace = self.random.one_of(&["{", "#{"]);
        self.plain(SYMBOL, brace);
        self.white();
        self.some_items();
        self.plain(SYMBOL, "}");
    }

    fn some_items(&mut self) {
        for _ in 0..self.random.below(4).min(self.left) {
            self.item();
        }
    }

    fn raw(&mut self) {
        let units = self.random.below(8);
        let body: String = (0..units).map(|_| self.random.one_of(&RAW_UNITS)).collect();
        let hashes = "#".repeat(hashes(body.as_bytes()) + self.random.below(3));
        let open = [&hashes, "\"", &body, "\"", &hashes[1..]].concat();
        self.put(&open, true);
        self.put("#", false);
        self.list(RAW, &body);
    }

    /// A piece of a literal, whose terminator may stand in it twice.
    fn units(&mut self, units: &[Unit], terminator: &str) -> String {
        let mut value = String::new();
        for _ in 0..self.random.below(6) {
            if self.random.once_in(8) {
                // Cut between the two the literal is closed.
                self.put(terminator, false);
                self.put(terminator, true);
                value.push_str(terminator);
                continue;
            }
            let (source, gives) = self.random.one_of(units);
            self.put(source, true);
            value.push_str(gives);
        }
        value
    }

    fn string(&mut self) {
        self.put("\"", true);
        let value = self.units(&STRING_UNITS, "\"");
        self.put("\"", false);
        self.list(STRING, &value);
    }

    fn char(&mut self) {
        let (source, gives) = self.random.one_of(&CHARS);
        self.put("'", true);
        self.put(source, true);
        self.put("'", false);
        self.list(CHAR, gives);
    }

    fn text(&mut self) {
        self.put("`", true);
        let mut value = self.units(&TEXT_UNITS, "`");
        while self.left > 0 && self.inside < LEVELS && self.random.once_in(2) {
            self.put("$", true);
            self.list(INTERPOLATED, &value);
            self.interpolation();
            value = self.units(&TEXT_UNITS, "`");
        }
        self.put("`", false);
        self.list(TEXT, &value);
    }

    fn interpolation(&mut self) {
        self.inside += 1;
        self.plain(SYMBOL, "{");
        self.some_items();
        self.plain(SYMBOL, "}");
        self.inside -= 1;
    }

    fn comment(&mut self) {
        let begin = self.script.len();
        if self.random.once_in(3) {
            let words = self
                .random
                .one_of(&["//", "///", "// shoal é", "// /* `${ \""]);
            self.plain(COMMENT, words);
            self.put("\n", false);
            return;
        }
        self.put("/", false);
        self.put("*", true);
        self.comment_body(3);
        self.put("*", true);
        self.put("/", false);
        let comment = self.script[begin..].to_string();
        self.list(COMMENT, &comment);
    }

    /// What stands in a comment, with comments in it up to some depth.
    fn comment_body(&mut self, deeper: usize) {
        for _ in 0..self.random.below(5) {
            if deeper > 0 && self.random.once_in(6) {
                self.put("/*", true);
                self.comment_body(deeper - 1);
                self.put("*/", true);
                continue;
            }
            let unit = self.random.one_of(&COMMENT_UNITS);
            self.put(unit, true);
        }
    }
}

#[cfg(test)]
mod tests {
    use super::*;

    /// A script of a few tokens of one flavour, whose tokens say where they end.
    #[test]
    fn tokens_end_one_behind_the_other() {
        for seed in 0..2_000 {
            let script = random_script(&mut Random::new(seed), &[], 30);
            assert_eq!(script.stops.len(), script.text.len() + 1);
            assert!(!script.stops[0] && !script.stops[script.text.len()]);
            let ends: Vec<usize> = script.tokens.iter().map(|token| token.end).collect();
            assert!(ends.windows(2).all(|ends| ends[0] < ends[1]), "{}", seed);
        }
    }

    #[test]
    fn scripts_are_deep_and_have_every_kind() {
        let mut kinds = [0; 12];
        let mut deepest = 0;
        for seed in 0..2_000 {
            let script = random_script(&mut Random::new(seed), &["go"], 30);
            for token in &script.tokens {
                kinds[token.kind as usize] += 1;
            }
            let opened = script
                .tokens
                .iter()
                .filter(|token| token.kind == INTERPOLATED);
            deepest = deepest.max(opened.count());
        }
        assert!(kinds[1..].iter().all(|&count| count > 50), "{:?}", kinds);
        assert!(deepest > 3, "{}", deepest);
    }
}
