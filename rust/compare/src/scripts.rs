//! Random scripts, glued together from what stands in scripts. Most have no fault, and many have
//! texts in texts.

use crate::random::Random;

/// Words, numbers, symbols, white space, literals and comments.
#[rustfmt::skip]
const TOKENS: [&str; 85] = [
    "let", "in", "fn", "switch", "true", "a", "b1", "_x", "Z_", "go", "_",
    "0", "12", "0x1f", "1_000", "3.28", "1..5", "9a",
    "+", "-", "*", "%", "=", "==", "===", "..=", "**=", "<<", "<<=", ">>", "?.", "??", "?[", "::", "=>", "()",
    "(", ")", "[", "]", ",", ";", ".", "!", "!in", "!in ", "!=", "&&", "||", "^", "}",
    " ", "   ", "\n", "\r\n", "\r", "\t", "\u{b}", "\u{85}", "\u{a0}", "\u{2028}", "\u{3000}",
    "\"\"", "\"a\"", "\"a\"\"b\"", "\"\\n\\x41\"", "\"\\u00e9€\"", "\"a\\\n   b\"", "\"\\\n\\t b\"", "\"{\"",
    "'a'", "'é'", "'\\''", "''''", "'\\U0001f600'",
    "#\"\"#", "#\"a\"b\"#", "##\"\"#\"##", "#\"\n\"\n\"#",
    "//\n", "// }\r\n", "/**/", "/* é */", "/*/**/\n*/", "`a\\${\n`",
];

/// What most often is a fault, or leaves something open.
#[rustfmt::skip]
const FAULTS: [&str; 28] = [
    "~", "@", "$", "?", "\\", "é", "€", "😀", "\u{180e}", "\0", "#", "##", "#x", "##{", "__", "_1", "\"", "'", "`", "''",
    "'ab'", "\"\\q\"", "\"\\uD800\"", "\"\n\"", "\"\\", "/*", "#\"", "#\"a\"",
];

/// What stands in a text.
#[rustfmt::skip]
const TEXTS: [&str; 19] = [
    "a", "é", "€", "😀", " ", "\n", "\r\n", "\r", "$", "\\", "\\$", "\\${", "``", "{", "}", "#\"", "\"", "'", "//",
];

/// A script of up to `longest` steps.
pub fn random_script(random: &mut Random, longest: usize) -> String {
    let mut glue = Glue {
        script: String::new(),
        open: Vec::new(),
    };
    // Few texts, some, or so many that more than sixteen are open.
    let texts = random.one_of(&[1, 2, 12]);
    for _ in 0..random.below(longest + 1) {
        glue.step(random, texts);
    }
    let closed = if random.below(4) == 0 {
        0
    } else {
        glue.open.len()
    };
    for _ in 0..closed {
        glue.close(random);
    }
    glue.script
}

struct Glue {
    script: String,
    /// What is open, the outermost first: whether it is an interpolation, or a brace.
    open: Vec<bool>,
}

impl Glue {
    /// One step of sixteen, so many of which open a text.
    fn step(&mut self, random: &mut Random, texts: usize) {
        match random.below(16) {
            step if step < texts => {
                self.script.push('`');
                self.interpolate(random);
            }
            12 => {
                self.script.push_str(random.one_of(&["{", "#{"]));
                self.open.push(false);
            }
            13.. => self.close(random),
            _ => self.token(random),
        }
    }

    fn token(&mut self, random: &mut Random) {
        let is_fault = random.below(64) == 0;
        let tokens: &[&str] = if is_fault { &FAULTS } else { &TOKENS };
        self.script.push_str(random.one_of(tokens));
        if random.below(2) == 0 {
            self.script.push(' ');
        }
    }

    /// A piece of text up to its `${`.
    fn interpolate(&mut self, random: &mut Random) {
        self.script.push_str(&random.text(&TEXTS, 3));
        self.script.push_str("${");
        self.open.push(true);
    }

    /// Closes what was opened last, if anything is open. A text may go on.
    fn close(&mut self, random: &mut Random) {
        let is_text = match self.open.pop() {
            Some(is_text) => is_text,
            None => return,
        };
        self.script.push('}');
        if is_text && random.below(4) == 0 {
            self.interpolate(random);
        } else if is_text {
            self.script.push_str(&random.text(&TEXTS, 3));
            self.script.push('`');
        }
    }
}

#[cfg(test)]
mod tests {
    use super::*;

    #[test]
    fn scripts_are_short_and_long_and_deep() {
        let mut random = Random::new(1);
        let scripts: Vec<String> = (0..1_000).map(|_| random_script(&mut random, 60)).collect();
        let count = |test: &dyn Fn(&str) -> bool| scripts.iter().filter(|s| test(s)).count();
        assert!(count(&|script| script.len() < 20) > 20);
        assert!(count(&|script| script.len() > 200) > 20);
        assert!(count(&|script| script.matches("${").count() > 16) > 20);
        assert!(count(&|script| !script.contains('`')) > 20);
    }
}
