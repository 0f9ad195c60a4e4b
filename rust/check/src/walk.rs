//! Where the token begins that a run did not list.
//!
//! A run lists a literal with its body, not with its part of the script. So the way from one listed
//! token to the next is walked over the script: past white space, and past literals, which are
//! known to be good.

use stewsatchel::{Kind, Token};

/// A text with an open interpolation.
#[derive(Debug, Clone, Copy)]
struct Level {
    /// Where the text begins: its backtick.
    text: usize,
    /// Where the interpolation begins: its `{`.
    brace: usize,
    /// How many braces are open in it.
    open: usize,
}

/// A way through the tokens of a script.
#[derive(Debug)]
pub struct Walk<'s> {
    script: &'s str,
    /// Behind the last token.
    at: usize,
    levels: Vec<Level>,
    /// Where the text begins that goes on here, if one does.
    resumed: Option<usize>,
}

impl<'s> Walk<'s> {
    /// The way past some tokens of a script.
    pub fn past<'t>(script: &'s str, tokens: impl Iterator<Item = Token<'t>>) -> Self {
        let mut walk = Self {
            script,
            at: 0,
            levels: Vec::new(),
            resumed: None,
        };
        for token in tokens {
            walk.pass(&token);
        }
        walk
    }

    /// Where the next token begins: behind white space, if no text goes on.
    pub fn next(&self) -> usize {
        let rest = &self.script[self.at..];
        match self.resumed {
            Some(_) => self.at,
            None => self.script.len() - rest.trim_start().len(),
        }
    }

    /// Where the text begins that goes on here.
    pub fn text(&self) -> Option<usize> {
        self.resumed
    }

    /// Where the innermost open interpolation begins.
    pub fn interpolation(&self) -> Option<usize> {
        self.levels.last().map(|level| level.brace)
    }

    fn pass(&mut self, token: &Token) {
        let start = self.next();
        let resumed = self.resumed.take();
        match &token.part {
            Some(part) => {
                self.at = part.end;
                self.count(token);
            }
            None => {
                let body = start + usize::from(resumed.is_none());
                self.at = end(self.script.as_bytes(), token.kind, body);
            }
        }
        if token.kind == Kind::Interpolated {
            self.levels.push(Level {
                text: resumed.unwrap_or(start),
                brace: self.at,
                open: 0,
            });
        }
    }

    /// Counts the braces of the innermost interpolation. The one that closes it leads back to its
    /// text.
    fn count(&mut self, token: &Token) {
        let level = match self.levels.last_mut() {
            Some(level) if token.kind == Kind::Symbol => level,
            _ => return,
        };
        match token.bytes {
            b"{" | b"#{" => level.open += 1,
            b"}" if level.open > 1 => level.open -= 1,
            b"}" => self.resumed = self.levels.pop().map(|level| level.text),
            _ => {}
        }
    }
}

/// Behind a good literal, from behind its first character on.
fn end(script: &[u8], kind: Kind, body: usize) -> usize {
    match kind {
        Kind::Raw => raw_end(script, body),
        Kind::String => quoted_end(script, body, b'"'),
        Kind::Char => quoted_end(script, body, b'\''),
        _ => text_end(script, body),
    }
}

/// Behind the first quote with as many hashes behind it as stand in front.
fn raw_end(script: &[u8], body: usize) -> usize {
    let more = script[body..].iter().take_while(|&&byte| byte == b'#');
    let hashes = more.count() + 1;
    let close = [b"\"", &b"#".repeat(hashes)[..]].concat();
    let body = body + hashes;
    let at = script[body..]
        .windows(close.len())
        .position(|front| front == close);
    at.map_or(script.len(), |at| body + at + close.len())
}

/// Behind the first quote that is neither doubled nor escaped.
fn quoted_end(script: &[u8], body: usize, quote: u8) -> usize {
    let mut at = body;
    while at < script.len() {
        at += match script[at..] {
            [first, second, ..] if first == quote && second == quote => 2,
            [first, ..] if first == quote => return at + 1,
            [b'\\', ..] => 2,
            _ => 1,
        };
    }
    script.len()
}

/// Behind the first backtick that is not doubled, or at the `{` of the first `${` that is not
/// escaped.
fn text_end(script: &[u8], body: usize) -> usize {
    let mut at = body;
    while at < script.len() {
        at += match script[at..] {
            [b'`', b'`', ..] => 2,
            [b'`', ..] => return at + 1,
            [b'$', b'{', ..] => return at + 1,
            [b'\\', b'$', b'{', ..] => 3,
            _ => 1,
        };
    }
    script.len()
}

#[cfg(test)]
mod tests {
    use super::*;
    use stewsatchel::{Book, Limits, Script};

    /// The way past all tokens of a whole script leads to its end.
    #[test]
    fn the_way_past_all_tokens_is_the_script() {
        let scripts = [
            "",
            " a\u{3000}+ 1 // b\n",
            "\"\"\"\\\"\" '''' '\\'' '\\\\' \"\\\\\" ``` ``` `\\` a",
            "#\"\"# ##\"\"#\"## ###\"\"##\"###",
            "`\\${${a}b${`c${#{d:{}}}`}``$` {} \"\\\n  e\" a",
        ];
        for script in scripts {
            let tokens = Script::read(script, &Book::empty(), &Limits::NONE).unwrap();
            let walk = Walk::past(script, tokens.iter());
            assert_eq!(walk.next(), script.len(), "{}", script);
            assert_eq!((walk.text(), walk.interpolation()), (None, None));
        }
    }
}
