//! A lexer by document 01's rules of the run, written by hand in plain Rust for speed: the limit
//! that ours is held to.
//!
//! It has the same outputs in the same lent memory, under the empty book and no limit. Where it
//! stops with a fault, bytes beyond those that it answers may have been written.

mod literals;

use std::str;

/// The longest script, in bytes.
const LONGEST: usize = 16_777_216;

/// How many interpolations may be open.
const DEEPEST: usize = 16;

/// How many bytes an entry has.
const ENTRY: usize = 20;

/// The kinds of document 01.
mod kind {
    pub const NAME: u32 = 1;
    pub const KEYWORD: u32 = 2;
    pub const SYMBOL: u32 = 3;
    pub const NUMBER: u32 = 4;
    pub const STRING: u32 = 5;
    pub const INTERPOLATED: u32 = 6;
    pub const TEXT: u32 = 7;
    pub const RAW: u32 = 8;
    pub const CHAR: u32 = 9;
    pub const COMMENT: u32 = 10;
}

/// Bits of a byte's class.
const WORD: u8 = 1;
const IN_QUOTES: u8 = 2;
const IN_APOSTROPHES: u8 = 4;
const IN_TEXT: u8 = 8;
const IN_RAW: u8 = 16;
const IN_COMMENT: u8 = 32;

/// What each byte is: of a word, or what ends a plain stretch of a literal or comment.
static CLASS: [u8; 256] = classes();

const fn classes() -> [u8; 256] {
    let mut classes = [0; 256];
    let mut byte = 0;
    while byte < 256 {
        classes[byte] = match byte as u8 {
            b'a'..=b'z' | b'A'..=b'Z' | b'0'..=b'9' | b'_' => WORD,
            b'\n' => IN_QUOTES | IN_APOSTROPHES | IN_TEXT | IN_RAW | IN_COMMENT,
            b'\r' => IN_QUOTES | IN_APOSTROPHES | IN_TEXT,
            b'\\' => IN_QUOTES | IN_APOSTROPHES | IN_TEXT,
            b'"' => IN_QUOTES | IN_RAW,
            b'\'' => IN_APOSTROPHES,
            b'`' | b'$' => IN_TEXT,
            b'/' | b'*' => IN_COMMENT,
            _ => 0,
        };
        byte += 1;
    }
    classes
}

/// How many characters well-formed bytes have.
#[inline(always)]
fn characters(bytes: &[u8]) -> u32 {
    let first = |&&byte: &&u8| byte & 0xc0 != 0x80;
    bytes.iter().filter(first).count() as u32
}

/// Line and column, counted on past 65,535 and cut when told.
#[derive(Clone, Copy)]
struct Place {
    line: u32,
    column: u32,
}

/// How a run ends: 0 or the stop's number, where, and the part of the script that it is about.
struct Ending {
    number: u32,
    place: Place,
    offset: usize,
    length: usize,
}

impl Ending {
    #[cold]
    fn new(number: u32, place: Place) -> Self {
        Self::part(number, place, 0, 0)
    }

    #[cold]
    fn part(number: u32, place: Place, offset: usize, length: usize) -> Self {
        Self {
            number,
            place,
            offset,
            length,
        }
    }
}

type Step = Result<(), Ending>;

struct Lexer<'a> {
    text: &'a str,
    bytes: &'a [u8],
    at: usize,
    place: Place,
    literals: &'a mut [u8],
    used: usize,
    entries: &'a mut [u8],
    listed: usize,
    /// How many braces are open in each interpolation, the outermost first.
    braces: [u32; DEEPEST],
    depth: usize,
}

/// The run, as `stew_run` with the empty book and no limit.
pub fn run(script: &[u8], literals: &mut [u8], entries: &mut [u8], answer: &mut [u8; 28]) -> u32 {
    let place = Place { line: 1, column: 0 };
    let checked = match script.len() {
        0..=LONGEST => str::from_utf8(script).map_err(|_| Ending::new(1, place)),
        _ => Err(Ending::new(2, place)),
    };
    let (ending, listed, used) = match checked {
        Err(ending) => (ending, 0, 0),
        Ok(text) => {
            let mut lexer = Lexer {
                text,
                bytes: script,
                at: 0,
                place,
                literals,
                used: 0,
                entries,
                listed: 0,
                braces: [0; DEEPEST],
                depth: 0,
            };
            let ending = lexer.read();
            (ending, lexer.listed, lexer.used)
        }
    };
    let numbers = [
        ending.number,
        ending.place.line.min(65535),
        ending.place.column.min(65535),
        listed as u32,
        used as u32,
        ending.offset as u32,
        ending.length as u32,
    ];
    for (four, number) in answer.chunks_exact_mut(4).zip(numbers) {
        four.copy_from_slice(&number.to_le_bytes());
    }
    ending.number
}

impl Lexer<'_> {
    fn read(&mut self) -> Ending {
        loop {
            if let Err(ending) = self.step() {
                return ending;
            }
        }
    }

    #[inline(always)]
    fn peek(&self, ahead: usize) -> u8 {
        self.bytes.get(self.at + ahead).copied().unwrap_or(0)
    }

    /// The place of the next character, which starts no line.
    #[inline(always)]
    fn start(&self) -> Place {
        Place {
            line: self.place.line,
            column: self.place.column + 1,
        }
    }

    /// Takes so many bytes of as many characters, none of which starts a line.
    #[inline(always)]
    fn take(&mut self, bytes: usize) {
        self.at += bytes;
        self.place.column += bytes as u32;
    }

    #[inline(always)]
    fn new_line(&mut self) {
        self.place.line += 1;
        self.place.column = 0;
    }

    /// The next token, or how the reading ends.
    #[inline(always)]
    fn step(&mut self) -> Step {
        loop {
            let byte = match self.bytes.get(self.at) {
                Some(&byte) => byte,
                None => return Err(self.end()),
            };
            return match byte {
                b'\n' => {
                    self.at += 1;
                    self.new_line();
                    continue;
                }
                b' ' | b'\t' | b'\r' | 0x0b | 0x0c => {
                    self.take(1);
                    continue;
                }
                b'a'..=b'z' | b'A'..=b'Z' => self.word(),
                b'_' => self.underscored(),
                b'0'..=b'9' => self.number(),
                b'"' => self.string(),
                b'\'' => self.character(),
                b'`' => self.text(),
                b'#' if self.peek(1) != b'{' => self.raw(),
                b'/' if self.peek(1) == b'/' => self.line_comment(),
                b'/' if self.peek(1) == b'*' => self.block_comment(),
                0x80..=0xff if self.skip_white() => continue,
                _ => self.symbol(byte),
            };
        }
    }

    #[cold]
    fn end(&self) -> Ending {
        Ending::new(if self.depth == 0 { 0 } else { 11 }, self.place)
    }

    /// Skips one character beyond ASCII, if it is white.
    fn skip_white(&mut self) -> bool {
        match self.text[self.at..].chars().next() {
            Some(ch) if ch.is_whitespace() => {
                self.at += ch.len_utf8();
                self.place.column += 1;
                true
            }
            _ => false,
        }
    }

    /// Lists a token.
    #[inline(always)]
    fn list(&mut self, kind: u32, place: Place, offset: usize, length: usize) -> Step {
        let from = self.listed * ENTRY;
        let entry = match self.entries.get_mut(from..from + ENTRY) {
            Some(entry) => entry,
            None => return Err(Ending::new(10, place)),
        };
        entry[0..4].copy_from_slice(&kind.to_le_bytes());
        entry[4..8].copy_from_slice(&place.line.min(65535).to_le_bytes());
        entry[8..12].copy_from_slice(&place.column.min(65535).to_le_bytes());
        entry[12..16].copy_from_slice(&(offset as u32).to_le_bytes());
        entry[16..20].copy_from_slice(&(length as u32).to_le_bytes());
        self.listed += 1;
        Ok(())
    }

    /// Lists the literal whose bytes were written from `from` on, up to `to`.
    #[inline(always)]
    fn list_literal(&mut self, kind: u32, place: Place, to: usize) -> Step {
        let from = self.used;
        self.list(kind, place, from, to - from)?;
        self.used = to;
        Ok(())
    }

    /// Where the longest stretch of bytes of a word ends.
    #[inline(always)]
    fn word_end(&self) -> usize {
        let rest = &self.bytes[self.at..];
        let length = rest
            .iter()
            .position(|&byte| CLASS[byte as usize] & WORD == 0);
        self.at + length.unwrap_or(rest.len())
    }

    /// Where the next byte of a class stands, or the end.
    #[inline(always)]
    fn stretch_end(&self, class: u8) -> usize {
        let rest = &self.bytes[self.at..];
        let length = rest
            .iter()
            .position(|&byte| CLASS[byte as usize] & class != 0);
        self.at + length.unwrap_or(rest.len())
    }

    #[inline(always)]
    fn word(&mut self) -> Step {
        let (from, to) = (self.at, self.word_end());
        let kind = match is_keyword(&self.bytes[from..to]) {
            true => kind::KEYWORD,
            false => kind::NAME,
        };
        self.list(kind, self.start(), from, to - from)?;
        self.take(to - from);
        Ok(())
    }

    /// A word that begins with `_`: underscores, then a letter.
    fn underscored(&mut self) -> Step {
        let (from, to) = (self.at, self.word_end());
        let word = &self.bytes[from..to];
        let kind = match word.iter().find(|&&byte| byte != b'_') {
            Some(byte) if byte.is_ascii_alphabetic() => kind::NAME,
            None if word.len() == 1 => kind::SYMBOL,
            _ => return Err(Ending::part(8, self.start(), from, to - from)),
        };
        self.list(kind, self.start(), from, to - from)?;
        self.take(to - from);
        Ok(())
    }

    #[inline(always)]
    fn number(&mut self) -> Step {
        let (from, to) = (self.at, self.word_end());
        self.list(kind::NUMBER, self.start(), from, to - from)?;
        self.take(to - from);
        Ok(())
    }

    fn line_comment(&mut self) -> Step {
        let from = self.at;
        let length = self.text[from..].find('\n');
        let length = length.unwrap_or(self.bytes.len() - from);
        self.list(kind::COMMENT, self.start(), from, length)?;
        self.at += length;
        self.place.column += characters(&self.bytes[from..from + length]);
        Ok(())
    }

    fn block_comment(&mut self) -> Step {
        let (from, start) = (self.at, self.start());
        let mut level = 1u32;
        self.take(2);
        while level > 0 {
            let to = self.stretch_end(IN_COMMENT);
            self.place.column += characters(&self.bytes[self.at..to]);
            self.at = to;
            match (self.bytes.get(to), self.peek(1)) {
                (None, _) => return Err(Ending::new(11, self.place)),
                (Some(b'\n'), _) => {
                    self.at += 1;
                    self.new_line();
                }
                (Some(b'/'), b'*') => {
                    level += 1;
                    self.take(2);
                }
                (Some(b'*'), b'/') => {
                    level -= 1;
                    self.take(2);
                }
                _ => self.take(1),
            }
        }
        self.list(kind::COMMENT, start, from, self.at - from)
    }

    #[inline(always)]
    fn symbol(&mut self, first: u8) -> Step {
        let length = self.symbol_length(first);
        if length == 0 {
            return Err(self.unexpected(self.start(), self.at));
        }
        self.list(kind::SYMBOL, self.start(), self.at, length)?;
        self.take(length);
        if self.depth > 0 {
            return self.brace(first);
        }
        Ok(())
    }

    /// 5, about the character that stands there.
    #[cold]
    fn unexpected(&self, place: Place, at: usize) -> Ending {
        let length = self.text[at..].chars().next().map_or(0, char::len_utf8);
        Ending::part(5, place, at, length)
    }

    /// Counts a brace within an interpolation, and goes on with the text behind its last one.
    fn brace(&mut self, first: u8) -> Step {
        let open = &mut self.braces[self.depth - 1];
        match first {
            b'{' | b'#' => *open += 1,
            b'}' => {
                *open -= 1;
                if *open == 0 {
                    self.depth -= 1;
                    return self.piece(self.place);
                }
            }
            _ => (),
        }
        Ok(())
    }

    /// How long the longest listed symbol is, 0 if there is none.
    #[inline(always)]
    fn symbol_length(&self, first: u8) -> usize {
        let (second, third) = (self.peek(1), self.peek(2));
        match (first, second) {
            (b'{' | b'}' | b')' | b'[' | b']' | b';' | b',', _) => 1,
            (b'(', b')') | (b'#', b'{') | (b':', b':') => 2,
            (b'+' | b'-' | b'/' | b'%' | b'^' | b'|' | b'&' | b'=', b'=') => 2,
            (b'*' | b'<' | b'>' | b'!', b'=') => 2,
            (b'|', b'|') | (b'&', b'&') | (b'=', b'>') => 2,
            (b'?', b'.' | b'?' | b'[') => 2,
            (b'*', b'*') | (b'<', b'<') | (b'>', b'>') | (b'.', b'.') => {
                2 + usize::from(third == b'=')
            }
            (b'!', b'i') if third == b'n' && CLASS[self.peek(3) as usize] & WORD == 0 => 3,
            (b'(' | b'+' | b'-' | b'*' | b'/' | b'%' | b'^' | b'|' | b'&', _) => 1,
            (b'=' | b'<' | b'>' | b'!' | b'.' | b':', _) => 1,
            _ => 0,
        }
    }
}

/// The listed words of letters.
#[inline(always)]
fn is_keyword(word: &[u8]) -> bool {
    #[rustfmt::skip]
    let is_listed = matches!(
        word,
        b"true" | b"false" | b"let" | b"const" | b"if" | b"else" | b"switch" | b"do" | b"while"
            | b"until" | b"loop" | b"for" | b"in" | b"fn" | b"continue" | b"break" | b"return"
            | b"throw" | b"try" | b"catch" | b"private" | b"import" | b"export" | b"as"
    );
    is_listed
}
