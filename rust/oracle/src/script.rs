//! A whole script: document 01, "Run", over the source's own scanners and words.
//!
//! A script is first read by the unlimited rules, to its end or to a fault. What a limit and two
//! rooms leave of that reading is cut from it afterwards, for as many of them as are asked.

use crate::identifier::{by_book, parse_identifier_token, Word};
use crate::position::START;
use crate::reading::{Reading, Scanner};
use crate::types::position::access::{from_pair, to_pair};
use crate::{book, comment, position, token, Accepted, LexError, Place};
use std::str;

/// The longest script, in bytes.
pub const LONGEST: usize = 16_777_216;

/// How many interpolations may be open.
const DEEPEST: usize = 16;

/// How many bytes the longest listed symbol has.
pub const LONGEST_SYMBOL: usize = 3;

/// What a token is, by document 01's numbers.
#[derive(Debug, Clone, Copy, PartialEq, Eq)]
pub enum Kind {
    Name = 1,
    Keyword,
    Symbol,
    Number,
    String,
    /// A piece of text that `${` ends.
    Interpolated,
    /// A piece of text that its backtick ends.
    Text,
    Raw,
    Char,
    Comment,
    Reserved,
}

/// Bytes of the script, or of the packed literals.
#[derive(Debug, Clone, Copy, PartialEq, Eq, Default)]
pub struct Part {
    pub offset: usize,
    pub length: usize,
}

#[derive(Debug, Clone, Copy, PartialEq, Eq)]
pub struct Entry {
    pub kind: Kind,
    pub place: Place,
    pub part: Part,
}

/// How a run ends: the stop's number, or 0 at the script's end, and where. The part of the script
/// that the fault is about is empty at 0 where it is about none.
#[derive(Debug, Clone, Copy, PartialEq, Eq)]
pub struct Ending {
    pub number: u32,
    pub place: Place,
    pub part: Part,
}

impl Ending {
    fn new(number: u32, place: Place) -> Self {
        let part = Part::default();
        Self {
            number,
            place,
            part,
        }
    }

    /// A fault of the source. The part that it is about ends where the scan stopped.
    fn fault(fault: &LexError, place: Place, stopped: usize) -> Self {
        let number = fault.number().expect("a fault that document 01 has");
        let mut ending = Self::new(number, place);
        let length = fault.part().len();
        if length > 0 {
            let offset = stopped - length;
            ending.part = Part { offset, length };
        }
        ending
    }
}

/// The limit on a literal's bytes, 0 for none; the literal bytes and the entries that there is room
/// for.
#[derive(Debug, Clone, Copy, PartialEq, Eq)]
pub struct Bounds {
    pub limit: usize,
    pub literals: usize,
    pub entries: usize,
}

/// What a run leaves: the entries, the packed literal bytes, and how it ends.
#[derive(Debug, Clone, PartialEq, Eq)]
pub struct Left {
    pub entries: Vec<Entry>,
    pub literals: Vec<u8>,
    pub ending: Ending,
}

/// A script's reading by the unlimited rules.
#[derive(Debug)]
pub struct Script<'a> {
    tokens: Vec<Token<'a>>,
    ending: Ending,
    /// The literal that brought the ending, or was followed by it. It is not listed, but what its
    /// limit and its room bring comes first.
    unlisted: Option<Reading<'a>>,
}

#[derive(Debug)]
enum Token<'a> {
    /// A part of the script.
    Part(Entry),
    Literal(Kind, Reading<'a>),
}

impl<'a> Script<'a> {
    /// The reading of any bytes, under any book.
    pub fn read(script: &'a [u8], book: &'a [u8]) -> Self {
        let refused = |number| Self {
            tokens: Vec::new(),
            ending: Ending::new(number, START),
            unlisted: None,
        };
        if script.len() > LONGEST {
            return refused(2);
        }
        match (str::from_utf8(script), book::words(book)) {
            (Err(_), _) => refused(1),
            (Ok(_), None) => refused(14),
            (Ok(text), Some(words)) => Run::new(text, words).read(),
        }
    }

    /// What a limit and two rooms leave.
    pub fn cut(&self, bounds: Bounds) -> Left {
        let mut left = Left {
            entries: Vec::new(),
            literals: Vec::new(),
            ending: self.ending,
        };
        if let Err(ending) = self.cut_into(&mut left, bounds) {
            left.ending = ending;
        }
        left
    }

    fn cut_into(&self, left: &mut Left, bounds: Bounds) -> Result<(), Ending> {
        for token in &self.tokens {
            match token {
                Token::Part(entry) => left.list(*entry, "", bounds)?,
                Token::Literal(kind, literal) => {
                    left.admit(literal, bounds)?;
                    let body = literal.body();
                    let entry = Entry {
                        kind: *kind,
                        place: literal.place,
                        part: Part {
                            offset: left.literals.len(),
                            length: body.len(),
                        },
                    };
                    left.list(entry, body, bounds)?;
                }
            }
        }
        let mut unlisted = self.unlisted.iter();
        unlisted.try_for_each(|literal| left.admit(literal, bounds))
    }
}

impl Left {
    /// 9 or 7, where a literal passes its room or its limit.
    fn admit(&self, literal: &Reading, bounds: Bounds) -> Result<(), Ending> {
        if literal.is_full(bounds.limit, bounds.literals - self.literals.len()) {
            return Err(Ending::new(9, literal.place));
        }
        if literal.is_long(bounds.limit) {
            return Err(Ending::new(7, literal.place));
        }
        Ok(())
    }

    /// 10, where no entry is left for a token.
    fn list(&mut self, entry: Entry, body: &str, bounds: Bounds) -> Result<(), Ending> {
        if self.entries.len() == bounds.entries {
            return Err(Ending::new(10, entry.place));
        }
        self.entries.push(entry);
        self.literals.extend(body.bytes());
        Ok(())
    }

    /// The lines of the listing program.
    pub fn listing(&self, script: &[u8]) -> String {
        let line = |entry: &Entry| {
            let Entry { kind, place, part } = entry;
            let bytes = match kind {
                Kind::String | Kind::Interpolated | Kind::Text | Kind::Raw | Kind::Char => {
                    &self.literals[..]
                }
                _ => script,
            };
            let name = format!("{:?}", kind).to_lowercase();
            let shown = hex(&bytes[part.offset..part.offset + part.length]);
            format!("{} {} {}\n", position::debug(*place), name, shown)
        };
        let lines: String = self.entries.iter().map(line).collect();
        let Ending { number, place, .. } = self.ending;
        let last = match number {
            0 => "end".into(),
            number => format!("stop {}", number),
        };
        format!("{}{} {}\n", lines, last, position::debug(place))
    }
}

/// Bytes in lowercase hex, `-` for none.
fn hex(bytes: &[u8]) -> String {
    match bytes {
        [] => "-".into(),
        _ => bytes.iter().map(|byte| format!("{:02x}", byte)).collect(),
    }
}

/// What the listing program prints.
pub fn listing(input: &[u8]) -> String {
    let bounds = Bounds {
        limit: 0,
        literals: 32_768,
        entries: 1_800,
    };
    if input.len() > 32_768 {
        return "stop 2 1\n".into();
    }
    Script::read(input, &[0, 0]).cut(bounds).listing(input)
}

/// Where a run stands: behind a character, and at its place.
#[derive(Clone, Copy)]
struct At {
    offset: usize,
    place: Place,
}

/// A run by the unlimited rules.
struct Run<'a> {
    text: &'a str,
    words: Vec<(&'a str, u8)>,
    at: At,
    /// How many braces are open in each interpolation, the outermost first.
    braces: Vec<usize>,
    tokens: Vec<Token<'a>>,
    unlisted: Option<Reading<'a>>,
}

impl<'a> Run<'a> {
    fn new(text: &'a str, words: Vec<(&'a str, u8)>) -> Self {
        let (offset, place) = (0, START);
        Self {
            text,
            words,
            at: At { offset, place },
            braces: Vec::new(),
            tokens: Vec::new(),
            unlisted: None,
        }
    }

    fn read(mut self) -> Script<'a> {
        let ending = loop {
            if let Err(ending) = self.step() {
                break ending;
            }
        };
        Script {
            tokens: self.tokens,
            ending,
            unlisted: self.unlisted,
        }
    }

    fn rest(&self) -> &'a str {
        &self.text[self.at.offset..]
    }

    /// The place of the next character, which starts no line.
    fn start(&self) -> Place {
        let mut place = from_pair(self.at.place);
        place.advance();
        to_pair(place)
    }

    /// Behind the next bytes. Only LF starts a line.
    fn behind(&self, length: usize) -> At {
        let mut place = from_pair(self.at.place);
        for ch in self.rest()[..length].chars() {
            match ch {
                '\n' => place.new_line(),
                _ => place.advance(),
            }
        }
        At {
            offset: self.at.offset + length,
            place: to_pair(place),
        }
    }

    /// The next token, or how the reading ends.
    fn step(&mut self) -> Result<(), Ending> {
        let white = self.rest().len() - self.rest().trim_start().len();
        self.at = self.behind(white);
        let mut next = self.rest().chars();
        match (next.next(), next.next()) {
            (None, _) => Err(self.end()),
            (Some('a'..='z' | 'A'..='Z' | '_'), _) => self.word(),
            (Some('0'..='9'), _) => self.up_to(Kind::Number, |ch| !is_id_continue(ch)),
            (Some('"'), _) => self.literal(Kind::String, Scanner::String(0x22)),
            (Some('\''), _) => self.literal(Kind::Char, Scanner::String(0x27)),
            (Some('`'), _) => self.literal(Kind::Text, TEXT),
            (Some('#'), second) if second != Some('{') => self.literal(Kind::Raw, Scanner::Raw),
            (Some('/'), Some('/')) => self.up_to(Kind::Comment, |ch| ch == '\n'),
            (Some('/'), Some('*')) => self.block_comment(),
            (Some(first), _) => self.symbol(first),
        }
    }

    fn end(&self) -> Ending {
        let number = if self.braces.is_empty() { 0 } else { 11 };
        Ending::new(number, self.at.place)
    }

    /// Lists the part of the script that ends there.
    fn list(&mut self, kind: Kind, to: At) {
        let part = Part {
            offset: self.at.offset,
            length: to.offset - self.at.offset,
        };
        let place = self.start();
        self.tokens.push(Token::Part(Entry { kind, place, part }));
        self.at = to;
    }

    /// Lists what stands before the first such character, or before the end.
    fn up_to(&mut self, kind: Kind, is_past: fn(char) -> bool) -> Result<(), Ending> {
        let rest = self.rest();
        let length = rest.find(is_past).unwrap_or(rest.len());
        self.list(kind, self.behind(length));
        Ok(())
    }

    fn word(&mut self) -> Result<(), Ending> {
        let scanned = parse_identifier_token(self.text, self.at.offset, self.start());
        let scanned = scanned.expect("a character stands there");
        let text = &self.text[self.at.offset..scanned.offset];
        let in_book = self.words.iter().any(|&(word, _)| word == text);
        let kind = match by_book(&scanned.word, text, in_book) {
            Word::Token(_) if text == "_" => Kind::Symbol,
            Word::Token(_) => Kind::Keyword,
            Word::Reserved(_) => Kind::Reserved,
            Word::Identifier(_) => Kind::Name,
            Word::LexError(fault) => {
                return Err(Ending::fault(&fault, scanned.place, scanned.offset))
            }
        };
        let to = At {
            offset: scanned.offset,
            place: scanned.position,
        };
        self.list(kind, to);
        Ok(())
    }

    fn block_comment(&mut self) -> Result<(), Ending> {
        let from = self.behind(2);
        let scanned = comment::scan_block_comment(self.text, from.offset, 1, from.place);
        let scanned = scanned.expect("no place is on line 0");
        if scanned.level > 0 {
            return Err(Ending::new(11, scanned.position));
        }
        let to = At {
            offset: scanned.offset,
            place: scanned.position,
        };
        self.list(Kind::Comment, to);
        Ok(())
    }

    fn symbol(&mut self, first: char) -> Result<(), Ending> {
        let symbol = match longest_symbol(self.rest()) {
            Some(symbol) => symbol,
            None => {
                let unexpected = LexError::UnexpectedInput(first.into());
                let stopped = self.at.offset + first.len_utf8();
                return Err(Ending::fault(&unexpected, self.start(), stopped));
            }
        };
        self.list(Kind::Symbol, self.behind(symbol.len()));
        match (symbol, self.braces.last_mut()) {
            ("{" | "#{", Some(open)) => *open += 1,
            ("}", Some(open)) => {
                *open -= 1;
                if *open == 0 {
                    self.braces.pop();
                    return self.piece(Kind::Text, TEXT, self.at);
                }
            }
            _ => (),
        }
        Ok(())
    }

    /// The literal that begins with the next character.
    fn literal(&mut self, kind: Kind, scanner: Scanner) -> Result<(), Ending> {
        self.piece(kind, scanner, self.behind(1))
    }

    /// The literal from behind its first character, or the piece of text from behind a `}`.
    fn piece(&mut self, kind: Kind, scanner: Scanner, from: At) -> Result<(), Ending> {
        let literal = Reading::new(scanner, self.text, from.offset, from.place);
        let literal = literal.expect("no place is on line 0, and no literal at column 0");
        match self.accepted(kind, &literal) {
            Ok((kind, to)) => {
                if kind == Kind::Interpolated {
                    self.braces.push(0);
                }
                self.tokens.push(Token::Literal(kind, literal));
                self.at = to;
                Ok(())
            }
            Err(ending) => {
                self.unlisted = Some(literal);
                Err(ending)
            }
        }
    }

    /// What a literal is listed as, and where it stops; or its fault.
    fn accepted(&self, kind: Kind, literal: &Reading) -> Result<(Kind, At), Ending> {
        let start = literal.place;
        let read: &Accepted = match &literal.whole {
            Ok(read) => read,
            Err(read) => return Err(Ending::fault(&read.fault, read.place, read.offset)),
        };
        if read.record.is_some() {
            return Err(Ending::new(11, read.position));
        }
        if kind == Kind::Char && read.body.chars().count() != 1 {
            return Err(Ending::new(12, start));
        }
        if read.interpolated && self.braces.len() == DEEPEST {
            return Err(Ending::new(13, start));
        }
        let kind = if read.interpolated {
            Kind::Interpolated
        } else {
            kind
        };
        let to = At {
            offset: read.offset,
            place: read.position,
        };
        Ok((kind, to))
    }
}

const TEXT: Scanner = Scanner::String(0x60);

fn is_id_continue(ch: char) -> bool {
    ch.is_ascii_alphanumeric() || ch == '_'
}

/// The longest listed symbol in front of a text, `!in` only if no identifier character follows.
fn longest_symbol(text: &str) -> Option<&str> {
    let fronts = (1..=LONGEST_SYMBOL).rev();
    let mut fronts = fronts.filter_map(|length| text.get(..length));
    fronts.find(|&front| {
        let is_word = front == "!in" && text[front.len()..].starts_with(is_id_continue);
        !is_word && token::lookup_symbol_from_syntax(front).is_some()
    })
}
