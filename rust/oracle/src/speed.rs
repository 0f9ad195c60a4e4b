//! The source's own functions as its users call them, for timing.
//!
//! The other modules ask through a cursor that counts bytes, catch panics, and collect what is
//! answered. Here each function reads the source's own stream, nothing is caught, and an answer is
//! dropped as soon as it is there.

use crate::run::drive;
use crate::tokenizer::{self, access, InputStream, MultiInputsStream, TokenizeState};
use crate::types::position::access::from_pair;
use crate::types::Token;
use crate::{Place, Position};
use std::arch::asm;

/// Makes the compiler believe that the value is looked at, at no cost.
#[inline(always)]
pub fn kept<T: ?Sized>(value: &T) {
    let address = (value as *const T).cast::<u8>();
    // SAFETY: no instruction is added.
    unsafe { asm!("/* {0} */", in(reg) address, options(nostack, preserves_flags)) }
}

/// A token of the source's own run.
#[derive(Debug, Clone, Copy, PartialEq, Eq)]
pub struct Seen<'a> {
    pub place: Place,
    /// The text of a name, a reserved word, a literal or a comment.
    pub text: Option<&'a str>,
    pub is_comment: bool,
    pub is_fault: bool,
}

/// Reads a whole script and drops its tokens. Answers how many there were, a fault counting as one.
pub fn run(script: &str, comments: bool) -> usize {
    counted(script, comments, |token, place| {
        kept(token);
        kept(&place);
    })
}

/// The same, and shows every token.
pub fn seen(script: &str, comments: bool, mut each: impl FnMut(Seen)) -> usize {
    counted(script, comments, |token, place| {
        let mut bytes = [0; 4];
        each(Seen {
            place,
            text: match token {
                Token::Identifier(text) | Token::Reserved(text) => Some(text.as_str()),
                Token::StringConstant(text) | Token::InterpolatedString(text) => {
                    Some(text.as_str())
                }
                Token::Comment(text) => Some(text.as_str()),
                Token::CharConstant(ch) => Some(ch.encode_utf8(&mut bytes)),
                _ => None,
            },
            is_comment: matches!(token, Token::Comment(..)),
            is_fault: matches!(token, Token::LexError(..)),
        })
    })
}

/// The source's own run, and how many tokens it has before EOF.
#[inline(always)]
fn counted(script: &str, comments: bool, mut each: impl FnMut(&Token, Place)) -> usize {
    let mut count = 0;
    drive(script, comments, |token, place| {
        if !matches!(token, Token::EOF) {
            count += 1;
            each(token, place);
        }
    });
    count
}

/// What the source's scanners take and change, made once and used again.
pub struct Scanner<'a> {
    state: TokenizeState,
    stream: MultiInputsStream<'a>,
}

impl Default for Scanner<'_> {
    fn default() -> Self {
        Self {
            state: TokenizeState::default(),
            stream: MultiInputsStream {
                buf: [None, None],
                streams: Vec::with_capacity(1),
                index: 0,
            },
        }
    }
}

impl<'a> Scanner<'a> {
    /// Sets the stream to the front of a text, as `lex_raw` makes it.
    fn start(&mut self, text: &'a str, place: Place) -> Position {
        self.stream.buf = [None, None];
        self.stream.index = 0;
        self.stream.streams.clear();
        self.stream.streams.push(text.chars().peekable());
        from_pair(place)
    }

    /// The literal behind its terminator.
    pub fn string(&mut self, text: &'a str, place: Place, terminator: char) {
        let mut pos = self.start(text, place);
        let [verbatim, continuation, interpolation] = match terminator {
            '"' => [false, true, false],
            '\'' => [false, false, false],
            _ => [true, false, true],
        };
        kept(&tokenizer::parse_string_literal(
            &mut self.stream,
            &mut self.state,
            &mut pos,
            terminator,
            verbatim,
            continuation,
            interpolation,
        ));
    }

    /// The raw literal behind its first `#`.
    pub fn raw(&mut self, text: &'a str, place: Place) {
        let mut pos = self.start(text, place);
        let (stream, state) = (&mut self.stream, &mut self.state);
        kept(&tokenizer::parse_raw_string_literal(
            stream, state, &mut pos, 0,
        ));
    }

    /// The identifier that begins with the text's first character.
    pub fn identifier(&mut self, text: &'a str, place: Place) {
        let mut pos = self.start(text, place);
        let (stream, state) = (&mut self.stream, &mut self.state);
        let first = stream.get_next().unwrap_or('_');
        kept(&access::parse_identifier_token(
            stream, state, &mut pos, first,
        ));
    }

    /// The comment that is open at a level.
    pub fn block_comment(&mut self, text: &'a str, place: Place, level: usize) {
        let mut pos = self.start(text, place);
        kept(&access::scan_block_comment(
            &mut self.stream,
            level,
            &mut pos,
        ));
        kept(&pos);
    }
}

/// Looks a text up. Answers whether it is a keyword or symbol.
pub fn lookup(syntax: &str) -> bool {
    let token = Token::lookup_symbol_from_syntax(syntax);
    kept(&token);
    token.is_some()
}
