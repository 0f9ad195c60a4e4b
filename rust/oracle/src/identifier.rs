//! `parse_identifier_token`.

use crate::caught::caught;
use crate::scan::Scan;
use crate::tokenizer::{access, InputStream};
use crate::types::position::access::to_pair;
use crate::types::Token;
use crate::{token, words, LexError, Place};

/// What an identifier's text turned out to be.
#[derive(Debug, Clone, PartialEq, Eq)]
pub enum Word {
    /// A keyword or symbol, by its number.
    Token(u32),
    Reserved(String),
    Identifier(String),
    LexError(LexError),
}

/// An identifier's answer, and where its scan stopped.
#[derive(Debug, Clone, PartialEq, Eq)]
pub struct Scanned {
    pub word: Word,
    /// The place answered with it.
    pub place: Place,
    /// Bytes of the text up to where the scan stopped.
    pub offset: usize,
    pub position: Place,
}

/// The identifier whose first character, whichever it is, stands at `offset` and at `place`.
/// `None` where no character stands there.
pub fn parse_identifier_token(text: &str, offset: usize, place: Place) -> Option<Scanned> {
    let mut scan = Scan::new(text, offset, place, 0)?;
    let first = scan.cursor.get_next()?;
    let (token, start) = caught(|| {
        access::parse_identifier_token(&mut scan.cursor, &mut scan.state, &mut scan.pos, first)
    })?;
    Some(Scanned {
        word: word(token),
        place: to_pair(start),
        offset: scan.cursor.offset(),
        position: scan.position(),
    })
}

fn word(token: Token) -> Word {
    match token {
        Token::Reserved(text) => Word::Reserved((*text).into()),
        Token::Identifier(text) => Word::Identifier((*text).into()),
        Token::LexError(fault) => Word::LexError(*fault),
        token => Word::Token(token::number(&token)),
    }
}

/// What a word is where a book stands in for the source's list: keyword before reserved before
/// validity.
pub fn by_book(word: &Word, text: &str, in_book: bool) -> Word {
    match word {
        Word::Token(_) => word.clone(),
        _ if in_book => Word::Reserved(text.into()),
        _ if words::is_valid_identifier(text) => Word::Identifier(text.into()),
        _ => Word::LexError(LexError::MalformedIdentifier(text.into())),
    }
}
