//! What the copied files name of the rest of the source, as little of it as they use.
#![allow(clippy::upper_case_acronyms, non_camel_case_types)]

use crate::smart_string::SmartString;
use std::collections::BTreeMap;
use std::fmt;
use std::hash::{Hash, Hasher};
use std::str::FromStr;

pub type INT = i64;
pub type UNSIGNED_INT = u64;
pub type FLOAT = f64;
pub type Identifier = SmartString;
pub type StaticVec<T> = Vec<T>;

pub mod engine {
    pub type Precedence = std::num::NonZeroU8;
}

pub mod func {
    pub mod native {
        use crate::tokenizer::TokenizeState;
        use crate::types::{Position, Token};

        pub type OnParseTokenCallback = dyn Fn(Token, Position, &TokenizeState) -> Token;
    }
}

/// An engine with no custom keyword, no disabled symbol and no limit.
#[derive(Default)]
pub struct Engine {
    pub custom_keywords: BTreeMap<Identifier, Option<engine::Precedence>>,
    pub token_mapper: Option<Box<func::native::OnParseTokenCallback>>,
}

impl Engine {
    pub fn is_symbol_disabled(&self, _: &str) -> bool {
        false
    }

    pub fn max_string_size(&self) -> usize {
        0
    }
}

/// The faults of the tokenizer, with the text or number that each carries.
#[derive(Debug, Clone, PartialEq, Eq, Hash)]
pub enum LexError {
    UnexpectedInput(String),
    UnterminatedString,
    StringTooLong(usize),
    MalformedEscapeSequence(String),
    MalformedNumber(String),
    MalformedChar(String),
    MalformedIdentifier(String),
    ImproperSymbol(String, String),
}

impl LexError {
    /// Document 01's number, where it has the fault.
    pub fn number(&self) -> Option<u32> {
        match self {
            Self::UnterminatedString => Some(4),
            Self::UnexpectedInput(_) => Some(5),
            Self::MalformedEscapeSequence(_) => Some(6),
            Self::StringTooLong(_) => Some(7),
            Self::MalformedIdentifier(_) => Some(8),
            Self::MalformedNumber(_) | Self::MalformedChar(_) | Self::ImproperSymbol(..) => None,
        }
    }

    /// The part of the text that the fault is about, empty where it names none.
    pub fn part(&self) -> &str {
        match self {
            Self::UnterminatedString | Self::StringTooLong(_) => "",
            Self::UnexpectedInput(part)
            | Self::MalformedEscapeSequence(part)
            | Self::MalformedNumber(part)
            | Self::MalformedChar(part)
            | Self::MalformedIdentifier(part)
            | Self::ImproperSymbol(part, _) => part,
        }
    }
}

impl fmt::Display for LexError {
    fn fmt(&self, f: &mut fmt::Formatter<'_>) -> fmt::Result {
        fmt::Debug::fmt(self, f)
    }
}

/// A floating-point number that can be hashed.
#[derive(Debug, Clone, PartialEq)]
pub struct FloatWrapper<F>(F);

impl Hash for FloatWrapper<FLOAT> {
    fn hash<H: Hasher>(&self, state: &mut H) {
        self.0.to_bits().hash(state);
    }
}

impl FromStr for FloatWrapper<FLOAT> {
    type Err = <FLOAT as FromStr>::Err;

    fn from_str(text: &str) -> Result<Self, Self::Err> {
        text.parse().map(Self)
    }
}

impl fmt::Display for FloatWrapper<FLOAT> {
    fn fmt(&self, f: &mut fmt::Formatter<'_>) -> fmt::Result {
        fmt::Display::fmt(&self.0, f)
    }
}
