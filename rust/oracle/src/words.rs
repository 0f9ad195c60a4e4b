//! The lists of words, and the tests on them.

use crate::token::number;
use crate::types::token::{self, access};

/// One place of `KEYWORDS_LIST`: a text and the number of its token, or no text and EOF's.
#[derive(Debug, Clone, Copy, PartialEq, Eq)]
pub struct Keyword {
    pub text: &'static str,
    pub token: u32,
}

/// One place of `RESERVED_LIST`.
#[derive(Debug, Clone, Copy, PartialEq, Eq)]
pub struct Reserved {
    pub text: &'static str,
    /// Whether the word is reserved with the features chosen.
    pub reserved: bool,
    pub function: bool,
    pub method: bool,
}

/// The 153 places of `KEYWORDS_LIST`, in order.
pub fn keywords() -> Vec<Keyword> {
    let places = access::keywords_list().iter();
    places
        .map(|(text, token)| Keyword {
            text,
            token: number(token),
        })
        .collect()
}

/// The 150 places of `RESERVED_LIST`, in order.
pub fn reserved() -> Vec<Reserved> {
    let places = access::reserved_list().iter();
    places
        .map(|&(text, reserved, function, method)| Reserved {
            text,
            reserved,
            function,
            method,
        })
        .collect()
}

/// Whether the text is reserved, may be called as a function, and may be called as a method.
pub fn is_reserved_keyword_or_symbol(syntax: &str) -> (bool, bool, bool) {
    token::is_reserved_keyword_or_symbol(syntax)
}

pub fn is_valid_identifier(name: &str) -> bool {
    token::is_valid_identifier(name)
}
