//! The source's own run over a script, and what it keeps of token ends.

use crate::caught::caught;
use crate::tokenizer::{access, TokenizerControlBlock};
use crate::types::position::access::{from_pair, to_pair};
use crate::types::Token;
use crate::{token, Engine, Place};

/// The two places that the source keeps as it lists tokens.
#[derive(Debug, Clone, Copy, PartialEq, Eq)]
pub struct Ends {
    pub last: Place,
    pub previous: Place,
}

/// The ends after a token, given by its number, whose scan reached `place`.
pub fn record_token(ends: Ends, number: u32, place: Place) -> Option<Ends> {
    let token = token::sample(number)?;
    let mut control = TokenizerControlBlock::new();
    control.last_token_end = from_pair(ends.last);
    control.previous_token_end = from_pair(ends.previous);
    caught(|| access::record_token(&mut control, &token, from_pair(place)))?;
    Some(Ends {
        last: to_pair(control.last_token_end),
        previous: to_pair(control.previous_token_end),
    })
}

/// The numbers and places of a script's tokens, EOF or the first fault last.
pub fn tokens(script: &str) -> Option<Vec<(u32, Place)>> {
    caught(|| {
        let mut listed = Vec::new();
        drive(script, false, |token, place| {
            listed.push((token::number(token), place));
        });
        listed
    })
}

/// The source's own run, to EOF or its first fault, with comments returned or skipped.
///
/// An interpolated text goes on after the `}` that ends its block, as the source's parser asks.
#[inline(always)]
pub(crate) fn drive(script: &str, comments: bool, mut each: impl FnMut(&Token, Place)) {
    let engine = Engine::default();
    let scripts = [script];
    let (mut stream, control) = engine.lex_raw(&scripts, None);
    stream.state.include_comments = comments;
    // Braces open in each interpolated block, the outermost first.
    let mut blocks: Vec<usize> = Vec::new();

    for (token, place) in stream {
        each(&token, to_pair(place));
        match token {
            Token::EOF | Token::LexError(..) => break,
            Token::InterpolatedString(..) => blocks.push(0),
            Token::LeftBrace | Token::MapStart => {
                if let Some(open) = blocks.last_mut() {
                    *open += 1;
                }
            }
            Token::RightBrace => {
                if let Some(open) = blocks.last_mut() {
                    *open -= 1;
                    if *open == 0 {
                        blocks.pop();
                        control.borrow_mut().is_within_text = true;
                    }
                }
            }
            _ => (),
        }
    }
}
