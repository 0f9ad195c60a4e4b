//! What a scan starts from, and what a literal's scan answers.

use crate::cursor::Cursor;
use crate::tokenizer::TokenizeState;
use crate::types::position::access::{from_pair, to_pair};
use crate::{LexError, Place, Position, SmartString};
use std::num::NonZeroUsize;

/// A literal that was read to its closing, to `${`, or to the end of the text.
#[derive(Debug, Clone, PartialEq, Eq)]
pub struct Accepted {
    pub body: String,
    /// Whether `${` ended it.
    pub interpolated: bool,
    /// The place of the first character, NONE where there is none.
    pub first: Place,
    /// Bytes of the text up to where the scan stopped.
    pub offset: usize,
    pub position: Place,
    /// The terminator still on record.
    pub record: Option<String>,
}

/// A literal that was refused.
#[derive(Debug, Clone, PartialEq, Eq)]
pub struct Refused {
    pub fault: LexError,
    /// The place reported with the fault.
    pub place: Place,
    /// Bytes of the text up to where the scan stopped.
    pub offset: usize,
    pub position: Place,
    /// The terminator still on record.
    pub record: Option<String>,
}

/// What the source's scanners take and change.
pub struct Scan<'a> {
    pub cursor: Cursor<'a>,
    pub state: TokenizeState,
    pub pos: Position,
}

impl<'a> Scan<'a> {
    /// Nothing on record, and `limit` bytes to a string, 0 being no limit.
    pub fn new(text: &'a str, offset: usize, place: Place, limit: usize) -> Option<Self> {
        Some(Self {
            cursor: Cursor::new(text, offset)?,
            state: TokenizeState {
                max_string_len: NonZeroUsize::new(limit),
                ..TokenizeState::default()
            },
            pos: from_pair(place),
        })
    }

    pub fn position(&self) -> Place {
        to_pair(self.pos)
    }

    /// The source's result, with what its scan left behind.
    pub fn literal(
        self,
        read: Result<(SmartString, bool, Position), (LexError, Position)>,
    ) -> Result<Accepted, Refused> {
        let offset = self.cursor.offset();
        let position = self.position();
        let record = self.state.is_within_text_terminated_by.map(String::from);
        match read {
            Ok((body, interpolated, first)) => Ok(Accepted {
                body: body.into(),
                interpolated,
                first: to_pair(first),
                offset,
                position,
                record,
            }),
            Err((fault, place)) => Err(Refused {
                fault,
                place: to_pair(place),
                offset,
                position,
                record,
            }),
        }
    }
}
