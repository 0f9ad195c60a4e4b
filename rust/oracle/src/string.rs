//! `parse_string_literal`, for the three terminators.

use crate::caught::caught;
use crate::scan::Scan;
use crate::{tokenizer, Accepted, Place, Refused};

/// What the source's tokenizer asks of a literal with this terminator.
struct Kind {
    verbatim: bool,
    allow_line_continuation: bool,
    allow_interpolation: bool,
}

fn kind(terminator: char) -> Option<Kind> {
    let [verbatim, allow_line_continuation, allow_interpolation] = match terminator {
        '"' => [false, true, false],
        '\'' => [false, false, false],
        '`' => [true, false, true],
        _ => return None,
    };
    Some(Kind {
        verbatim,
        allow_line_continuation,
        allow_interpolation,
    })
}

/// The literal whose opening terminator (or, for a resumed text, whose `}`) stands at `place` and
/// was taken. `limit` counts the body's bytes; 0 is none.
pub fn parse_string_literal(
    text: &str,
    offset: usize,
    place: Place,
    terminator: char,
    limit: usize,
) -> Option<Result<Accepted, Refused>> {
    let kind = kind(terminator)?;
    let mut scan = Scan::new(text, offset, place, limit)?;
    let read = caught(|| {
        tokenizer::parse_string_literal(
            &mut scan.cursor,
            &mut scan.state,
            &mut scan.pos,
            terminator,
            kind.verbatim,
            kind.allow_line_continuation,
            kind.allow_interpolation,
        )
    })?;
    Some(scan.literal(read))
}
