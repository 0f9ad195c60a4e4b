//! `parse_raw_string_literal`.

use crate::caught::caught;
use crate::scan::Scan;
use crate::{tokenizer, Accepted, Place, Refused};

/// The raw literal whose first `#`, at `place`, was taken (`hash_count` 0), or whose opening with
/// `hash_count` hashes was. `limit` counts the body's bytes; 0 is none.
pub fn parse_raw_string_literal(
    text: &str,
    offset: usize,
    place: Place,
    hash_count: usize,
    limit: usize,
) -> Option<Result<Accepted, Refused>> {
    let mut scan = Scan::new(text, offset, place, limit)?;
    let read = caught(|| {
        tokenizer::parse_raw_string_literal(
            &mut scan.cursor,
            &mut scan.state,
            &mut scan.pos,
            hash_count,
        )
    })?;
    Some(scan.literal(read.map(|(body, first)| (body, false, first))))
}
