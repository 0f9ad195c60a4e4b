//! `scan_block_comment` and `is_doc_comment`.

use crate::caught::caught;
use crate::scan::Scan;
use crate::tokenizer::{self, access};
use crate::Place;

/// Where a block comment's scan stopped, and the level that is open there.
#[derive(Debug, Clone, PartialEq, Eq)]
pub struct Scanned {
    pub level: usize,
    /// Bytes of the text up to where the scan stopped.
    pub offset: usize,
    pub position: Place,
}

/// The comment that is open at `level`; `place` is that of the character taken last.
pub fn scan_block_comment(
    text: &str,
    offset: usize,
    level: usize,
    place: Place,
) -> Option<Scanned> {
    let mut scan = Scan::new(text, offset, place, 0)?;
    let level = caught(|| access::scan_block_comment(&mut scan.cursor, level, &mut scan.pos))?;
    Some(Scanned {
        level,
        offset: scan.cursor.offset(),
        position: scan.position(),
    })
}

pub fn is_doc_comment(comment: &str) -> bool {
    tokenizer::is_doc_comment(comment)
}
