//! What every list of entries keeps, whatever the script is.

use crate::ask::{hold, numbers, Fault, Question, ENTRY};
use crate::script::{CHAR, COMMENT, INTERPOLATED, STRING, SYMBOL, TEXT};

/// Holds the entries to the script and to the literal bytes, which they have to take up without a
/// gap.
pub fn check(question: &Question, entries: &[u8], literals: &[u8]) -> Result<(), Fault> {
    hold(
        std::str::from_utf8(literals).is_ok(),
        "literal bytes that are no text",
    )?;
    let mut walk = Walk {
        script: question.script,
        literals,
        limit: question.limit,
        place: (0, 0),
        behind: 0,
        packed: 0,
        is_brace: false,
    };
    for entry in entries.chunks_exact(ENTRY) {
        walk.entry(numbers(entry))?;
    }
    hold(
        walk.packed == literals.len(),
        "literal bytes that no entry has",
    )
}

/// Whether an entry's bytes are packed literal bytes.
pub fn is_literal(kind: u32) -> bool {
    (STRING..=CHAR).contains(&kind)
}

struct Walk<'a> {
    script: &'a [u8],
    literals: &'a [u8],
    limit: u64,
    /// The place of the last entry.
    place: (u32, u32),
    /// Where the last part of the script ended.
    behind: usize,
    /// The literal bytes passed.
    packed: usize,
    /// Whether the last entry was `}`.
    is_brace: bool,
}

impl Walk<'_> {
    fn entry(&mut self, numbers: [u32; 5]) -> Result<(), Fault> {
        let [kind, line, column, offset, length] = numbers;
        hold((1..=11).contains(&kind), "a kind that is none")?;
        self.rise(kind, (line, column))?;
        let (offset, length) = (offset as usize, length as usize);
        if is_literal(kind) {
            self.is_brace = false;
            return self.literal(kind, offset, length);
        }
        self.part(kind, offset, length)
    }

    /// Places rise. A piece of text stands where the `}` before it does, and a place does not pass
    /// 65,535.
    fn rise(&mut self, kind: u32, place: (u32, u32)) -> Result<(), Fault> {
        let (line, column) = place;
        hold(
            (1..=65_535).contains(&line) && column <= 65_535,
            "an entry's place is none",
        )?;
        let is_piece = self.is_brace && (kind == INTERPOLATED || kind == TEXT);
        let may_stay = is_piece || column == 65_535;
        let rises = line == 65_535 || place > self.place || may_stay && place == self.place;
        self.place = place;
        hold(rises, "places that do not rise")
    }

    fn literal(&mut self, kind: u32, offset: usize, length: usize) -> Result<(), Fault> {
        hold(offset == self.packed, "literal bytes that are not packed")?;
        self.packed += length;
        hold(
            self.packed <= self.literals.len(),
            "more literal bytes than are used",
        )?;
        let is_short = self.limit == 0 || length as u64 <= self.limit;
        hold(is_short, "a literal longer than the limit")?;
        let bytes = &self.literals[offset..self.packed];
        let is_one = |text: &str| text.chars().count() == 1;
        let is_char = || std::str::from_utf8(bytes).map_or(false, is_one);
        hold(
            kind != CHAR || is_char(),
            "a char that is not one character",
        )
    }

    fn part(&mut self, kind: u32, offset: usize, length: usize) -> Result<(), Fault> {
        hold(
            offset >= self.behind && length > 0,
            "parts of the script that do not rise",
        )?;
        self.behind = offset + length;
        hold(
            self.behind <= self.script.len(),
            "a part that is not in the script",
        )?;
        let bytes = &self.script[offset..self.behind];
        self.is_brace = kind == SYMBOL && bytes == b"}";
        hold(is_shaped(kind, bytes), "bytes that this kind cannot have")
    }
}

fn is_shaped(kind: u32, bytes: &[u8]) -> bool {
    let is_word = || {
        bytes
            .iter()
            .all(|&byte| byte.is_ascii_alphanumeric() || byte == b'_')
    };
    match kind {
        SYMBOL => bytes.is_ascii() && !bytes[0].is_ascii_alphanumeric(),
        COMMENT if bytes.starts_with(b"//") => !bytes.contains(&b'\n'),
        COMMENT => bytes.len() >= 4 && bytes.starts_with(b"/*") && bytes.ends_with(b"*/"),
        // a number, and no word, begins with a digit
        _ => is_word() && bytes[0].is_ascii_digit() == (kind == 4),
    }
}

#[cfg(test)]
mod tests {
    use super::*;

    fn of(script: &[u8], entries: &[[u32; 5]], literals: &[u8]) -> Result<(), Fault> {
        let bytes: Vec<u8> = entries
            .iter()
            .flatten()
            .flat_map(|n| n.to_le_bytes())
            .collect();
        check(&Question::ample(script, b"\0\0", 0), &bytes, literals)
    }

    #[test]
    fn right_entries_are_taken() {
        assert_eq!(
            of(
                b"a 'b' /**/",
                &[[1, 1, 1, 0, 1], [9, 1, 3, 0, 1], [10, 1, 7, 6, 4]],
                b"b"
            ),
            Ok(())
        );
        assert_eq!(
            of(
                b"`${}`",
                &[
                    [6, 1, 1, 0, 0],
                    [3, 1, 3, 2, 1],
                    [3, 1, 4, 3, 1],
                    [7, 1, 4, 0, 0]
                ],
                b""
            ),
            Ok(())
        );
    }

    #[test]
    fn wrong_entries_are_not() {
        let wrong: [(&[u8], &[[u32; 5]], &[u8]); 12] = [
            (b"a", &[[12, 1, 1, 0, 1]], b""),
            (b"a", &[[0, 1, 1, 0, 1]], b""),
            (b"a", &[[1, 0, 1, 0, 1]], b""),
            (b"a", &[[1, 1, 1, 0, 2]], b""),
            (b"a", &[[1, 1, 1, 1, 1]], b""),
            (b"a", &[[1, 1, 1, 0, 0]], b""),
            (b"a", &[[4, 1, 1, 0, 1]], b""),
            (b"a b", &[[1, 1, 1, 0, 1], [1, 1, 1, 2, 1]], b""),
            (b"a b", &[[1, 1, 1, 2, 1], [1, 1, 3, 0, 1]], b""),
            (b"'ab'", &[[9, 1, 1, 0, 2]], b"ab"),
            (b"'a''b'", &[[9, 1, 1, 0, 1], [9, 1, 4, 0, 1]], b"ab"),
            (b"'a'", &[[9, 1, 1, 0, 1]], b"ab"),
        ];
        for (script, entries, literals) in wrong {
            assert!(of(script, entries, literals).is_err(), "{:?}", entries);
        }
    }
}
