//! The source's input stream over one text, counting the bytes taken.

use crate::tokenizer::InputStream;

/// A text, and the offset of the character that comes next.
pub struct Cursor<'a> {
    text: &'a str,
    offset: usize,
}

impl<'a> Cursor<'a> {
    /// `None` if the offset is past the end or inside a character.
    pub fn new(text: &'a str, offset: usize) -> Option<Self> {
        text.is_char_boundary(offset)
            .then_some(Self { text, offset })
    }

    pub fn offset(&self) -> usize {
        self.offset
    }
}

impl InputStream for Cursor<'_> {
    /// The source gives back only what it took last.
    fn unget(&mut self, ch: char) {
        let taken = &self.text[..self.offset];
        assert!(taken.ends_with(ch), "gives back what was not taken");
        self.offset -= ch.len_utf8();
    }

    fn get_next(&mut self) -> Option<char> {
        let ch = self.peek_next()?;
        self.offset += ch.len_utf8();
        Some(ch)
    }

    fn peek_next(&mut self) -> Option<char> {
        self.text[self.offset..].chars().next()
    }
}
