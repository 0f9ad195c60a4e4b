//! The literals of the plain lexer, each written to the lent bytes as it is read.

use super::{
    characters, kind, Ending, Lexer, Place, Step, DEEPEST, IN_APOSTROPHES, IN_QUOTES, IN_RAW,
    IN_TEXT,
};

impl Lexer<'_> {
    pub(super) fn raw(&mut self) -> Step {
        let (from, start) = (self.at, self.start());
        let rest = &self.bytes[from..];
        let hashes = rest.iter().position(|&byte| byte != b'#');
        let hashes = match hashes {
            None => return Err(Ending::new(4, start)),
            Some(hashes) if rest[hashes] != b'"' => {
                return Err(self.unexpected(start, from + hashes))
            }
            Some(hashes) => hashes,
        };
        self.take(hashes + 1);
        let body = self.at;
        let (length, is_closed) = self.raw_body(hashes);
        let to = self.used + length;
        match self.literals.get_mut(self.used..to) {
            Some(out) => out.copy_from_slice(&self.bytes[body..body + length]),
            None => return Err(Ending::new(9, start)),
        }
        match is_closed {
            true => self.list_literal(kind::RAW, start, to),
            false => Err(Ending::new(11, self.place)),
        }
    }

    /// The length of the body that stands next, and whether it is closed.
    #[inline(always)]
    fn raw_body(&mut self, hashes: usize) -> (usize, bool) {
        let body = self.at;
        loop {
            let to = self.stretch_end(IN_RAW);
            self.place.column += characters(&self.bytes[self.at..to]);
            self.at = to;
            match self.bytes.get(to) {
                None => return (to - body, false),
                Some(b'\n') => {
                    self.at += 1;
                    self.new_line();
                }
                Some(_) => {
                    let most = self.bytes[to + 1..].iter().take(hashes);
                    let seen = most.take_while(|&&byte| byte == b'#').count();
                    self.take(1 + seen);
                    if seen == hashes {
                        return (to - body, true);
                    }
                    if self.at == self.bytes.len() {
                        return (to - body, false);
                    }
                    self.after_attempt();
                }
            }
        }
    }

    /// A character that breaks a closing off starts no line, unless a quote tries again.
    #[inline(always)]
    fn after_attempt(&mut self) {
        if self.bytes[self.at] == b'\n' {
            self.take(1);
        }
    }

    /// Appends bytes of the script to the literal.
    #[inline(always)]
    fn push_stretch(&mut self, to: &mut usize, end: usize, start: Place) -> Step {
        let stretch = &self.bytes[self.at..end];
        match self.literals.get_mut(*to..*to + stretch.len()) {
            Some(out) => out.copy_from_slice(stretch),
            None => return Err(Ending::new(9, start)),
        }
        self.place.column += characters(stretch);
        *to += stretch.len();
        self.at = end;
        Ok(())
    }

    #[inline(always)]
    fn push(&mut self, to: &mut usize, byte: u8, start: Place) -> Step {
        match self.literals.get_mut(*to) {
            Some(out) => *out = byte,
            None => return Err(Ending::new(9, start)),
        }
        *to += 1;
        Ok(())
    }

    pub(super) fn text(&mut self) -> Step {
        let start = self.start();
        self.take(1);
        self.piece(start)
    }

    /// A piece of text from behind its backtick, or from behind the `}` before it.
    pub(super) fn piece(&mut self, start: Place) -> Step {
        let mut to = self.used;
        loop {
            let end = self.stretch_end(IN_TEXT);
            self.push_stretch(&mut to, end, start)?;
            match (self.bytes.get(end), self.peek(1)) {
                (None, _) => return Err(Ending::new(11, self.start())),
                (Some(b'`'), b'`') => {
                    self.push(&mut to, b'`', start)?;
                    self.take(2);
                }
                (Some(b'`'), _) => {
                    self.take(1);
                    return self.list_literal(kind::TEXT, start, to);
                }
                (Some(b'$'), b'{') => {
                    self.take(1);
                    return self.interpolated(start, to);
                }
                (Some(b'\r'), b'\n') => self.take(1),
                (Some(b'\n'), _) => {
                    self.push(&mut to, b'\n', start)?;
                    self.at += 1;
                    self.new_line();
                }
                (Some(b'\\'), b'$') if self.peek(2) == b'{' => {
                    self.push(&mut to, b'$', start)?;
                    self.at += 2;
                    self.place.column += 1;
                }
                (Some(&byte), _) => {
                    self.push(&mut to, byte, start)?;
                    self.take(1);
                }
            }
        }
    }

    fn interpolated(&mut self, start: Place, to: usize) -> Step {
        if self.depth == DEEPEST {
            return Err(Ending::new(13, start));
        }
        self.list_literal(kind::INTERPOLATED, start, to)?;
        self.braces[self.depth] = 0;
        self.depth += 1;
        Ok(())
    }

    pub(super) fn string(&mut self) -> Step {
        let start = self.start();
        let to = self.quoted::<b'"', IN_QUOTES>(start)?;
        self.list_literal(kind::STRING, start, to)
    }

    pub(super) fn character(&mut self) -> Step {
        let start = self.start();
        let to = self.quoted::<b'\'', IN_APOSTROPHES>(start)?;
        if characters(&self.literals[self.used..to]) != 1 {
            return Err(Ending::new(12, start));
        }
        self.list_literal(kind::CHAR, start, to)
    }

    /// Reads an ordinary literal with its terminator. Answers where its bytes end.
    #[inline(always)]
    fn quoted<const Q: u8, const ENDS: u8>(&mut self, start: Place) -> Result<usize, Ending> {
        let mut to = self.used;
        // White space in columns before this one is skipped; 0 while none is.
        let mut skip = 0;
        self.take(1);
        loop {
            if skip > 0 {
                self.skip_columns(&mut skip);
            }
            let end = self.stretch_end(ENDS);
            if end > self.at {
                self.push_stretch(&mut to, end, start)?;
                skip = 0;
            }
            match (self.bytes.get(end), self.peek(1)) {
                (None | Some(b'\n'), _) => return Err(Ending::new(4, start)),
                (Some(b'\\'), _) => {
                    if self.escape::<Q>(&mut to, start)? {
                        skip = start.column.min(65535) + 1;
                    }
                }
                (Some(b'\r'), b'\n') => self.take(1),
                (Some(b'\r'), _) => {
                    self.push(&mut to, b'\r', start)?;
                    self.take(1);
                    skip = 0;
                }
                (_, next) if next == Q => {
                    self.push(&mut to, Q, start)?;
                    self.take(2);
                    skip = 0;
                }
                _ => {
                    self.take(1);
                    return Ok(to);
                }
            }
        }
    }

    /// Skips white space up to a column. White space behind it ends the skipping.
    #[cold]
    fn skip_columns(&mut self, skip: &mut u32) {
        while let Some(ch) = self.text[self.at..].chars().next() {
            let is_line_end = ch == '\n' || ch == '\r' && self.peek(1) == b'\n';
            if !ch.is_whitespace() || is_line_end {
                return;
            }
            if (self.place.column + 1).min(65535) >= *skip {
                *skip = 0;
                return;
            }
            self.at += ch.len_utf8();
            self.place.column += 1;
        }
    }

    /// An escape from its backslash on. Answers whether it is a line's continuation.
    #[inline(always)]
    fn escape<const Q: u8>(&mut self, to: &mut usize, start: Place) -> Result<bool, Ending> {
        let from = self.at;
        self.take(1);
        if self.peek(0) == b'\r' && self.peek(1) == b'\n' {
            self.take(1);
        }
        let byte = match self.bytes.get(self.at) {
            Some(b'n') => b'\n',
            Some(b't') => b'\t',
            Some(b'r') => b'\r',
            Some(b'\\') => b'\\',
            Some(&byte) if byte == Q => Q,
            Some(b'x') => return self.numbered(from, 2, to, start),
            Some(b'u') => return self.numbered(from, 4, to, start),
            Some(b'U') => return self.numbered(from, 8, to, start),
            Some(b'\n') if Q == b'"' => {
                self.at += 1;
                self.new_line();
                return Ok(true);
            }
            None if Q == b'"' => return Err(Ending::new(11, self.start())),
            None | Some(b'\n') => return Err(Ending::new(4, start)),
            Some(_) => return Err(self.malformed(from)),
        };
        self.push(to, byte, start)?;
        self.take(1);
        Ok(false)
    }

    /// 6, about the escape up to the character that stands next, at that one's place.
    #[cold]
    fn malformed(&self, from: usize) -> Ending {
        let last = self.text[self.at..].chars().next();
        let to = self.at + last.map_or(0, char::len_utf8);
        let place = last.map_or(self.place, |_| self.start());
        Ending::part(6, place, from, to - from)
    }

    /// An escape of so many hex digits, from its letter on.
    #[inline(always)]
    fn numbered(
        &mut self,
        from: usize,
        digits: usize,
        to: &mut usize,
        start: Place,
    ) -> Result<bool, Ending> {
        let mut number = 0u32;
        self.take(1);
        for left in (0..digits).rev() {
            let digit = (self.peek(0) as char).to_digit(16);
            number = match digit {
                Some(digit) => number << 4 | digit,
                None => return Err(self.malformed(from)),
            };
            if left > 0 {
                self.take(1);
            }
        }
        let ch = match char::from_u32(number) {
            Some(ch) => ch,
            None => return Err(self.malformed(from)),
        };
        let length = ch.len_utf8();
        match self.literals.get_mut(*to..*to + length) {
            Some(out) => drop(ch.encode_utf8(out)),
            None => return Err(Ending::new(9, start)),
        }
        *to += length;
        self.take(1);
        Ok(false)
    }
}
