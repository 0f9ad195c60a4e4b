//! A word book from a file: words on lines, or the binary form.

use std::fs;
use std::path::Path;
use std::str;
use stewsatchel::{Book, BookError, Refusal, Word};

/// The book, or a sentence that says which file and which line is wrong.
pub fn read(path: &Path) -> Result<Book, String> {
    let bytes = fs::read(path).map_err(|error| format!("{}: {}", path.display(), error))?;
    let refused = |line: String, why: String| {
        let number = Refusal::BadBook.number();
        format!("{}{}: stop {}: {}", path.display(), line, number, why)
    };
    // A binary book has a zero byte: the empty one its count, any other its first offset.
    if bytes.contains(&0) {
        return Book::from_bytes(bytes).map_err(|error| refused(String::new(), error.to_string()));
    }
    let text = str::from_utf8(&bytes)
        .map_err(|_| refused(String::new(), "the word book is not UTF-8".into()))?;
    of_lines(text).map_err(|(line, why)| {
        refused(line.map_or(String::new(), |line| format!(":{}", line)), why)
    })
}

/// A book of words on lines. What is wrong comes with the number of its line, if it has one.
fn of_lines(text: &str) -> Result<Book, (Option<usize>, String)> {
    let mut words = Vec::new();
    let mut lines = Vec::new();
    for (number, line) in (1..).zip(text.lines()) {
        let line = line.trim();
        if line.is_empty() || line.starts_with("//") {
            continue;
        }
        words.push(word(line).map_err(|why| (Some(number), why))?);
        lines.push(number);
    }
    let at = |error: &BookError| error.refused_word().map(|(index, _)| lines[index]);
    Book::new(words).map_err(|error| (at(&error), error.to_string()))
}

fn word(line: &str) -> Result<Word<'_>, String> {
    let mut parts = line.split_whitespace();
    let text = parts.next().unwrap_or_default();
    let (a, b) = match parts.next() {
        None => (false, false),
        Some("a") => (true, false),
        Some("b") => (false, true),
        Some("ab") => (true, true),
        Some(flags) => return Err(format!("{:?} is none of the flags a, b and ab", flags)),
    };
    match parts.next() {
        Some(over) => Err(format!("{:?} stands behind the flags", over)),
        None => Ok(Word { text, a, b }),
    }
}

#[cfg(test)]
mod tests {
    use super::*;

    #[test]
    fn words_stand_on_lines_with_their_flags() {
        let book = of_lines("// the office's\n\n light  ab\r\nbuoy\n").unwrap();
        assert_eq!(book.as_bytes(), b"\x02\0\0\0\x04\0\x04\0\x05\x03buoylight");
        assert_eq!(of_lines(""), Ok(Book::empty()));
    }

    #[test]
    fn what_is_wrong_has_its_line() {
        let line = |text| of_lines(text).unwrap_err().0;
        assert_eq!(line("a\nb c\n"), Some(2));
        assert_eq!(line("a\nb a a\n"), Some(2));
        assert_eq!(line("b\n//\na\nb\n"), Some(4));
        assert_eq!(line("lighthouses"), Some(1));
    }
}
