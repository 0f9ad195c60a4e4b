//! Word books, which stand in for the source's `RESERVED_LIST`: document 01, "Word book".

const MOST_WORDS: usize = 512;
const LONGEST_WORD: usize = 10;

/// The words of a book and their flags, rising by bytes. `None` if the book is bad.
pub fn words(book: &[u8]) -> Option<Vec<(&str, u8)>> {
    let count: [u8; 2] = book.get(..2)?.try_into().ok()?;
    let count = usize::from(u16::from_le_bytes(count));
    let bodies = book.get(2 + 4 * count..)?;
    if count > MOST_WORDS {
        return None;
    }
    let mut words = Vec::with_capacity(count);
    let mut next = 0;
    for row in book[2..].chunks_exact(4).take(count) {
        let offset = usize::from(u16::from_le_bytes([row[0], row[1]]));
        let (length, flags) = (usize::from(row[2]), row[3]);
        let word = std::str::from_utf8(bodies.get(offset..offset + length)?).ok()?;
        let rises = words.last().map(|&(last, _)| last) < Some(word);
        let fits = offset == next && (1..=LONGEST_WORD).contains(&length);
        if !(rises && fits && flags <= 3 && word.is_ascii()) {
            return None;
        }
        words.push((word, flags));
        next += length;
    }
    (next == bodies.len()).then_some(words)
}
