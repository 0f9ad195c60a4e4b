//! Stands in for the strings that the source takes from the crate `smartstring`.
//!
//! Theirs keep up to 23 bytes in place, and go to the heap only for more. So do these: else the
//! source would be timed with allocations that its users do not have.

use std::borrow::Borrow;
use std::cmp::Ordering;
use std::fmt;
use std::hash::{Hash, Hasher};
use std::iter::FromIterator;
use std::ops::{AddAssign, Deref};
use std::str;

/// How many bytes are kept in place.
const IN_PLACE: usize = 23;

/// A string that is not `String`, since the source converts a token into either.
#[derive(Clone)]
pub struct SmartString(Kept);

#[derive(Clone)]
enum Kept {
    /// A text of so many bytes, which are its first ones.
    InPlace(u8, [u8; IN_PLACE]),
    Heap(String),
}

pub fn new_smart_string() -> SmartString {
    SmartString::default()
}

impl SmartString {
    pub fn as_str(&self) -> &str {
        match &self.0 {
            // SAFETY: only whole texts are put there.
            Kept::InPlace(length, bytes) => unsafe {
                str::from_utf8_unchecked(bytes.get_unchecked(..usize::from(*length)))
            },
            Kept::Heap(text) => text,
        }
    }

    pub fn clear(&mut self) {
        *self = Self::default();
    }

    #[inline]
    pub fn push(&mut self, ch: char) {
        match &mut self.0 {
            Kept::InPlace(length, bytes) => {
                let (from, more) = (usize::from(*length), ch.len_utf8());
                match bytes.get_mut(from..from + more) {
                    Some(room) => {
                        ch.encode_utf8(room);
                        *length += more as u8;
                    }
                    None => self.moved().push(ch),
                }
            }
            Kept::Heap(text) => text.push(ch),
        }
    }

    #[inline]
    pub fn push_str(&mut self, more: &str) {
        match &mut self.0 {
            Kept::InPlace(length, bytes) => {
                let from = usize::from(*length);
                match bytes.get_mut(from..from + more.len()) {
                    Some(room) => {
                        room.copy_from_slice(more.as_bytes());
                        *length += more.len() as u8;
                    }
                    None => self.moved().push_str(more),
                }
            }
            Kept::Heap(text) => text.push_str(more),
        }
    }

    pub fn insert(&mut self, at: usize, ch: char) {
        self.moved().insert(at, ch);
    }

    /// Its text on the heap, where it was not yet.
    #[cold]
    fn moved(&mut self) -> &mut String {
        if let Kept::InPlace(..) = self.0 {
            let mut text = String::with_capacity(2 * IN_PLACE);
            text.push_str(self);
            self.0 = Kept::Heap(text);
        }
        match &mut self.0 {
            Kept::Heap(text) => text,
            Kept::InPlace(..) => unreachable!("it was moved"),
        }
    }
}

impl Default for SmartString {
    fn default() -> Self {
        Self(Kept::InPlace(0, [0; IN_PLACE]))
    }
}

impl Deref for SmartString {
    type Target = str;

    fn deref(&self) -> &str {
        self.as_str()
    }
}

impl Borrow<str> for SmartString {
    fn borrow(&self) -> &str {
        self
    }
}

impl From<&str> for SmartString {
    fn from(text: &str) -> Self {
        let mut copy = Self::default();
        copy.push_str(text);
        copy
    }
}

impl From<String> for SmartString {
    fn from(text: String) -> Self {
        match text.len() {
            0..=IN_PLACE => text.as_str().into(),
            _ => Self(Kept::Heap(text)),
        }
    }
}

impl From<SmartString> for String {
    fn from(text: SmartString) -> Self {
        match text.0 {
            Kept::Heap(text) => text,
            Kept::InPlace(..) => text.as_str().into(),
        }
    }
}

impl Extend<char> for SmartString {
    fn extend<I: IntoIterator<Item = char>>(&mut self, chars: I) {
        chars.into_iter().for_each(|ch| self.push(ch));
    }
}

impl FromIterator<char> for SmartString {
    fn from_iter<I: IntoIterator<Item = char>>(chars: I) -> Self {
        let mut text = Self::default();
        text.extend(chars);
        text
    }
}

impl AddAssign<&str> for SmartString {
    fn add_assign(&mut self, more: &str) {
        self.push_str(more);
    }
}

impl fmt::Write for SmartString {
    fn write_str(&mut self, more: &str) -> fmt::Result {
        self.push_str(more);
        Ok(())
    }
}

impl PartialEq for SmartString {
    fn eq(&self, other: &Self) -> bool {
        self.as_str() == other.as_str()
    }
}

impl Eq for SmartString {}

impl PartialOrd for SmartString {
    fn partial_cmp(&self, other: &Self) -> Option<Ordering> {
        Some(self.cmp(other))
    }
}

impl Ord for SmartString {
    fn cmp(&self, other: &Self) -> Ordering {
        self.as_str().cmp(other)
    }
}

impl Hash for SmartString {
    fn hash<H: Hasher>(&self, state: &mut H) {
        self.as_str().hash(state);
    }
}

impl PartialEq<str> for SmartString {
    fn eq(&self, text: &str) -> bool {
        self.as_str() == text
    }
}

impl PartialEq<&str> for SmartString {
    fn eq(&self, text: &&str) -> bool {
        self.as_str() == *text
    }
}

impl fmt::Debug for SmartString {
    fn fmt(&self, f: &mut fmt::Formatter<'_>) -> fmt::Result {
        fmt::Debug::fmt(self.as_str(), f)
    }
}

impl fmt::Display for SmartString {
    fn fmt(&self, f: &mut fmt::Formatter<'_>) -> fmt::Result {
        f.write_str(self)
    }
}

#[cfg(test)]
mod tests {
    use super::*;

    /// Characters of every length, around the number of bytes that are kept in place.
    #[test]
    fn texts_are_the_same_in_place_and_on_the_heap() {
        for ch in ['a', 'é', '水', '🚢'] {
            let (mut smart, mut text) = (new_smart_string(), String::new());
            for _ in 0..2 * IN_PLACE {
                smart.push(ch);
                text.push(ch);
                assert_eq!(smart.as_str(), text);
                assert_eq!(SmartString::from(text.as_str()), smart);
                assert_eq!(SmartString::from(text.clone()), smart);
                assert_eq!(String::from(smart.clone()), text);
                assert_eq!(text.chars().collect::<SmartString>(), smart);
            }
        }
    }

    #[test]
    fn texts_grow_at_both_ends() {
        let mut smart = SmartString::from("1");
        smart.insert(0, '-');
        assert_eq!(smart, "-1");
        smart += "23";
        smart.push_str(&"4".repeat(IN_PLACE));
        assert_eq!(smart.as_str(), format!("-123{}", "4".repeat(IN_PLACE)));
        smart.clear();
        assert_eq!(smart, "");
    }
}
