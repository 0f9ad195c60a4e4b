//! Memory that is lent, with guards around it.

/// How many bytes stand before what is lent, and behind it.
const GUARD: usize = 64;

/// Bytes between two guards. What was not given holds one byte everywhere.
#[derive(Default)]
pub struct Lent {
    bytes: Vec<u8>,
    fill: u8,
}

impl Lent {
    /// So many bytes to be written.
    pub fn room(&mut self, room: usize, fill: u8) -> &mut [u8] {
        self.fill = fill;
        self.bytes.clear();
        self.bytes.resize(room + 2 * GUARD, fill);
        &mut self.bytes[GUARD..GUARD + room]
    }

    /// Bytes to be read.
    pub fn hold(&mut self, bytes: &[u8], fill: u8) -> &[u8] {
        let room = self.room(bytes.len(), fill);
        room.copy_from_slice(bytes);
        room
    }

    /// What was lent, as it is after the call.
    pub fn bytes(&self) -> &[u8] {
        &self.bytes[GUARD..self.bytes.len() - GUARD]
    }

    /// Whether all but the first bytes lent are as they were, the guards too.
    pub fn is_kept_behind(&self, used: usize) -> bool {
        let (before, lent) = self.bytes.split_at(GUARD);
        are_all(before, self.fill) && are_all(&lent[used..], self.fill)
    }

    /// Whether the bytes held and the guards are as they were.
    pub fn still_holds(&self, bytes: &[u8]) -> bool {
        self.bytes() == bytes && self.is_kept_behind(bytes.len())
    }
}

/// Whether all bytes are this one, eight at a time.
fn are_all(bytes: &[u8], byte: u8) -> bool {
    let eights = bytes.chunks_exact(8);
    let rest = eights.remainder();
    let rest = rest.iter().fold(0, |differ, other| differ | (other ^ byte));
    let mut differ = u64::from(rest);
    for eight in eights {
        let eight: [u8; 8] = eight.try_into().expect("eight bytes");
        differ |= u64::from_ne_bytes(eight) ^ u64::from_ne_bytes([byte; 8]);
    }
    differ == 0
}

#[cfg(test)]
mod tests {
    use super::*;

    #[test]
    fn a_byte_written_outside_is_seen() {
        let mut lent = Lent::default();
        lent.room(4, 7)[..2].fill(1);
        assert!(lent.is_kept_behind(2) && !lent.is_kept_behind(1));
        for at in [0, GUARD - 1, GUARD + 4, GUARD + 4 + GUARD - 1] {
            lent.room(4, 7);
            assert!(lent.is_kept_behind(4));
            lent.bytes[at] = 8;
            assert!(!lent.is_kept_behind(4), "{}", at);
        }
    }

    #[test]
    fn a_byte_held_that_is_changed_is_seen() {
        let mut lent = Lent::default();
        lent.hold(b"ab", 7);
        assert!(lent.still_holds(b"ab"));
        lent.bytes[GUARD + 1] = b'c';
        assert!(!lent.still_holds(b"ab"));
    }
}
