//! The memory that a run is lent, and how it grows.

use crate::refusal::Refusal;

/// The most bytes that a script has, and a raw literal's body.
pub const LONGEST: usize = 16_777_216;

/// How much a run is lent: bytes for literals, and entries for tokens.
///
/// A token takes a byte of the script at least, so no script needs more entries than it has bytes.
/// A literal has at most four bytes for each byte of the script that it takes.
#[derive(Debug, Clone, Copy, PartialEq, Eq)]
pub(crate) struct Room {
    pub literals: usize,
    pub entries: usize,
    /// The script's bytes, as far as a run reads them.
    length: usize,
}

impl Room {
    /// Enough for most scripts of so many bytes: half of it literals, a token for every two bytes.
    /// A script that is too long is refused unread, and needs nothing.
    pub fn guess(length: usize) -> Self {
        let length = if length > LONGEST { 0 } else { length };
        Self {
            literals: (length / 2 + 32).min(4 * length),
            entries: (length / 2 + 8).min(length),
            length,
        }
    }

    /// Doubles what a run had too little of. `None` where it was not memory that the run lacked, or
    /// where it has all that a script can need.
    pub fn grown(self, refusal: Refusal) -> Option<Self> {
        let grown = match refusal {
            Refusal::NoLiteralRoom => Self {
                literals: (2 * self.literals).min(4 * self.length),
                ..self
            },
            Refusal::NoTokenRoom => Self {
                entries: (2 * self.entries).min(self.length),
                ..self
            },
            _ => self,
        };
        (grown != self).then_some(grown)
    }
}

#[cfg(test)]
mod tests {
    use super::*;

    #[test]
    fn room_doubles_up_to_what_a_script_can_need() {
        let grown = |mut room: Room, refusal| {
            let mut times = 0;
            while let Some(more) = room.grown(refusal) {
                room = more;
                times += 1;
            }
            (room, times)
        };
        for length in [0, 1, 7, 64, 1_000, LONGEST] {
            let (room, times) = grown(Room::guess(length), Refusal::NoTokenRoom);
            assert_eq!(room.entries, length);
            assert!(times <= 1);
            let (room, times) = grown(Room::guess(length), Refusal::NoLiteralRoom);
            assert_eq!(room.literals, 4 * length);
            assert!(times <= 3);
        }
    }

    #[test]
    fn only_too_little_room_makes_it_grow() {
        for refusal in Refusal::ALL {
            let grows = matches!(refusal, Refusal::NoLiteralRoom | Refusal::NoTokenRoom);
            assert_eq!(Room::guess(1_000).grown(refusal).is_some(), grows);
        }
        assert_eq!(Room::guess(LONGEST + 1), Room::guess(0));
    }
}
