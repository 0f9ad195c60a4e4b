//! Places, their edges, and how they cross.

use std::fmt;

/// Line and column as they are stored: (0, 0) is NONE, (1, 0) is START.
pub type Place = (u16, u16);

/// Where a number gets another digit, and where it is 0, 1 or close to the largest.
const EDGES: [u16; 14] = [
    0, 1, 2, 9, 10, 99, 100, 999, 1000, 9999, 10000, 65533, 65534, 65535,
];

/// Every place whose line and column are edges.
pub fn edges() -> Vec<Place> {
    let lines = EDGES.iter();
    lines
        .flat_map(|&line| EDGES.iter().map(move |&column| (line, column)))
        .collect()
}

/// A place as it comes out: `line * 65536 + column`.
#[derive(Clone, Copy, PartialEq, Eq, Default)]
pub struct Packed(pub u64);

impl From<Place> for Packed {
    fn from((line, column): Place) -> Self {
        Self(u64::from(line) << 16 | u64::from(column))
    }
}

impl fmt::Debug for Packed {
    fn fmt(&self, f: &mut fmt::Formatter<'_>) -> fmt::Result {
        write!(f, "{}:{}", self.0 >> 16, self.0 & 0xffff)
    }
}

#[cfg(test)]
mod tests {
    use super::*;

    #[test]
    fn edges_are_all_pairs() {
        let edges = edges();
        assert_eq!(edges.len(), 196);
        assert_eq!(edges[..2], [(0, 0), (0, 1)]);
        assert_eq!(edges[195], (65535, 65535));
    }

    #[test]
    fn places_are_packed_as_the_library_packs_them() {
        assert_eq!(Packed::from((0, 0)), Packed(0));
        assert_eq!(Packed::from((1, 0)), Packed(65536));
        assert_eq!(Packed::from((65535, 65535)), Packed((1 << 32) - 1));
        assert_eq!(format!("{:?}", Packed::from((3, 7))), "3:7");
    }
}
