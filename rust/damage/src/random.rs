//! Random numbers, the same for the same seed.

/// The generator splitmix64, whose seeds may follow each other.
pub struct Random {
    state: u64,
}

impl Random {
    pub fn new(seed: u64) -> Self {
        Self { state: seed }
    }

    pub fn number(&mut self) -> u64 {
        self.state = self.state.wrapping_add(0x9E37_79B9_7F4A_7C15);
        let mixed = (self.state ^ self.state >> 30).wrapping_mul(0xBF58_476D_1CE4_E5B9);
        let mixed = (mixed ^ mixed >> 27).wrapping_mul(0x94D0_49BB_1331_11EB);
        mixed ^ mixed >> 31
    }

    /// A number below `bound`, which is not 0.
    pub fn below(&mut self, bound: usize) -> usize {
        (self.number() % bound as u64) as usize
    }

    /// True once in so many times.
    pub fn once_in(&mut self, times: usize) -> bool {
        self.below(times) == 0
    }

    pub fn byte(&mut self) -> u8 {
        self.number().to_le_bytes()[7]
    }

    /// One of some things, of which there is at least one.
    pub fn one_of<T: Copy>(&mut self, things: &[T]) -> T {
        things[self.below(things.len())]
    }

    /// A place in a text: mostly between two characters, and now and then inside one.
    pub fn place(&mut self, text: &[u8]) -> usize {
        let mut at = self.below(text.len() + 1);
        if self.once_in(8) {
            return at;
        }
        while 0 < at && at < text.len() && text[at] & 0xc0 == 0x80 {
            at -= 1;
        }
        at
    }

    /// A part of a text, as where it begins and where it ends.
    pub fn part(&mut self, text: &[u8]) -> (usize, usize) {
        let ends = [self.place(text), self.place(text)];
        (ends[0].min(ends[1]), ends[0].max(ends[1]))
    }
}
