//! Random inputs, the same in every run.

/// The generator xorshift64*.
pub struct Random {
    state: u64,
}

impl Random {
    /// A seed of 0 is taken as 1, since the generator would stay at 0.
    pub fn new(seed: u64) -> Self {
        Self { state: seed.max(1) }
    }

    pub fn number(&mut self) -> u64 {
        self.state ^= self.state >> 12;
        self.state ^= self.state << 25;
        self.state ^= self.state >> 27;
        self.state.wrapping_mul(0x2545_F491_4F6C_DD1D)
    }

    /// A number below `bound`, which is not 0.
    pub fn below(&mut self, bound: usize) -> usize {
        (self.number() % bound as u64) as usize
    }

    /// One of some things, of which there is at least one.
    pub fn one_of<T: Copy>(&mut self, things: &[T]) -> T {
        things[self.below(things.len())]
    }

    /// A text of up to `longest` of the pieces.
    pub fn text(&mut self, pieces: &[&str], longest: usize) -> String {
        let length = self.below(longest + 1);
        (0..length).map(|_| self.one_of(pieces)).collect()
    }

    /// A copy with one byte changed, dropped or put in.
    pub fn damaged(&mut self, bytes: &[u8]) -> Vec<u8> {
        let mut copy = bytes.to_vec();
        let byte = self.number().to_le_bytes()[7];
        let at = self.below(copy.len() + 1);
        if at == copy.len() {
            copy.push(byte);
            return copy;
        }
        match self.below(3) {
            0 => copy[at] = byte,
            1 => copy.insert(at, byte),
            _ => drop(copy.remove(at)),
        }
        copy
    }
}

#[cfg(test)]
mod tests {
    use super::*;

    #[test]
    fn one_seed_gives_one_sequence() {
        let sequence = |seed| {
            let mut random = Random::new(seed);
            [(); 8].map(|()| random.number())
        };
        assert_eq!(sequence(7), sequence(7));
        assert_ne!(sequence(7), sequence(8));
        assert_eq!(sequence(0), sequence(1));
    }

    #[test]
    fn texts_have_every_length() {
        let mut random = Random::new(1);
        let mut seen = [false; 4];
        for _ in 0..100 {
            seen[random.text(&["a", "é"], 3).chars().count()] = true;
        }
        assert_eq!(seen, [true; 4]);
    }

    #[test]
    fn damage_is_one_byte() {
        let mut random = Random::new(1);
        for _ in 0..100 {
            let length = random.damaged(b"abc").len();
            assert!((2..=4).contains(&length));
        }
        assert_eq!(random.damaged(b"").len(), 1);
    }
}
