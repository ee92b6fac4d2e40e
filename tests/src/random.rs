//! A deterministic generator: xorshift, 64 bits.

pub struct Random(u64);

impl Random {
    /// A seed other than 0.
    pub fn new(seed: u64) -> Random {
        assert!(seed != 0);
        Random(seed)
    }

    pub fn number(&mut self) -> u64 {
        self.0 ^= self.0 << 13;
        self.0 ^= self.0 >> 7;
        self.0 ^= self.0 << 17;
        self.0
    }

    /// An index below n.
    pub fn below(&mut self, n: usize) -> usize {
        self.number_below(n as u64) as usize
    }

    /// A number below n, of 64 bits.
    pub fn number_below(&mut self, n: u64) -> u64 {
        (self.number() >> 11) % n
    }

    /// Bits of which about `share` in 1,000 are ones.
    pub fn bits(&mut self, count: u64, share: usize) -> Vec<bool> {
        (0..count).map(|_| self.below(1000) < share).collect()
    }
}
