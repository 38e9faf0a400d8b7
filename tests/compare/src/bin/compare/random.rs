//! Seeded random numbers (splitmix64).

/// A stream of random numbers.
pub struct Random(u64);

impl Random {
    /// The stream of a seed and of a number below it.
    pub fn new(seed: u64, number: u64) -> Self {
        let mut random = Random(seed);
        let start = random.next() ^ number;
        Random(start)
    }

    pub fn next(&mut self) -> u64 {
        self.0 = self.0.wrapping_add(0x9e37_79b9_7f4a_7c15);
        let mut mixed = self.0;
        mixed = (mixed ^ (mixed >> 30)).wrapping_mul(0xbf58_476d_1ce4_e5b9);
        mixed = (mixed ^ (mixed >> 27)).wrapping_mul(0x94d0_49bb_1331_11eb);
        mixed ^ (mixed >> 31)
    }

    /// A number below the limit, which is not 0.
    pub fn below(&mut self, limit: usize) -> usize {
        (self.next() % limit as u64) as usize
    }

    /// A number from `low` to `high`.
    pub fn between(&mut self, low: usize, high: usize) -> usize {
        low + self.below(high - low + 1)
    }

    pub fn chance(&mut self, percent: usize) -> bool {
        self.below(100) < percent
    }

    pub fn pick<T: Copy>(&mut self, choices: &[T]) -> T {
        choices[self.below(choices.len())]
    }

    /// A 32-bit number: about the limit, small, about a power of two, or any.
    pub fn number_about(&mut self, limit: u32) -> u32 {
        match self.below(8) {
            0..=3 => limit.wrapping_add(self.below(4) as u32).wrapping_sub(2),
            4 => self.below(4) as u32,
            5 => u32::MAX - self.below(3) as u32,
            6 => (1 << self.below(32)) - self.below(2) as u32,
            _ => self.next() as u32,
        }
    }

    /// A 16-bit number of the same kind.
    pub fn short_about(&mut self, limit: u16) -> u16 {
        match self.below(8) {
            0..=4 => limit.wrapping_add(self.below(4) as u16).wrapping_sub(2),
            5 => self.pick(&[0, 255, 256, 32_767, 65_535]),
            _ => self.next() as u16,
        }
    }
}
