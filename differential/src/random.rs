//! A small generator of numbers. A seed and a case number settle all of them, so
//! every case can be run again by itself.

/// The 64-bit "splitmix" generator.
pub struct Random(u64);

impl Random {
    /// The generator of one case.
    pub fn new(seed: u64, case: u64) -> Random {
        let mut random = Random(seed);
        random.0 = random.bits() ^ case.wrapping_mul(0xd6e8_feb8_6659_fd93);
        random
    }

    /// Any 64 bits.
    pub fn bits(&mut self) -> u64 {
        self.0 = self.0.wrapping_add(0x9e37_79b9_7f4a_7c15);
        let mut mixed = self.0;
        mixed = (mixed ^ (mixed >> 30)).wrapping_mul(0xbf58_476d_1ce4_e5b9);
        mixed = (mixed ^ (mixed >> 27)).wrapping_mul(0x94d0_49bb_1331_11eb);
        mixed ^ (mixed >> 31)
    }

    /// Any 32-bit number.
    pub fn number(&mut self) -> i32 {
        self.bits() as i32
    }

    /// From 0 to just below the bound, which is not 0.
    pub fn below(&mut self, bound: usize) -> usize {
        (self.bits() % bound as u64) as usize
    }

    /// From the first to the last, both included.
    pub fn between(&mut self, first: i32, last: i32) -> i32 {
        let width = i64::from(last) - i64::from(first) + 1;
        (i64::from(first) + (self.bits() % width as u64) as i64) as i32
    }

    /// True once in so many times.
    pub fn once_in(&mut self, times: usize) -> bool {
        self.below(times) == 0
    }

    /// One of the values.
    pub fn choose<T: Copy>(&mut self, values: &[T]) -> T {
        values[self.below(values.len())]
    }
}
