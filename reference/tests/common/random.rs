//! A small deterministic generator, so that every run sees the same cases.

/// Marsaglia's 64-bit xorshift.
pub struct Xorshift(u64);

impl Xorshift {
    /// The seed is any number but 0.
    pub fn new(seed: u64) -> Xorshift {
        assert_ne!(seed, 0);
        Xorshift(seed)
    }

    pub fn next(&mut self) -> u64 {
        self.0 ^= self.0 << 13;
        self.0 ^= self.0 >> 7;
        self.0 ^= self.0 << 17;
        self.0
    }

    /// A number from 0 to just below the bound.
    pub fn below(&mut self, bound: usize) -> usize {
        ((self.next() >> 16) % bound as u64) as usize
    }

    /// A number from the first to the last, both included.
    pub fn between(&mut self, first: i32, last: i32) -> i32 {
        let width = (i64::from(last) - i64::from(first) + 1) as u64;
        (i64::from(first) + ((self.next() >> 8) % width) as i64) as i32
    }

    pub fn choose<T: Copy>(&mut self, values: &[T]) -> T {
        values[self.below(values.len())]
    }
}
