//! Whole numbers for the tests, the same from the same seed.

/// A generator of whole numbers between two bounds, both included.
pub struct Random(pub u64);

impl Random {
    pub fn within(&mut self, first: i64, last: i64) -> i64 {
        self.0 ^= self.0 << 13;
        self.0 ^= self.0 >> 7;
        self.0 ^= self.0 << 17;
        first + (self.0 % (last - first + 1) as u64) as i64
    }
}
