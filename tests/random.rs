// Numbers drawn at random, the same from the same seed on every machine, and the ranges of a request.
#![allow(dead_code)]

// SplitMix64.
pub struct Random(pub u64);

impl Random {
    pub fn next(&mut self) -> u64 {
        self.0 = self.0.wrapping_add(0x9e37_79b9_7f4a_7c15);
        let mut z = self.0;
        z = (z ^ (z >> 30)).wrapping_mul(0xbf58_476d_1ce4_e5b9);
        z = (z ^ (z >> 27)).wrapping_mul(0x94d0_49bb_1331_11eb);
        z ^ (z >> 31)
    }

    pub fn below(&mut self, count: u64) -> u64 {
        self.next() % count
    }

    pub fn one_in(&mut self, count: u64) -> bool {
        self.below(count) == 0
    }

    pub fn between(&mut self, lo: i64, hi: i64) -> i64 {
        lo + self.below((hi - lo) as u64 + 1) as i64
    }

    // Within lo to hi, and more often than chance at either end.
    pub fn field(&mut self, lo: i64, hi: i64) -> i64 {
        match self.below(12) {
            0 => lo,
            1 => hi,
            _ => self.between(lo, hi),
        }
    }

    // Just outside lo to hi, or far.
    pub fn outside(&mut self, lo: i64, hi: i64) -> i64 {
        match self.below(8) {
            0 => i64::MIN,
            1 => i64::MAX,
            2 => i64::MIN + self.below(1_000_000) as i64,
            3 => i64::MAX - self.below(1_000_000) as i64,
            4 => lo - 1,
            5 => hi + 1,
            _ => self.next() as i64,
        }
    }
}

// What each number of a request is within: a start's nine and a point's three.
pub const FIELDS: [(i64, i64); 12] = [
    (1900, 2100),
    (1, 12),
    (1, 31),
    (0, 23),
    (0, 59),
    (0, 59),
    (0, 999),
    (-900, 900),
    (-8_000_000, 8_000_000),
    (-1_800_000_000, 1_800_000_000),
    (-900_000_000, 900_000_000),
    (-500, 9_000),
];
