//! A row of random numbers that its seed fixes.

use std::ops::RangeInclusive;

/// SplitMix64 (Steele, Lea and Flood, 2014): short, and good enough to choose tests by.
pub struct Numbers {
    state: u64,
}

impl Numbers {
    /// The row that belongs to the seed.
    pub fn new(seed: u64) -> Numbers {
        Numbers { state: seed }
    }

    /// The next number of the row.
    pub fn draw(&mut self) -> u64 {
        self.state = self.state.wrapping_add(0x9e37_79b9_7f4a_7c15);
        let mut mixed = self.state;
        mixed = (mixed ^ (mixed >> 30)).wrapping_mul(0xbf58_476d_1ce4_e5b9);
        mixed = (mixed ^ (mixed >> 27)).wrapping_mul(0x94d0_49bb_1331_11eb);
        mixed ^ (mixed >> 31)
    }

    /// A number below `end`, which is not 0.
    pub fn below(&mut self, end: usize) -> usize {
        (self.draw() % end as u64) as usize
    }

    /// Any byte.
    pub fn byte(&mut self) -> u8 {
        self.draw() as u8
    }

    /// Yes, once in `times`.
    pub fn once_in(&mut self, times: usize) -> bool {
        self.below(times) == 0
    }

    /// A number of the range, its two ends more often than the others: limits are where readers slip.
    pub fn within(&mut self, range: &RangeInclusive<u8>) -> u8 {
        let (first, last) = (*range.start(), *range.end());
        match self.below(8) {
            0 => first,
            1 => last,
            _ => first + self.below(usize::from(last - first) + 1) as u8,
        }
    }

    /// One of the things, which are not none.
    pub fn pick<T: Copy>(&mut self, things: &[T]) -> T {
        things[self.below(things.len())]
    }
}
