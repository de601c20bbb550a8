//! Lengths and places that follow from a legal depth and rate.

use std::ops::Range;

/// The largest depth.
pub const MAX_DEPTH: u32 = 20;
/// The longest query list.
pub const MAX_QUERIES: usize = 256;
/// Bytes of a word.
pub const WORD: usize = size_of::<u32>();

/// A legal depth and a legal rate.
#[derive(Clone, Copy, PartialEq, Eq, Debug)]
pub struct Sizes {
    /// The depth.
    pub depth: usize,
    /// The rate.
    pub rate: usize,
}

impl Sizes {
    /// Words of a message.
    pub fn message(self) -> usize {
        1 << self.depth
    }

    /// Words of a block of a level.
    pub fn block(self, level: usize) -> usize {
        self.rate << level
    }

    /// Words of one diagonal of all levels.
    pub fn diagonals(self) -> usize {
        self.rate * (self.message() - 1)
    }

    /// Where a level stands in a diagonal.
    pub fn diagonal(self, level: usize) -> Range<usize> {
        let start = self.block(level) - self.rate;
        start..start + self.block(level)
    }

    /// Words of an opening.
    pub fn opening(self) -> usize {
        self.final_value() + 1 + self.diagonals()
    }

    /// Where the three words of round i stand in an opening, for i from the depth down to 1.
    pub fn round(self, i: usize) -> Range<usize> {
        let start = 3 * (self.depth - i);
        start..start + 3
    }

    /// Where the value at the challenges stands in an opening.
    pub fn final_value(self) -> usize {
        3 * self.depth
    }

    /// Where the block of a level below the depth stands in an opening: higher levels come first.
    pub fn opening_block(self, level: usize) -> Range<usize> {
        let start = self.final_value() + 1 + self.block(self.depth) - self.block(level + 1);
        start..start + self.block(level)
    }
}
