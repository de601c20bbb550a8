//! Sizes and places that follow from a legal parameter record.

use std::ops::Range;

use crate::parameters::Parameters;

/// A legal depth, rate and k0.
#[derive(Clone, Copy, PartialEq, Eq, Debug)]
pub struct Layout {
    /// The depth d.
    pub depth: usize,
    /// The rate c: a base block has c words for each word of a base message.
    pub rate: usize,
    /// Words of a base message, 1, 2 or 4.
    pub k0: usize,
}

impl Layout {
    /// Base messages of one word.
    pub const fn one(depth: usize, rate: usize) -> Layout {
        Layout { depth, rate, k0: 1 }
    }

    /// The record that lends these sizes.
    pub fn parameters(&self) -> Parameters {
        Parameters {
            depth: self.depth as u32,
            rate: self.rate as u32,
            k0: self.k0 as u32,
        }
    }

    /// The low variables, which stay inside a base message: its words are as many as their corners.
    pub fn low(&self) -> usize {
        self.k0.trailing_zeros() as usize
    }

    /// Words of a point: the low variables, then one for each level.
    pub fn point(&self) -> usize {
        self.low() + self.depth
    }

    /// Words of a message: k0 * 2^d.
    pub fn message(&self) -> usize {
        self.k0 << self.depth
    }

    /// Words of the base rows: k0 rows of n_0.
    pub fn rows(&self) -> usize {
        self.k0 * self.block(0)
    }

    /// Words of a block of a level: n_i = c * k0 * 2^i.
    pub fn block(&self, level: usize) -> usize {
        (self.rate * self.k0) << level
    }

    /// Words of a level-d block.
    pub fn top_block(&self) -> usize {
        self.block(self.depth)
    }

    /// Words of all levels of one diagonal: c * k0 * (2^d - 1).
    pub fn diagonals(&self) -> usize {
        self.block(0) * ((1 << self.depth) - 1)
    }

    /// Where a level lies in a diagonal: from c * k0 * (2^i - 1), n_i words.
    pub fn diagonal(&self, level: usize) -> Range<usize> {
        let start = self.block(0) * ((1 << level) - 1);
        start..start + self.block(level)
    }

    /// Words of an opening: 3d + k0 + c * k0 * (2^d - 1).
    pub fn opening(&self) -> usize {
        3 * self.depth + self.k0 + self.diagonals()
    }

    /// Where h_i lies in an opening, for i from d down to 1.
    pub fn round(&self, i: usize) -> Range<usize> {
        let start = 3 * (self.depth - i);
        start..start + 3
    }

    /// Where the final coefficients v begin in an opening.
    pub fn final_value(&self) -> usize {
        3 * self.depth
    }

    /// Where all of v lies in an opening.
    pub fn final_words(&self) -> Range<usize> {
        let start = self.final_value();
        start..start + self.k0
    }

    /// Where the block of a level below d lies in an opening: after v and all higher blocks.
    pub fn opening_block(&self, level: usize) -> Range<usize> {
        let higher: usize = (level + 1..self.depth).map(|k| self.block(k)).sum();
        let start = self.final_words().end + higher;
        start..start + self.block(level)
    }
}

#[cfg(test)]
mod tests {
    use super::*;

    /// As the order's lengths give them, worked out by hand.
    #[test]
    fn sizes_by_hand() {
        let of = |depth, rate, k0| {
            let layout = Layout { depth, rate, k0 };
            let words = [layout.message(), layout.point(), layout.rows()];
            (words, layout.top_block(), layout.opening())
        };
        assert_eq!(of(0, 3, 1), ([1, 0, 3], 3, 1));
        assert_eq!(of(0, 3, 2), ([2, 1, 12], 6, 2));
        assert_eq!(of(0, 3, 4), ([4, 2, 48], 12, 4));
        assert_eq!(of(3, 2, 1), ([8, 3, 2], 16, 24));
        assert_eq!(of(3, 2, 2), ([16, 4, 8], 32, 39));
        assert_eq!(of(3, 2, 4), ([32, 5, 32], 64, 69));
        assert_eq!(of(20, 16, 1), ([1_048_576, 20, 16], 16_777_216, 16_777_261));
        assert_eq!(of(19, 16, 2), ([1_048_576, 20, 64], 16_777_216, 16_777_243));
        assert_eq!(
            of(18, 16, 4),
            ([1_048_576, 20, 256], 16_777_216, 16_777_210)
        );
    }

    #[test]
    fn levels_and_blocks_leave_no_gap() {
        for k0 in [1, 2, 4] {
            for depth in 0..=20 {
                for rate in 2..=16 {
                    no_gap(Layout { depth, rate, k0 });
                }
            }
        }
    }

    fn no_gap(layout: Layout) {
        let mut place = 0;
        for level in 0..layout.depth {
            assert_eq!(layout.diagonal(level).start, place);
            place = layout.diagonal(level).end;
        }
        assert_eq!(place, layout.diagonals());
        let mut place = 0;
        for i in (1..=layout.depth).rev() {
            assert_eq!(layout.round(i).start, place);
            place = layout.round(i).end;
        }
        assert_eq!(place, layout.final_value());
        place += layout.k0;
        for level in (0..layout.depth).rev() {
            assert_eq!(layout.opening_block(level).start, place);
            place = layout.opening_block(level).end;
        }
        assert_eq!(place, layout.opening());
    }
}
