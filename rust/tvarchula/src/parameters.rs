//! Depth, rate and the words of a base message, and the lengths that follow from them.

use tvarchula_sys::tv_parameters;

use crate::sizes::{MAX_DEPTH, MAX_RATE, MAX_TABLE_LEN, MIN_RATE};

/// Depth, rate and `k0`, the number of words of a base message, which is 1 unless it is named. A
/// [`Code`](crate::Code) has them too.
///
/// A length is 0 where one of them is not legal. Every job refuses those before it looks at any
/// length, so a buffer of that length is answered with the right refusal.
///
/// ```
/// use tvarchula::Parameters;
/// let one = Parameters::new(3, 2);
/// assert_eq!((one.k0, one.message_len(), one.point_len(), one.rows_len()), (1, 8, 3, 2));
///
/// // Base messages of two words: as many words in a message have one level less.
/// let two = Parameters::new(2, 2).with_base_words(2);
/// assert_eq!((two.k0, two.message_len(), two.point_len(), two.rows_len()), (2, 8, 3, 8));
/// assert_eq!(two.block_len(2), one.block_len(3));
/// assert_eq!(two.opening_len(), 20); // two rounds of three words, two coefficients, two blocks
/// ```
#[derive(Clone, Copy, PartialEq, Eq, Hash, Debug)]
#[non_exhaustive]
pub struct Parameters {
    /// The depth: the levels of the code, and the variables of a message above those of a base message.
    pub depth: u32,
    /// The words of a block for each word of a message.
    pub rate: u32,
    /// The words of a base message, and the base rows: 1, 2 or 4.
    pub k0: u32,
}

impl Parameters {
    /// Base messages of one word. Nothing is judged here: the jobs do that.
    #[must_use]
    pub const fn new(depth: u32, rate: u32) -> Parameters {
        Parameters { depth, rate, k0: 1 }
    }

    /// The same with base messages of so many words.
    #[must_use]
    pub const fn with_base_words(self, k0: u32) -> Parameters {
        Parameters { k0, ..self }
    }

    /// Words of a message: k0 * 2^depth, at most [`MAX_TABLE_LEN`].
    #[must_use]
    pub const fn message_len(self) -> usize {
        words(self.depth, self.k0)
    }

    /// Words of a point: a variable for each level, and 0, 1 or 2 low ones before them, those of a base
    /// message.
    #[must_use]
    pub const fn point_len(self) -> usize {
        match self.message_len() {
            0 => 0,
            _ => self.depth as usize + self.k0 as usize / 2,
        }
    }

    /// Words of the base rows: k0 rows of `block_len(0)`.
    #[must_use]
    pub const fn rows_len(self) -> usize {
        self.k0 as usize * self.block_len(0)
    }

    /// Words of a block of a level: rate * k0 * 2^level.
    #[must_use]
    pub const fn block_len(self, level: u32) -> usize {
        if MIN_RATE <= self.rate && self.rate <= MAX_RATE {
            self.rate as usize * words(level, self.k0)
        } else {
            0
        }
    }

    /// Words of each of the two diagonals: rate * k0 * (2^depth - 1). Level i has `block_len(i)` of them and
    /// begins where a diagonal of depth i ends.
    #[must_use]
    pub const fn diagonals_len(self) -> usize {
        self.block_len(self.depth).saturating_sub(self.block_len(0))
    }

    /// Words of an opening: 3 * depth + k0 + rate * k0 * (2^depth - 1).
    ///
    /// In this order: for i from depth down to 1 the three words of round i, the k0 coefficients that are left
    /// in the low variables when the others are the challenges, the blocks of levels depth - 1 down to 0.
    #[must_use]
    pub const fn opening_len(self) -> usize {
        if self.block_len(self.depth) == 0 {
            return 0;
        }
        3 * self.depth as usize + self.k0 as usize + self.diagonals_len()
    }

    /// The record as C takes it.
    pub(crate) const fn lent(self) -> tv_parameters {
        tv_parameters {
            depth: self.depth,
            rate: self.rate,
            k0: self.k0,
        }
    }
}

/// k0 * 2^level where both are legal.
const fn words(level: u32, k0: u32) -> usize {
    if level > MAX_DEPTH || !matches!(k0, 1 | 2 | 4) {
        return 0;
    }
    let words = (k0 as usize) << level;
    if words <= MAX_TABLE_LEN {
        words
    } else {
        0
    }
}

#[cfg(test)]
mod tests {
    use super::*;

    fn lengths(depth: u32, rate: u32, k0: u32) -> [usize; 6] {
        let sizes = Parameters::new(depth, rate).with_base_words(k0);
        [
            sizes.message_len(),
            sizes.point_len(),
            sizes.rows_len(),
            sizes.block_len(depth),
            sizes.diagonals_len(),
            sizes.opening_len(),
        ]
    }

    #[test]
    fn by_hand() {
        assert_eq!(lengths(0, 3, 1), [1, 0, 3, 3, 0, 1]);
        assert_eq!(lengths(0, 3, 2), [2, 1, 12, 6, 0, 2]);
        assert_eq!(lengths(0, 3, 4), [4, 2, 48, 12, 0, 4]);
        assert_eq!(lengths(3, 2, 1), [8, 3, 2, 16, 14, 24]);
        assert_eq!(lengths(3, 2, 2), [16, 4, 8, 32, 28, 39]);
        assert_eq!(lengths(3, 2, 4), [32, 5, 32, 64, 56, 69]);
    }

    #[test]
    fn limits() {
        for (k0, deepest) in [(1, 20), (2, 19), (4, 18)] {
            assert_eq!(lengths(deepest, 16, k0)[..2], [1_048_576, 20]);
            let [message, point, rows, others @ ..] = lengths(deepest + 1, 16, k0);
            assert_eq!([message, point], [0; 2]);
            // These have no depth.
            assert_eq!(rows, (16 * k0 * k0) as usize);
            assert_eq!(others, [0; 3]);
        }
        for k0 in [0, 3, 5, 8, u32::MAX] {
            assert_eq!(lengths(1, 2, k0), [0; 6]);
        }
        for rate in [0, 1, 17, u32::MAX] {
            assert_eq!(lengths(1, rate, 2), [4, 2, 0, 0, 0, 0]);
        }
        assert_eq!(lengths(u32::MAX, 2, 2), [0, 0, 8, 0, 0, 0]);
    }
}
