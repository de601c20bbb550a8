//! The limits, and the lengths that follow from a depth and a rate with base messages of one word. They
//! are the same in both fields.
//!
//! A length is 0 where depth, level or rate is not legal. Every job refuses those before it looks
//! at any length, so a buffer of that length is answered with the right refusal.

use crate::parameters::Parameters;

/// The largest depth of base messages of one word; for two and four words it is one and two less.
pub const MAX_DEPTH: u32 = tvarchula_sys::TV_MAX_DEPTH;
/// The smallest rate.
pub const MIN_RATE: u32 = tvarchula_sys::TV_MIN_RATE;
/// The largest rate.
pub const MAX_RATE: u32 = tvarchula_sys::TV_MAX_RATE;
/// The longest query list.
pub const MAX_QUERIES: usize = tvarchula_sys::TV_MAX_QUERIES as usize;
/// The longest table and the longest message, 2^[`MAX_DEPTH`] words.
pub const MAX_TABLE_LEN: usize = tvarchula_sys::TV_MAX_TABLE_LEN as usize;

/// Words of a message: 2^depth. For base messages of more than one word [`Parameters`] has all lengths.
///
/// ```
/// use tvarchula::message_len;
/// assert_eq!(message_len(3), 8);
/// assert_eq!(message_len(20), 1_048_576);
/// assert_eq!(message_len(21), 0); // no legal depth
/// ```
#[must_use]
pub const fn message_len(depth: u32) -> usize {
    Parameters::new(depth, MIN_RATE).message_len()
}

/// Words of a block of a level: rate * 2^level.
///
/// ```
/// use tvarchula::block_len;
/// assert_eq!(block_len(1, 2), 4);
/// assert_eq!(block_len(20, 16), 16_777_216);
/// assert_eq!(block_len(1, 17), 0); // no legal rate
/// ```
#[must_use]
pub const fn block_len(level: u32, rate: u32) -> usize {
    Parameters::new(level, rate).block_len(level)
}

/// Words of each of the two diagonals: rate * (2^depth - 1).
///
/// Level i lies from `diagonals_len(i, rate)` to `diagonals_len(i + 1, rate)`:
///
/// ```
/// use tvarchula::{block_len, diagonals_len};
/// let level_1 = diagonals_len(1, 2)..diagonals_len(2, 2);
/// assert_eq!(level_1, 2..6);
/// assert_eq!(level_1.len(), block_len(1, 2));
/// assert_eq!(diagonals_len(0, 2), 0);
/// ```
#[must_use]
pub const fn diagonals_len(depth: u32, rate: u32) -> usize {
    Parameters::new(depth, rate).diagonals_len()
}

/// Words of an opening: 3 * depth + 1 + rate * (2^depth - 1).
///
/// In this order: for i from depth down to 1 the three words of round i, the value at the
/// challenges, the blocks of levels depth - 1 down to 0.
///
/// ```
/// use tvarchula::opening_len;
/// assert_eq!(opening_len(1, 2), 6);
/// assert_eq!(opening_len(20, 16), 16_777_261);
/// assert_eq!(opening_len(0, 2), 1);
/// assert_eq!(opening_len(21, 2), 0); // no legal depth
/// ```
#[must_use]
pub const fn opening_len(depth: u32, rate: u32) -> usize {
    Parameters::new(depth, rate).opening_len()
}
