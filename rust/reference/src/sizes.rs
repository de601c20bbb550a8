//! The limits.

/// Largest depth.
pub const MAX_DEPTH: u32 = 20;
/// Smallest and largest rate.
pub const RATES: std::ops::RangeInclusive<u32> = 2..=16;
/// Largest table, and largest message on the way back.
pub const MAX_TABLE: usize = 1_048_576;
/// Longest query list.
pub const MAX_QUERIES: usize = 256;

/// Legal numbers of words of a base message.
pub const K0S: [u32; 3] = [1, 2, 4];
