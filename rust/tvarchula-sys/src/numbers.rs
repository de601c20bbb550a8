//! The constants of the header, by the same names.

/// The first field of a call: the integers modulo [`TV_MODULUS_1`].
pub const TV_FIELD_1: bool = false;
/// The second field of a call: the integers modulo [`TV_MODULUS_2`]. A `bool` can name no third.
pub const TV_FIELD_2: bool = true;
/// The modulus of the first field, 2^31 - 1.
pub const TV_MODULUS_1: u32 = 2_147_483_647;
/// The modulus of the second field, 15 * 2^27 + 1.
pub const TV_MODULUS_2: u32 = 2_013_265_921;
/// The largest clearance over the first field; the smallest is its negative.
pub const TV_MAX_CLEARANCE_1: i32 = 1_073_741_823;
/// The largest clearance over the second field; the smallest is its negative.
pub const TV_MAX_CLEARANCE_2: i32 = 1_006_632_960;
/// The largest depth of base messages of one word; for 2 and 4 words it is one and two less.
pub const TV_MAX_DEPTH: u32 = 20;
/// The smallest rate.
pub const TV_MIN_RATE: u32 = 2;
/// The largest rate.
pub const TV_MAX_RATE: u32 = 16;
/// The longest query list.
pub const TV_MAX_QUERIES: u32 = 256;
/// The longest table; `k0 * 2^depth` is at most as large.
pub const TV_MAX_TABLE_LEN: u32 = 1_048_576;

/// A reading's kind: free, above zero. Only this kind may be passed.
pub const TV_FREE: u32 = 1;
/// A reading's kind: an overlap, below zero.
pub const TV_OVERLAP: u32 = 2;
/// A reading's kind: contact, zero.
pub const TV_CONTACT: u32 = 3;

/// The first input that 4 names, the base row. They are judged in this order.
pub const TV_INPUT_G: u32 = 1;
/// The first diagonal.
pub const TV_INPUT_T: u32 = 2;
/// The second diagonal.
pub const TV_INPUT_T2: u32 = 3;
/// The message or the block, or the word that is read as a clearance.
pub const TV_INPUT_BLOCK: u32 = 4;
/// The point.
pub const TV_INPUT_Z: u32 = 5;
/// The claimed value.
pub const TV_INPUT_Y: u32 = 6;
/// The challenges, or the single one of folding.
pub const TV_INPUT_R: u32 = 7;
/// The opening.
pub const TV_INPUT_OPENING: u32 = 8;

/// The job is done.
pub const TV_DONE: u32 = 0;
/// The opening is accepted.
pub const TV_ACCEPTED: u32 = 0;
/// A depth, an upper level, or a length that tells the depth. A `k0` that is not legal counts as 1.
pub const TV_REFUSED_DEPTH: u32 = 1;
/// A rate.
pub const TV_REFUSED_RATE: u32 = 2;
/// The length of a slice, but for the query list.
pub const TV_REFUSED_LENGTH: u32 = 3;
/// A word of the field's modulus or more, but for the query list. The answer names its place.
pub const TV_REFUSED_WORD: u32 = 4;
/// A zero in the base row, and the answer names its place; or several base rows whose first columns
/// have no inverse.
pub const TV_REFUSED_ROW: u32 = 5;
/// Diagonals that are equal in some place. The answer names the first.
pub const TV_REFUSED_DIAGONALS: u32 = 6;
/// The query list: its length, or a place that is too large.
pub const TV_REFUSED_QUERIES: u32 = 7;
/// A block that is no codeword.
pub const TV_REFUSED_NO_CODEWORD: u32 = 8;
/// A clearance out of range.
pub const TV_REFUSED_CLEARANCE: u32 = 9;
/// A place that stands in the query list more than once.
pub const TV_REFUSED_REPEATED: u32 = 11;
/// A rate that is no power of two. Only filling answers this.
pub const TV_REFUSED_NO_POWER_OF_TWO: u32 = 12;
/// A number of words of a base message that the job does not take. It comes right after 2.
pub const TV_REFUSED_BASE_WORDS: u32 = 13;
/// A sum check fails.
pub const TV_FAILED_SUM: u32 = 20;
/// The final check fails.
pub const TV_FAILED_FINAL: u32 = 21;
/// A base check fails.
pub const TV_FAILED_BASE: u32 = 22;
/// A fold check fails.
pub const TV_FAILED_FOLD: u32 = 23;
