//! The functions. The header says what each is lent, and how long each slice has to be. `field` is
//! [`TV_FIELD_1`](crate::TV_FIELD_1) or [`TV_FIELD_2`](crate::TV_FIELD_2).

use crate::{tv_answer, tv_parameters, tv_reading};

/// A slice that is read: the first of the two parameters that C has for it.
type Read = *const u32;
/// A slice that is written.
type Write = *mut u32;
/// The second: how many words.
type Len = usize;

#[rustfmt::skip]
extern "C" {
    /// Reads a word as a clearance.
    pub fn tv_read_clearance(field: bool, word: u32) -> tv_reading;
    /// Clearance table to coefficients.
    pub fn tv_table_to_coefficients(
        field: bool, parameters: tv_parameters, clearances: *const i32, clearances_len: Len,
        message: Write, message_len: Len,
    ) -> tv_answer;
    /// Coefficients to clearance table.
    pub fn tv_coefficients_to_table(
        field: bool, parameters: tv_parameters, message: Read, message_len: Len,
        clearances: *mut i32, clearances_len: Len, work: Write, work_len: Len,
    ) -> tv_answer;
    /// The polynomial's value at a point.
    pub fn tv_evaluate(
        field: bool, parameters: tv_parameters, message: Read, message_len: Len, z: Read, z_len: Len,
        value: *mut u32,
    ) -> tv_answer;
    /// The codeword of a message.
    pub fn tv_encode(
        field: bool, parameters: tv_parameters, g: Read, g_len: Len, t: Read, t_len: Len, t2: Read, t2_len: Len,
        message: Read, message_len: Len, block: Write, block_len: Len,
    ) -> tv_answer;
    /// The message of a codeword.
    pub fn tv_decode(
        field: bool, parameters: tv_parameters, g: Read, g_len: Len, t: Read, t_len: Len, t2: Read, t2_len: Len,
        block: Read, block_len: Len, message: Write, message_len: Len, work: Write, work_len: Len,
    ) -> tv_answer;
    /// The fold of a block by one level; the record's depth is the upper one.
    pub fn tv_fold(
        field: bool, parameters: tv_parameters, t: Read, t_len: Len, t2: Read, t2_len: Len,
        block: Read, block_len: Len, challenge: u32, folded: Write, folded_len: Len,
    ) -> tv_answer;
    /// An opening of a message.
    pub fn tv_write_opening(
        field: bool, parameters: tv_parameters, g: Read, g_len: Len, t: Read, t_len: Len, t2: Read, t2_len: Len,
        message: Read, message_len: Len, z: Read, z_len: Len, r: Read, r_len: Len,
        opening: Write, opening_len: Len, work: Write, work_len: Len, value: *mut u32,
    ) -> tv_answer;
    /// The verdict on an opening.
    pub fn tv_verify_opening(
        field: bool, parameters: tv_parameters, g: Read, g_len: Len, t: Read, t_len: Len, t2: Read, t2_len: Len,
        block: Read, block_len: Len, z: Read, z_len: Len, y: u32, r: Read, r_len: Len,
        queries: Read, queries_len: Len, opening: Read, opening_len: Len,
    ) -> tv_answer;
    /// Base row and diagonals for the second field, powers of roots of unity.
    pub fn tv_fill_roots(
        parameters: tv_parameters, g: Write, g_len: Len, t: Write, t_len: Len, t2: Write, t2_len: Len,
    ) -> tv_answer;
}
