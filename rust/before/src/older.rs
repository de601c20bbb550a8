//! The functions of 0.6, which were lent depth and rate one by one. Tables were lent neither, and evaluation
//! no rate; no job knew k0, which was always 1.

use tvarchula_sys::{tv_answer, tv_parameters, tv_reading};

type Read = *const u32;
type Write = *mut u32;
type Len = usize;

#[rustfmt::skip]
mod linked {
    use super::{tv_answer, tv_reading, Len, Read, Write};

    extern "C" {
        #[link_name = "before_tv_read_clearance"]
        pub fn read_clearance(field: bool, word: u32) -> tv_reading;
        #[link_name = "before_tv_table_to_coefficients"]
        pub fn table_to_coefficients(
            field: bool, clearances: *const i32, clearances_len: Len, message: Write, message_len: Len,
        ) -> tv_answer;
        #[link_name = "before_tv_coefficients_to_table"]
        pub fn coefficients_to_table(
            field: bool, message: Read, message_len: Len, clearances: *mut i32, clearances_len: Len,
            work: Write, work_len: Len,
        ) -> tv_answer;
        #[link_name = "before_tv_evaluate"]
        pub fn evaluate(
            field: bool, depth: u32, message: Read, message_len: Len, z: Read, z_len: Len, value: *mut u32,
        ) -> tv_answer;
        #[link_name = "before_tv_encode"]
        pub fn encode(
            field: bool, depth: u32, rate: u32, g: Read, g_len: Len, t: Read, t_len: Len, t2: Read, t2_len: Len,
            message: Read, message_len: Len, block: Write, block_len: Len,
        ) -> tv_answer;
        #[link_name = "before_tv_decode"]
        pub fn decode(
            field: bool, depth: u32, rate: u32, g: Read, g_len: Len, t: Read, t_len: Len, t2: Read, t2_len: Len,
            block: Read, block_len: Len, message: Write, message_len: Len, work: Write, work_len: Len,
        ) -> tv_answer;
        #[link_name = "before_tv_fold"]
        pub fn fold(
            field: bool, level: u32, rate: u32, t: Read, t_len: Len, t2: Read, t2_len: Len,
            block: Read, block_len: Len, challenge: u32, folded: Write, folded_len: Len,
        ) -> tv_answer;
        #[link_name = "before_tv_write_opening"]
        pub fn write_opening(
            field: bool, depth: u32, rate: u32, g: Read, g_len: Len, t: Read, t_len: Len, t2: Read, t2_len: Len,
            message: Read, message_len: Len, z: Read, z_len: Len, r: Read, r_len: Len,
            opening: Write, opening_len: Len, work: Write, work_len: Len, value: *mut u32,
        ) -> tv_answer;
        #[link_name = "before_tv_verify_opening"]
        pub fn verify_opening(
            field: bool, depth: u32, rate: u32, g: Read, g_len: Len, t: Read, t_len: Len, t2: Read, t2_len: Len,
            block: Read, block_len: Len, z: Read, z_len: Len, y: u32, r: Read, r_len: Len,
            queries: Read, queries_len: Len, opening: Read, opening_len: Len,
        ) -> tv_answer;
        #[link_name = "before_tv_fill_roots"]
        pub fn fill_roots(
            depth: u32, rate: u32, g: Write, g_len: Len, t: Write, t_len: Len, t2: Write, t2_len: Len,
        ) -> tv_answer;
    }
}

/// Depth and rate of a record that 0.6 can be lent.
fn lent(parameters: tv_parameters) -> (u32, u32) {
    let tv_parameters { depth, rate, k0 } = parameters;
    assert_eq!(k0, 1, "0.6 has base messages of one word");
    (depth, rate)
}

/// Reads a word as a clearance.
///
/// # Safety
///
/// As of the present function with this name.
#[inline]
pub unsafe fn tv_read_clearance(field: bool, word: u32) -> tv_reading {
    // SAFETY: no memory is lent.
    unsafe { linked::read_clearance(field, word) }
}

/// Clearance table to coefficients.
///
/// # Safety
///
/// As of the present function with this name.
#[rustfmt::skip]
#[allow(clippy::too_many_arguments)]
#[inline]
pub unsafe fn tv_table_to_coefficients(
    field: bool, parameters: tv_parameters, clearances: *const i32, clearances_len: Len,
    message: Write, message_len: Len,
) -> tv_answer {
    lent(parameters);
    // SAFETY: the caller's, since every slice is passed on as it is.
    unsafe {
        linked::table_to_coefficients(
            field, clearances, clearances_len, message, message_len,
        )
    }
}

/// Coefficients to clearance table.
///
/// # Safety
///
/// As of the present function with this name.
#[rustfmt::skip]
#[allow(clippy::too_many_arguments)]
#[inline]
pub unsafe fn tv_coefficients_to_table(
    field: bool, parameters: tv_parameters, message: Read, message_len: Len, clearances: *mut i32,
    clearances_len: Len, work: Write, work_len: Len,
) -> tv_answer {
    lent(parameters);
    // SAFETY: the caller's, since every slice is passed on as it is.
    unsafe {
        linked::coefficients_to_table(
            field, message, message_len, clearances, clearances_len, work, work_len,
        )
    }
}

/// The polynomial's value at a point.
///
/// # Safety
///
/// As of the present function with this name.
#[rustfmt::skip]
#[allow(clippy::too_many_arguments)]
#[inline]
pub unsafe fn tv_evaluate(
    field: bool, parameters: tv_parameters, message: Read, message_len: Len, z: Read, z_len: Len,
    value: *mut u32,
) -> tv_answer {
    let (depth, _) = lent(parameters);
    // SAFETY: the caller's, since every slice is passed on as it is.
    unsafe {
        linked::evaluate(
            field, depth, message, message_len, z, z_len, value,
        )
    }
}

/// The codeword of a message.
///
/// # Safety
///
/// As of the present function with this name.
#[rustfmt::skip]
#[allow(clippy::too_many_arguments)]
#[inline]
pub unsafe fn tv_encode(
    field: bool, parameters: tv_parameters, g: Read, g_len: Len, t: Read, t_len: Len, t2: Read,
    t2_len: Len, message: Read, message_len: Len, block: Write, block_len: Len,
) -> tv_answer {
    let (depth, rate) = lent(parameters);
    // SAFETY: the caller's, since every slice is passed on as it is.
    unsafe {
        linked::encode(
            field, depth, rate, g, g_len, t, t_len, t2, t2_len, message, message_len, block,
            block_len,
        )
    }
}

/// The message of a codeword.
///
/// # Safety
///
/// As of the present function with this name.
#[rustfmt::skip]
#[allow(clippy::too_many_arguments)]
#[inline]
pub unsafe fn tv_decode(
    field: bool, parameters: tv_parameters, g: Read, g_len: Len, t: Read, t_len: Len, t2: Read,
    t2_len: Len, block: Read, block_len: Len, message: Write, message_len: Len, work: Write,
    work_len: Len,
) -> tv_answer {
    let (depth, rate) = lent(parameters);
    // SAFETY: the caller's, since every slice is passed on as it is.
    unsafe {
        linked::decode(
            field, depth, rate, g, g_len, t, t_len, t2, t2_len, block, block_len, message,
            message_len, work, work_len,
        )
    }
}

/// The fold of a block by one level.
///
/// # Safety
///
/// As of the present function with this name.
#[rustfmt::skip]
#[allow(clippy::too_many_arguments)]
#[inline]
pub unsafe fn tv_fold(
    field: bool, parameters: tv_parameters, t: Read, t_len: Len, t2: Read, t2_len: Len,
    block: Read, block_len: Len, challenge: u32, folded: Write, folded_len: Len,
) -> tv_answer {
    let (depth, rate) = lent(parameters);
    // SAFETY: the caller's, since every slice is passed on as it is.
    unsafe {
        linked::fold(
            field, depth, rate, t, t_len, t2, t2_len, block, block_len, challenge, folded,
            folded_len,
        )
    }
}

/// An opening of a message.
///
/// # Safety
///
/// As of the present function with this name.
#[rustfmt::skip]
#[allow(clippy::too_many_arguments)]
#[inline]
pub unsafe fn tv_write_opening(
    field: bool, parameters: tv_parameters, g: Read, g_len: Len, t: Read, t_len: Len, t2: Read,
    t2_len: Len, message: Read, message_len: Len, z: Read, z_len: Len, r: Read, r_len: Len,
    opening: Write, opening_len: Len, work: Write, work_len: Len, value: *mut u32,
) -> tv_answer {
    let (depth, rate) = lent(parameters);
    // SAFETY: the caller's, since every slice is passed on as it is.
    unsafe {
        linked::write_opening(
            field, depth, rate, g, g_len, t, t_len, t2, t2_len, message, message_len, z, z_len, r,
            r_len, opening, opening_len, work, work_len, value,
        )
    }
}

/// The verdict on an opening.
///
/// # Safety
///
/// As of the present function with this name.
#[rustfmt::skip]
#[allow(clippy::too_many_arguments)]
#[inline]
pub unsafe fn tv_verify_opening(
    field: bool, parameters: tv_parameters, g: Read, g_len: Len, t: Read, t_len: Len, t2: Read,
    t2_len: Len, block: Read, block_len: Len, z: Read, z_len: Len, y: u32, r: Read, r_len: Len,
    queries: Read, queries_len: Len, opening: Read, opening_len: Len,
) -> tv_answer {
    let (depth, rate) = lent(parameters);
    // SAFETY: the caller's, since every slice is passed on as it is.
    unsafe {
        linked::verify_opening(
            field, depth, rate, g, g_len, t, t_len, t2, t2_len, block, block_len, z, z_len, y, r,
            r_len, queries, queries_len, opening, opening_len,
        )
    }
}

/// Base row and diagonals for the second field.
///
/// # Safety
///
/// As of the present function with this name.
#[rustfmt::skip]
#[allow(clippy::too_many_arguments)]
#[inline]
pub unsafe fn tv_fill_roots(
    parameters: tv_parameters, g: Write, g_len: Len, t: Write, t_len: Len, t2: Write, t2_len: Len,
) -> tv_answer {
    let (depth, rate) = lent(parameters);
    // SAFETY: the caller's, since every slice is passed on as it is.
    unsafe {
        linked::fill_roots(
            depth, rate, g, g_len, t, t_len, t2, t2_len,
        )
    }
}
