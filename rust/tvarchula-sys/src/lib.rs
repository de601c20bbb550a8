//! The C functions of `libtvarchula.a`, as `include/tvarchula.h` declares them.
//!
//! The crate `tvarchula` has safe functions over these. Whoever calls these directly keeps the
//! header's rules: a slice is a pointer that is not null and aligned to 4 bytes, and a count of
//! words; no slice that is written overlaps another one; a pointer to a single result is not null
//! and points outside all slices. Every other input is answered.
//!
//! The build script looks for the archive in the folder `TVARCHULA_LIB_DIR` (an absolute path), else
//! in `target/staticlib` of this folder and of those above. Without it all but linking works.

#![no_std]
#![allow(non_camel_case_types)]

mod functions;
mod numbers;

pub use functions::*;
pub use numbers::*;

/// The version of the header that these declarations belong to.
pub const TV_VERSION: &str = env!("CARGO_PKG_VERSION");

/// What a call is told of sizes. A job judges of it only what it needs: the two table jobs `k0`,
/// evaluation `depth` and `k0`, every other one all three.
#[repr(C)]
#[derive(Clone, Copy, PartialEq, Eq, Debug)]
pub struct tv_parameters {
    /// The depth; for folding the upper level.
    pub depth: u32,
    /// The words of a block for each word of a message.
    pub rate: u32,
    /// The words of a base message, and the rows of the base matrix: 1, 2 or 4.
    pub k0: u32,
}

/// What a function answers: its number, and the places that the number names, else 0. Every index
/// counts from 0, over the whole slice as it was lent.
#[repr(C)]
#[derive(Clone, Copy, PartialEq, Eq, Debug)]
#[must_use = "a job that is not done has written nothing, and only number 0 accepts an opening"]
pub struct tv_answer {
    /// 0 is done or accepted.
    pub number: u32,
    /// 4: the index of the first word that is refused, in its input. 5: that of the first zero in g,
    /// and 0 for several base rows. 6: that of the first equal pair. 20: i. 22: j. 23: the query's position.
    pub first: u32,
    /// 4: the input, [`TV_INPUT_G`] to [`TV_INPUT_OPENING`]. 23: the level.
    pub second: u32,
}

/// What reading a clearance answers.
#[repr(C)]
#[derive(Clone, Copy, PartialEq, Eq, Debug)]
#[must_use = "a refused word is no clearance"]
pub struct tv_reading {
    /// 0 is done. 4 names word 0 of [`TV_INPUT_BLOCK`].
    pub answer: tv_answer,
    /// [`TV_FREE`], [`TV_OVERLAP`] or [`TV_CONTACT`]; 0 when refused.
    pub kind: u32,
    /// In micrometres; 0 for contact, and when refused.
    pub amount: u32,
}
