//! A BaseFold commitment over the integers modulo 2147483647 or modulo 2013265921: safe functions
//! over the static library `libtvarchula.a`, whose every function is proved to meet its contract.
//!
//! A planner commits to a table of clearances by sending one block of words. Later it opens single
//! values, and the cell verifies each against that block.
//!
#![cfg_attr(feature = "alloc", doc = "```")]
#![cfg_attr(not(feature = "alloc"), doc = "```ignore")]
//! use tvarchula::*;
//!
//! // Both sides know the code: the field, depth 1, rate 2, a base row and two diagonals.
//! let field = Field::Mersenne31;
//! let code = Code::new(field, 1, 2, &[1, 1], &[2, 3], &[2147483645, 2147483644]);
//!
//! // The planner commits to a table of two clearances.
//! let message = table_to_coefficients_vec(field, &[1250, -300])?;
//! let commitment = encode_vec(&code, &message)?;
//!
//! // It opens entry 1, at the corner [1], under the challenge that the cell drew.
//! let (z, r) = ([1], [77]);
//! let (opening, y) = write_opening_vec(&code, &message, &Question { z: &z, r: &r })?;
//!
//! // The cell draws places, verifies the claimed value and reads it.
//! let claim = Claim { z: &z, y, r: &r, queries: &[0, 1] };
//! verify_opening(&code, &commitment, &claim, &opening)?;
//! let reading = read_clearance(field, y)?;
//! assert_eq!(reading, Reading::Overlap(300));
//! assert!(!reading.is_free()); // only what is free may be passed
//!
//! // Any other value is an error.
//! let forged = Claim { y: 1250, ..claim };
//! assert!(verify_opening(&code, &commitment, &forged, &opening).is_err());
//! # Ok::<(), Box<dyn std::error::Error>>(())
//! ```
//!
//! # Fields
//!
//! Every call names its [`Field`], those that take a [`Code`] with it. For [`Field::BabyBear`]
//! [`fill_roots`] writes a base row and diagonals that need no drawing, and the code is then a
//! Reed-Solomon code; `Roots` has them in vectors.
//!
//! # Base messages of two and four words
//!
//! A [`Code`] has base messages of one word unless [`Code::with_base_words`] names 2 or 4. It then has as many
//! base rows, and its messages as many words more; [`Parameters`] has all lengths. Tables, evaluation and folding
//! of such a code are methods of it; the functions without a code have base messages of one word.
//!
//! # Buffers
//!
//! Every job reads slices and writes into buffers that it is lent; neither the library nor these
//! functions allocate. The forms that end in `_vec` allocate the result, and the work buffer where
//! there is one; they and `Roots` are in the default feature `alloc`. The crate does not use `std`.
//!
//! After a refusal every result is as it was. Work buffers hold zeros after success and after
//! [`Refusal::NoCodeword`], and are as they were after any other refusal; what they hold before a
//! call does not matter.
//!
//! # Where
//!
//! [`Refusal::Word`], [`Refusal::BaseRow`] and [`Refusal::Diagonals`] say where: which word of which
//! slice is the first that offends, and what stands there.
//!
//! # Panics
//!
//! No input makes a function panic. An answer that this crate does not know, from an archive of
//! another version, is [`Refusal::Unknown`].

#![no_std]
#![deny(missing_docs)]
#![deny(unsafe_code)]

#[cfg(feature = "alloc")]
extern crate alloc;
#[cfg(test)]
extern crate std;

mod clearance;
mod code;
mod field;
mod input;
mod opening;
mod parameters;
#[allow(unsafe_code)]
mod raw;
mod refusal;
mod roots;
mod sizes;
mod verdict;

pub use clearance::{coefficients_to_table, read_clearance, table_to_coefficients, Reading};
#[cfg(feature = "alloc")]
pub use clearance::{coefficients_to_table_vec, table_to_coefficients_vec};
pub use code::{decode, encode, evaluate, fold, Code};
#[cfg(feature = "alloc")]
pub use code::{decode_vec, encode_vec, fold_vec};
pub use field::Field;
pub use input::Input;
#[cfg(feature = "alloc")]
pub use opening::write_opening_vec;
pub use opening::{verdict, verify_opening, write_opening, Claim, Question};
pub use parameters::Parameters;
pub use refusal::Refusal;
pub use roots::fill_roots;
#[cfg(feature = "alloc")]
pub use roots::Roots;
pub use sizes::{
    block_len, diagonals_len, message_len, opening_len, MAX_DEPTH, MAX_QUERIES, MAX_RATE,
    MAX_TABLE_LEN, MIN_RATE,
};
pub use verdict::{Failure, Verdict, VerifyError};
