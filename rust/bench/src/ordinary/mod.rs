//! The encoder and the fold once more, as an engineer writes them for speed in safe Rust: for plain x86-64, with
//! nothing but what the compiler makes vectors of, and owing nothing to the library's way.
//!
//! The same files are built a second time, for the machine at hand, by the feature `native`: so they stand alone
//! and name nothing of the crate around them.

#![forbid(unsafe_code)]

mod check;
mod encode;
mod field;
mod fold;

pub use check::Refusal;
pub use encode::{encode, Code};
pub use field::{BabyBear, Field, Mersenne31};
pub use fold::{fold, Level};
