//! The ten jobs of the order in plain Rust, written from its definitions, over both of its fields and
//! with base messages of 1, 2 or 4 words.
//!
//! This crate is evidence, not product: it shares no line with the library and is kept simple
//! rather than fast. Where a definition is too slow for large sizes there are two forms, the
//! literal one and a faster one; the jobs use the literal form up to [`LITERAL_DEPTH`] and the
//! tests hold the two forms against each other.
//!
//! Every job takes its lent slices, results and work included, and returns an [`Answer`], so that
//! a caller can compare all buffers after every call, refused or not.

#![forbid(unsafe_code)]

pub mod answer;
pub mod clearance;
pub mod code;
pub mod decode;
pub mod encode;
pub mod field;
pub mod fill;
pub mod fold;
pub mod jobs;
pub mod judge;
pub mod layout;
pub mod lent;
pub mod linear;
pub mod numbers;
pub mod opening;
pub mod parameters;
pub mod polynomial;
pub mod residue;
pub mod sample;
pub mod sizes;
pub mod sumcheck;
pub mod table;
pub mod verify;

pub use answer::{Answer, Input, Reading, Refusal};
pub use field::Field;
pub use jobs::{CodeJobs, GroundJobs, OpeningJobs, Reference};
pub use layout::Layout;
pub use lent::{LentCode, LentLevel};
pub use parameters::Parameters;
pub use residue::Residue;

/// Up to this depth the jobs use the literal form of a definition.
pub const LITERAL_DEPTH: usize = 4;
