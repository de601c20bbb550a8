//! Compares two implementations of the jobs: the same calls run on both, and the answers and all
//! buffers are compared after every call, after refusals too.
//!
//! The comparison is generic: the tests run it on the linked static library against the reference,
//! and on deliberately wrong jobs to show that it finds them.

pub mod buffer;
pub mod call;
pub mod compare;
pub mod damage;
pub mod forge;
pub mod good;
pub mod job;
pub mod large;
#[cfg(any(feature = "ground", feature = "code", feature = "opening"))]
pub mod linked;
pub mod out;
pub mod place;
pub mod run;
pub mod sweep;
pub mod tally;

pub use call::{Call, Input};
pub use compare::{Comparison, Difference, Runner};
pub use job::Job;
pub use tally::Tally;

/// How many times the usual number of random cases: 10 when TVARCHULA_LONG is 1.
pub fn scale() -> usize {
    match std::env::var("TVARCHULA_LONG") {
        Ok(flag) if flag == "1" => 10,
        _ => 1,
    }
}
