//! The library's jobs beside the same jobs in plain Rust.
//!
//! [`plain`] works as the library does, pass by pass and in the same lent buffers, but is written
//! as anybody would write it who has nothing to prove. Both are [`Jobs`], over either field; [`call()`] calls
//! one job of either on the same [`Inputs`] and [`Buffers`]. The program times the two side by side, and the
//! tests compare their answers and all words that they write.
//!
//! [`ordinary`] has the encoder and the fold alone, written for speed and not after the library; [`coding`] calls
//! these two of every side that has them.

mod answer;
mod call;
pub mod coding;
mod filling;
mod jobs;
mod lent;
mod linked;
pub mod ordinary;
pub mod plain;
mod products;
mod sample;
mod sizes;
pub mod timing;

pub use answer::{Answer, Code, Failure, Input, Refusal};
pub use call::{call, Call, Job};
pub use filling::Filling;
pub use jobs::{Jobs, Outputs, Plain};
pub use lent::{Buffers, Inputs};
#[cfg(before)]
pub use linked::Before;
pub use linked::Library;
pub use products::Products;
pub use sizes::{Sizes, MAX_DEPTH, MAX_QUERIES};
pub use tvarchula_sys::{TV_FIELD_1, TV_FIELD_2};
