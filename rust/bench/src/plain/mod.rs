//! The jobs in plain Rust: the library's passes and buffers, with nothing said for a proof.

#![forbid(unsafe_code)]

mod coefficients_to_table;
mod decode;
mod encode;
mod evaluate;
mod fill_roots;
mod fold;
mod invert;
mod judge;
pub mod products;
mod residue;
mod scan;
mod table_to_coefficients;
mod transform;
mod verify_opening;
mod write_opening;

pub use coefficients_to_table::coefficients_to_table;
pub use decode::decode;
pub use encode::encode;
pub use evaluate::evaluate;
pub use fill_roots::{fill_roots, Filled};
pub use fold::{fold, Folding};
pub use invert::{Invert, OneChain, SixteenChains};
pub use residue::{Barrett, Mersenne, Reduce, Remainder, FIRST, SECOND};
pub use table_to_coefficients::table_to_coefficients;
pub use verify_opening::{verify_opening, Opened};
pub use write_opening::write_opening;
