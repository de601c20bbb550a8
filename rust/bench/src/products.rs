//! Products alone, as a trait, so that every side is compared and timed in the same way.

use crate::jobs::Plain;
use crate::plain::{products, Invert, Reduce};

/// Many products, side by side or each waiting for the one before.
pub trait Products {
    /// Each value times its factor, in `rounds` rounds. `false`, and nothing written, where the lengths
    /// differ or some word is none below p.
    fn side_by_side(rounds: u32, factors: &[u32], values: &mut [u32]) -> bool;
    /// 1 times all factors, one after another, in `rounds` rounds. p where some word is none below p.
    fn in_chain(rounds: u32, factors: &[u32]) -> u32;
}

impl<R: Reduce, I: Invert> Products for Plain<R, I> {
    fn side_by_side(rounds: u32, factors: &[u32], values: &mut [u32]) -> bool {
        products::side_by_side::<R>(rounds, factors, values)
    }

    fn in_chain(rounds: u32, factors: &[u32]) -> u32 {
        products::in_chain::<R>(rounds, factors)
    }
}
