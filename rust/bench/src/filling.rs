//! Filling by rule, as a trait, so that both sides are compared and timed in the same way.

use crate::answer::Answer;
use crate::jobs::Plain;
use crate::plain::{self, Barrett, Filled, Invert};

/// Base row and diagonals of the second field, by rule.
pub trait Filling {
    /// Fills them, for a rate that is a power of two.
    fn fill_roots(depth: u32, rate: u32, filled: Filled<'_>) -> Answer;
}

impl<I: Invert> Filling for Plain<Barrett, I> {
    fn fill_roots(depth: u32, rate: u32, filled: Filled<'_>) -> Answer {
        plain::fill_roots(depth, rate, filled).into()
    }
}
