//! The jobs as a trait, so that every side is called, compared and timed in the same way.

use crate::answer::{Answer, Code, Refusal};
use crate::plain::{self, Folding, Invert, Mersenne, OneChain, Opened, Reduce};
use std::marker::PhantomData;

/// What writing an opening writes.
#[derive(Debug)]
pub struct Outputs<'a> {
    /// The opening.
    pub result: &'a mut [u32],
    /// The work buffer.
    pub work: &'a mut [u32],
    /// The value at the point.
    pub value: &'a mut u32,
}

/// The eight jobs over slices, with the answers of `include/tvarchula.h`.
pub trait Jobs {
    /// Clearances to coefficients.
    fn table_to_coefficients(k0: u32, clearances: &[i32], message: &mut [u32]) -> Answer;
    /// Coefficients to clearances.
    fn coefficients_to_table(
        k0: u32,
        message: &[u32],
        table: &mut [i32],
        work: &mut [u32],
    ) -> Answer;
    /// The polynomial's value at a point.
    fn evaluate(depth: u32, k0: u32, message: &[u32], z: &[u32], value: &mut u32) -> Answer;
    /// The codeword of a message.
    fn encode(code: &Code<'_>, message: &[u32], block: &mut [u32]) -> Answer;
    /// The message of a codeword.
    fn decode(code: &Code<'_>, block: &[u32], message: &mut [u32], work: &mut [u32]) -> Answer;
    /// The fold of a block by one level.
    fn fold(lent: &Folding<'_>, folded: &mut [u32]) -> Answer;
    /// An opening and the value at the point.
    fn write_opening(
        code: &Code<'_>,
        message: &[u32],
        z: &[u32],
        r: &[u32],
        out: Outputs<'_>,
    ) -> Answer;
    /// The checks of an opening.
    fn verify_opening(code: &Code<'_>, lent: &Opened<'_>) -> Answer;
}

/// Plain Rust with base messages of one word, with a field and the reduction of its products, and a way to invert the differences of diagonals.
#[derive(Clone, Copy, Debug)]
pub struct Plain<R = Mersenne, I = OneChain>(PhantomData<(R, I)>);

impl<R: Reduce, I: Invert> Jobs for Plain<R, I> {
    fn table_to_coefficients(k0: u32, clearances: &[i32], message: &mut [u32]) -> Answer {
        plain::table_to_coefficients::<R>(k0, clearances, message).into()
    }

    fn coefficients_to_table(
        k0: u32,
        message: &[u32],
        table: &mut [i32],
        work: &mut [u32],
    ) -> Answer {
        plain::coefficients_to_table::<R>(k0, message, table, work).into()
    }

    fn evaluate(depth: u32, k0: u32, message: &[u32], z: &[u32], value: &mut u32) -> Answer {
        keep(plain::evaluate::<R>(depth, k0, message, z), value)
    }

    fn encode(code: &Code<'_>, message: &[u32], block: &mut [u32]) -> Answer {
        plain::encode::<R>(code, message, block).into()
    }

    fn decode(code: &Code<'_>, block: &[u32], message: &mut [u32], work: &mut [u32]) -> Answer {
        plain::decode::<R, I>(code, block, message, work).into()
    }

    fn fold(lent: &Folding<'_>, folded: &mut [u32]) -> Answer {
        plain::fold::<R, I>(lent, folded).into()
    }

    fn write_opening(
        code: &Code<'_>,
        message: &[u32],
        z: &[u32],
        r: &[u32],
        out: Outputs<'_>,
    ) -> Answer {
        let written = plain::write_opening::<R>(code, message, z, r, out.result, out.work);
        keep(written, out.value)
    }

    fn verify_opening(code: &Code<'_>, lent: &Opened<'_>) -> Answer {
        plain::verify_opening::<R>(code, lent).into()
    }
}

/// A single result is written only where nothing is refused.
fn keep(found: Result<u32, Refusal>, value: &mut u32) -> Answer {
    found.map(|found| *value = found).into()
}
