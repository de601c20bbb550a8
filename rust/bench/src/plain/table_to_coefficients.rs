//! From a table of clearances to the coefficients of its polynomial.

use super::judge;
use super::residue::{minus, Reduce};
use super::transform::transform;
use crate::answer::Refusal;

/// Writes the coefficients into `message`.
pub fn table_to_coefficients<R: Reduce>(
    k0: u32,
    clearances: &[i32],
    message: &mut [u32],
) -> Result<(), Refusal> {
    judge::power(clearances.len())?;
    judge::one_word(k0)?;
    judge::lengths(&[(message.len(), clearances.len())])?;
    judge::ensure(all_in_range::<R>(clearances), Refusal::Clearance)?;
    for (word, &x) in message.iter_mut().zip(clearances) {
        *word = to_word::<R>(x);
    }
    transform(|x, y| minus::<R>(y, x), message);
    Ok(())
}

fn all_in_range<R: Reduce>(s: &[i32]) -> bool {
    let range = -R::MAX_CLEARANCE..=R::MAX_CLEARANCE;
    s.iter().fold(true, |ok, x| ok & range.contains(x))
}

fn to_word<R: Reduce>(x: i32) -> u32 {
    if x < 0 {
        R::P - x.unsigned_abs()
    } else {
        x as u32
    }
}
