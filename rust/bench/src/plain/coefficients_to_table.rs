//! From the coefficients of a polynomial to its table of clearances.

use super::judge;
use super::residue::{plus, Reduce};
use super::transform::transform;
use crate::answer::{Input, Refusal};

/// Writes the table into `clearances` and leaves zeros in `work`.
pub fn coefficients_to_table<R: Reduce>(
    k0: u32,
    message: &[u32],
    clearances: &mut [i32],
    work: &mut [u32],
) -> Result<(), Refusal> {
    let due = message.len();
    judge::power(due)?;
    judge::one_word(k0)?;
    judge::lengths(&[(clearances.len(), due), (work.len(), due)])?;
    let read = [(Input::Block, message)];
    judge::words::<R>(judge::below::<R>(&read), &read)?;
    work.copy_from_slice(message);
    transform(plus::<R>, work);
    for (x, word) in clearances.iter_mut().zip(work) {
        *x = to_clearance::<R>(*word);
        *word = 0;
    }
    Ok(())
}

fn to_clearance<R: Reduce>(word: u32) -> i32 {
    if word < R::HALF {
        word as i32
    } else {
        -((R::P - word) as i32)
    }
}
