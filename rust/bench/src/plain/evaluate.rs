//! The value of the polynomial whose coefficients a message holds.

use super::judge;
use super::residue::{plus_product, times, Reduce};
use crate::answer::{Input, Refusal};

/// The value at `z`, with word i of `z` for variable i.
pub fn evaluate<R: Reduce>(
    depth: u32,
    k0: u32,
    message: &[u32],
    z: &[u32],
) -> Result<u32, Refusal> {
    let depth = judge::depth(depth)?;
    judge::one_word(k0)?;
    judge::lengths(&[(message.len(), 1 << depth), (z.len(), depth)])?;
    let read = [(Input::Block, message), (Input::Z, z)];
    judge::words::<R>(judge::below::<R>(&read), &read)?;
    Ok(value::<R>(message, z))
}

/// How many variables are low, where there are as many.
const LOW: usize = 6;

/// The message has 2^d words for the d words of `z`. The monomials of the low variables are made
/// once, for all parts of the message.
pub fn value<R: Reduce>(message: &[u32], z: &[u32]) -> u32 {
    let (low, high) = z.split_at(z.len().min(LOW));
    let mut monomials = [0; 1 << LOW];
    monomials[0] = 1;
    for (i, &x) in low.iter().enumerate() {
        let (without, with) = monomials.split_at_mut(1 << i);
        for (with, &without) in with.iter_mut().zip(&*without) {
            *with = times::<R>(without, x);
        }
    }
    by_top::<R>(&monomials, message, high)
}

/// By the top variable: the value of the left half plus that variable times the value of the right
/// half. When no high variable is left, the sum of coefficients times monomials.
fn by_top<R: Reduce>(monomials: &[u32; 1 << LOW], message: &[u32], high: &[u32]) -> u32 {
    let Some((&top, high)) = high.split_last() else {
        return sum_of_products::<R>(message, monomials);
    };
    let (left, right) = message.split_at(message.len() / 2);
    let left = by_top::<R>(monomials, left, high);
    let right = by_top::<R>(monomials, right, high);
    plus_product::<R>(left, top, right)
}

/// The products' parts above and below 31 bits are summed apart, so that nothing is reduced before
/// the end. The high part counts 2^31 times, which in the first field is once.
fn sum_of_products<R: Reduce>(a: &[u32], b: &[u32]) -> u32 {
    let (mut low, mut high) = (0, 0);
    for (&a, &b) in a.iter().zip(b) {
        let product = u64::from(a) * u64::from(b);
        low += product & 0x7fff_ffff;
        high += product >> 31;
    }
    plus_product::<R>(R::reduce(low), R::reduce(1 << 31), R::reduce(high))
}
