//! Writing an opening.

use super::encode::encode_words;
use super::evaluate::value;
use super::fold::fold_words;
use super::invert::SixteenChains;
use super::judge;
use super::residue::{minus, plus_product, times, Reduce};
use crate::answer::{Code, Input, Refusal};
use crate::sizes::Sizes;

/// The blocks below this level are so short that encoding takes less time than a fold with its one
/// inversion.
const FOLDED_FROM: usize = 6;

/// Writes the opening of the message at `z` under the challenges `r`. The polynomial's value at `z`
/// comes back, and `work` holds zeros.
pub fn write_opening<R: Reduce>(
    code: &Code<'_>,
    message: &[u32],
    z: &[u32],
    r: &[u32],
    opening: &mut [u32],
    work: &mut [u32],
) -> Result<u32, Refusal> {
    let found = [message.len(), z.len(), r.len(), opening.len(), work.len()];
    let lengths = |sizes: Sizes| {
        let (d, n) = (sizes.depth, sizes.message());
        let due = [n, d, d, sizes.opening(), 2 * n];
        std::array::from_fn::<_, 5, _>(|k| (found[k], due[k]))
    };
    let read = [(Input::Block, message), (Input::Z, z), (Input::R, r)];
    let sizes = judge::code::<R, 5>(code, lengths, &read)?;
    let claimed = value::<R>(message, z);
    work[..message.len()].copy_from_slice(message);
    rounds::<R>(code, sizes, z, r, opening, work);
    opening[sizes.final_value()] = work[0];
    work.fill(0);
    Ok(claimed)
}

/// All rounds, from the top variable down. What is left of the message lies in the front of `work`;
/// the weight is eq of the variables whose challenges are put in.
fn rounds<R: Reduce>(
    code: &Code<'_>,
    sizes: Sizes,
    z: &[u32],
    r: &[u32],
    opening: &mut [u32],
    work: &mut [u32],
) {
    let mut weight = 1;
    for i in (0..sizes.depth).rev() {
        let (left, right) = work[..2 << i].split_at_mut(1 << i);
        let ends = [value::<R>(left, &z[..i]), value::<R>(right, &z[..i])];
        let round = &mut opening[sizes.round(i + 1)];
        for (x, out) in (0..).zip(round) {
            *out = value_at::<R>(weight, z[i], ends, x);
        }
        fold_message::<R>(r[i], left, right);
        weight = weigh::<R>(weight, z[i], r[i]);
        if i < FOLDED_FROM || i + 1 == sizes.depth {
            encode_words::<R>(code, left, &mut opening[sizes.opening_block(i)]);
        } else {
            fold_block::<R>(code, sizes, i, r[i], opening);
        }
    }
}

/// The block of level i as the fold of the block above it, which stands before it.
fn fold_block<R: Reduce>(code: &Code<'_>, sizes: Sizes, i: usize, a: u32, opening: &mut [u32]) {
    let (place, level) = (sizes.opening_block(i), sizes.diagonal(i));
    let (above, block) = opening[..place.end].split_at_mut(place.start);
    let above = &above[sizes.opening_block(i + 1)];
    let (t, t2) = (&code.t[level.clone()], &code.t2[level]);
    fold_words::<R, SixteenChains>(t, t2, above, a, block);
}

/// h at x: the weight, times eq of z and x, times the line with these values of the two halves.
fn value_at<R: Reduce>(weight: u32, z: u32, [left, right]: [u32; 2], x: u32) -> u32 {
    times::<R>(weigh::<R>(weight, z, x), plus_product::<R>(left, x, right))
}

/// The weight times eq of z and x.
fn weigh<R: Reduce>(weight: u32, z: u32, x: u32) -> u32 {
    times::<R>(weight, eq_factor::<R>(z, x))
}

/// z x + (1 - z)(1 - x)
pub fn eq_factor<R: Reduce>(z: u32, x: u32) -> u32 {
    plus_product::<R>(times::<R>(z, x), minus::<R>(1, z), minus::<R>(1, x))
}

/// The left half becomes left + a right.
fn fold_message<R: Reduce>(a: u32, left: &mut [u32], right: &[u32]) {
    for (l, &r) in left.iter_mut().zip(right) {
        *l = plus_product::<R>(*l, a, r);
    }
}
