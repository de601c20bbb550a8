//! Folding a block by one level.

use super::invert::Invert;
use super::judge;
use super::residue::{minus, plus_product, times, Reduce};
use super::scan::pair;
use crate::answer::{Input, Refusal};
use crate::sizes::{Sizes, MAX_DEPTH};

/// What folding is lent, besides its result.
#[derive(Clone, Copy, Debug)]
pub struct Folding<'a> {
    /// The upper level.
    pub level: u32,
    /// The rate.
    pub rate: u32,
    /// The words of a base message.
    pub k0: u32,
    /// The first diagonal of the level below.
    pub t: &'a [u32],
    /// The second diagonal of the level below.
    pub t2: &'a [u32],
    /// A block of the upper level.
    pub block: &'a [u32],
    /// Where the lines are evaluated.
    pub challenge: u32,
}

/// Writes the fold of the block into `folded`.
pub fn fold<R: Reduce, I: Invert>(lent: &Folding<'_>, folded: &mut [u32]) -> Result<(), Refusal> {
    judge::<R>(lent, folded.len())?;
    fold_words::<R, I>(lent.t, lent.t2, lent.block, lent.challenge, folded);
    Ok(())
}

/// Of exact lengths. The inverses of the differences stand in the result until their lines are drawn.
pub fn fold_words<R: Reduce, I: Invert>(
    t: &[u32],
    t2: &[u32],
    block: &[u32],
    challenge: u32,
    folded: &mut [u32],
) {
    I::invert::<R>(1, t, t2, folded);
    draw::<R>(t, block, challenge, folded);
}

fn judge<R: Reduce>(lent: &Folding<'_>, folded: usize) -> Result<(), Refusal> {
    judge::ensure((1..=MAX_DEPTH).contains(&lent.level), Refusal::Depth)?;
    let sizes = Sizes {
        depth: lent.level as usize,
        rate: judge::rate(lent.rate)?,
    };
    judge::one_word(lent.k0)?;
    let (upper, lower) = (sizes.block(sizes.depth), sizes.block(sizes.depth - 1));
    let t = [(lent.t.len(), lower), (lent.t2.len(), lower)];
    judge::lengths(&t)?;
    judge::lengths(&[(lent.block.len(), upper), (folded, lower)])?;
    let (below, apart) = pair::<R>(lent.t, lent.t2);
    let read: [judge::Read<'_>; 4] = [
        (Input::T, lent.t),
        (Input::T2, lent.t2),
        (Input::Block, lent.block),
        (Input::R, &[lent.challenge]),
    ];
    judge::words::<R>(below && judge::below::<R>(&read[2..]), &read)?;
    judge::diagonals(apart, lent.t, lent.t2)
}

/// The value at the challenge a of the line through (t, u) and (t2, v), where s, the inverse of
/// t2 - t, gives way to it.
fn draw<R: Reduce>(t: &[u32], block: &[u32], a: u32, folded: &mut [u32]) {
    let (left, right) = block.split_at(folded.len());
    for (((s, &t), &u), &v) in folded.iter_mut().zip(t).zip(left).zip(right) {
        *s = plus_product::<R>(u, minus::<R>(a, t), times::<R>(*s, minus::<R>(v, u)));
    }
}
