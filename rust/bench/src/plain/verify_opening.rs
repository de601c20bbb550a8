//! Verifying an opening: the checks in their order, and the first that fails.

use super::judge;
use super::residue::{minus, plus, plus_product, times, Reduce};
use super::write_opening::eq_factor;
use crate::answer::{Answer, Code, Failure, Input, Refusal};
use crate::sizes::{Sizes, MAX_QUERIES};

/// What verifying is lent, besides the code.
#[derive(Clone, Copy, Debug)]
pub struct Opened<'a> {
    /// The commitment.
    pub block: &'a [u32],
    /// The point.
    pub z: &'a [u32],
    /// The value claimed there.
    pub y: u32,
    /// The challenges.
    pub r: &'a [u32],
    /// The places that are looked at.
    pub queries: &'a [u32],
    /// The opening.
    pub opening: &'a [u32],
}

/// `Ok` where the opening is accepted.
pub fn verify_opening<R: Reduce>(code: &Code<'_>, lent: &Opened<'_>) -> Result<(), Answer> {
    let sizes = judge::<R>(code, lent)?;
    let claim = sums::<R>(sizes, lent)?;
    let v = lent.opening[sizes.final_value()];
    let eq = lent.z.iter().zip(lent.r);
    let eq = eq.fold(1, |eq, (&z, &r)| times::<R>(eq, eq_factor::<R>(z, r)));
    if times::<R>(v, eq) != claim {
        return Err(Failure::Final.into());
    }
    bases::<R>(v, code.g, level_block(sizes, lent, 0))?;
    for (position, &query) in lent.queries.iter().enumerate() {
        walk::<R>(code, sizes, lent, query as usize)
            .map_err(|level| Failure::Fold(position, level))?;
    }
    Ok(())
}

fn judge<R: Reduce>(code: &Code<'_>, lent: &Opened<'_>) -> Result<Sizes, Refusal> {
    let Opened {
        block,
        z,
        r,
        opening,
        ..
    } = *lent;
    let lengths = |sizes: Sizes| {
        let (d, n) = (sizes.depth, sizes.block(sizes.depth));
        [
            (block.len(), n),
            (z.len(), d),
            (r.len(), d),
            (opening.len(), sizes.opening()),
        ]
    };
    let read: [judge::Read<'_>; 5] = [
        (Input::Block, block),
        (Input::Z, z),
        (Input::Y, &[lent.y]),
        (Input::R, r),
        (Input::Opening, opening),
    ];
    let sizes = judge::code::<R, 4>(code, lengths, &read)?;
    judge::ensure(queries_ok(sizes, lent.queries), Refusal::Queries)?;
    judge::ensure(different(lent.queries), Refusal::Repeated)?;
    Ok(sizes)
}

fn queries_ok(sizes: Sizes, queries: &[u32]) -> bool {
    if sizes.depth == 0 {
        return queries.is_empty();
    }
    let places = sizes.block(sizes.depth - 1);
    let within = |ok, &query: &u32| ok & ((query as usize) < places);
    (1..=MAX_QUERIES).contains(&queries.len()) && queries.iter().fold(true, within)
}

/// Whether no place stands twice. Each leaves a mark for its remainder; one that meets a mark is compared
/// with all before it, in a pass that does not leave early.
fn different(queries: &[u32]) -> bool {
    let mut marks = [false; 1024];
    for (i, place) in queries.iter().enumerate() {
        let mark = &mut marks[*place as usize % 1024];
        if *mark && queries[..i].iter().fold(false, |met, w| met | (w == place)) {
            return false;
        }
        *mark = true;
    }
    true
}

/// The sums, from the top one down: the claim that is left.
fn sums<R: Reduce>(sizes: Sizes, lent: &Opened<'_>) -> Result<u32, Failure> {
    let mut claim = lent.y;
    for i in (1..=sizes.depth).rev() {
        let h = &lent.opening[sizes.round(i)];
        if plus::<R>(h[0], h[1]) != claim {
            return Err(Failure::Sum(i));
        }
        claim = through::<R>([h[0], h[1], h[2]], lent.r[i - 1]);
    }
    Ok(claim)
}

/// At x, of degree at most 2 and with the values a, b, c at 0, 1, 2, by differences.
fn through<R: Reduce>([a, b, c]: [u32; 3], x: u32) -> u32 {
    let first = minus::<R>(b, a);
    let second = minus::<R>(minus::<R>(c, b), first);
    let halved = times::<R>(minus::<R>(x, 1), R::HALF);
    plus_product::<R>(a, x, plus_product::<R>(first, halved, second))
}

/// Block 0 holds v times the base row.
fn bases<R: Reduce>(v: u32, g: &[u32], bottom: &[u32]) -> Result<(), Failure> {
    let differs = |(&g, &word): (&u32, &u32)| times::<R>(v, g) != word;
    match g.iter().zip(bottom).position(differs) {
        Some(j) => Err(Failure::Base(j)),
        None => Ok(()),
    }
}

/// The block of a level: the commitment at the top, a part of the opening below.
fn level_block<'a>(sizes: Sizes, lent: &Opened<'a>, level: usize) -> &'a [u32] {
    if level == sizes.depth {
        lent.block
    } else {
        &lent.opening[sizes.opening_block(level)]
    }
}

/// One query through all levels; the level at which its fold fails.
fn walk<R: Reduce>(
    code: &Code<'_>,
    sizes: Sizes,
    lent: &Opened<'_>,
    query: usize,
) -> Result<(), usize> {
    let mut u = query;
    let mut upper = lent.block;
    for level in (0..sizes.depth).rev() {
        let lower = &lent.opening[sizes.opening_block(level)];
        let at = sizes.diagonal(level).start + u;
        let (t, t2, w) = (code.t[at], code.t2[at], upper[u]);
        // The line through both words of the upper block, with no division.
        let rise = times::<R>(minus::<R>(t2, t), minus::<R>(lower[u], w));
        let run = times::<R>(
            minus::<R>(lent.r[level], t),
            minus::<R>(upper[lower.len() + u], w),
        );
        if rise != run {
            return Err(level);
        }
        // A place in the right half of the block goes on in the left half.
        if u >= lower.len() / 2 {
            u -= lower.len() / 2;
        }
        upper = lower;
    }
    Ok(())
}
