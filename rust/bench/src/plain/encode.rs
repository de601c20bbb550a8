//! The codeword of a message.

use super::judge;
use super::residue::{plus_product, times, Reduce};
use crate::answer::{Code, Input, Refusal};

/// Writes the codeword of `message` into `block`.
pub fn encode<R: Reduce>(
    code: &Code<'_>,
    message: &[u32],
    block: &mut [u32],
) -> Result<(), Refusal> {
    let found = (message.len(), block.len());
    judge::code::<R, 2>(
        code,
        |sizes| {
            [
                (found.0, sizes.message()),
                (found.1, sizes.block(sizes.depth)),
            ]
        },
        &[(Input::Block, message)],
    )?;
    encode_words::<R>(code, message, block);
    Ok(())
}

/// The codeword of a message of any depth up to that of the code, of exact lengths.
pub fn encode_words<R: Reduce>(code: &Code<'_>, message: &[u32], out: &mut [u32]) {
    for (&a, out) in message.iter().zip(out.chunks_exact_mut(code.g.len())) {
        scale::<R>(a, code.g, out);
    }
    lift::<R>(code, out);
}

/// a times the base row.
pub fn scale<R: Reduce>(a: u32, g: &[u32], out: &mut [u32]) {
    for (out, &g) in out.iter_mut().zip(g) {
        *out = times::<R>(a, g);
    }
}

/// The levels above the base blocks, in place and by halves, so that parts stay in the cache.
pub fn lift<R: Reduce>(code: &Code<'_>, out: &mut [u32]) {
    let c = code.g.len();
    if out.len() == c {
        return;
    }
    let half = out.len() / 2;
    let (left, right) = out.split_at_mut(half);
    lift::<R>(code, left);
    lift::<R>(code, right);
    let level = half - c..2 * half - c;
    cross::<R>(&code.t[level.clone()], &code.t2[level], left, right);
}

/// The halves l and r become l + t r and l + t2 r.
fn cross<R: Reduce>(t: &[u32], t2: &[u32], left: &mut [u32], right: &mut [u32]) {
    for (((l, r), &t), &t2) in left.iter_mut().zip(right).zip(t).zip(t2) {
        let (a, b) = (*l, *r);
        *l = plus_product::<R>(a, t, b);
        *r = plus_product::<R>(a, t2, b);
    }
}
