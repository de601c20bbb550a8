//! The message of a codeword.

use super::encode::{encode_words, scale};
use super::invert::Invert;
use super::judge;
use super::residue::{inverse, minus, plus_product, times, Reduce};
use crate::answer::{Code, Input, Refusal};
use crate::sizes::Sizes;

/// Writes the message whose codeword `block` is. `work` holds zeros after success and refusal 8.
pub fn decode<R: Reduce, I: Invert>(
    code: &Code<'_>,
    block: &[u32],
    message: &mut [u32],
    work: &mut [u32],
) -> Result<(), Refusal> {
    let found = (block.len(), message.len(), work.len());
    let lengths = |sizes: Sizes| {
        let due = sizes.block(sizes.depth);
        [(found.0, due), (found.1, sizes.message()), (found.2, due)]
    };
    judge::code::<R, 3>(code, lengths, &[(Input::Block, block)])?;
    let settled = settle::<R, I>(code, block, message, work);
    work.fill(0);
    settled
}

/// The result may not be touched before the block is known to be a codeword. So the message stays in
/// the front of the work buffer, and its codeword is compared with the block in parts behind it.
fn settle<R: Reduce, I: Invert>(
    code: &Code<'_>,
    block: &[u32],
    message: &mut [u32],
    work: &mut [u32],
) -> Result<(), Refusal> {
    let (found, space) = work.split_at_mut(message.len());
    find::<R, I>(code, block, found, space);
    let same = if code.g.len() < 4 {
        same_columns::<R>(code, block, found, space)
    } else {
        same_halves::<R>(code, block, found, space)
    };
    judge::ensure(same, Refusal::NoCodeword)?;
    message.copy_from_slice(found);
    Ok(())
}

/// The only message that the block allows. It is found from the first column alone: the first word
/// of each base block.
fn find<R: Reduce, I: Invert>(
    code: &Code<'_>,
    block: &[u32],
    column: &mut [u32],
    space: &mut [u32],
) {
    let c = code.g.len();
    let inverses = &mut space[..column.len() - 1];
    for (out, base) in column.iter_mut().zip(block.chunks_exact(c)) {
        *out = base[0];
    }
    I::invert::<R>(c, code.t, code.t2, inverses);
    undo::<R>(code, inverse::<R>(code.g[0]), inverses, column);
}

/// The levels of the column undone, in place. `x` is the inverse of the base row's first word.
fn undo<R: Reduce>(code: &Code<'_>, x: u32, inverses: &[u32], column: &mut [u32]) {
    if let [word] = column {
        *word = times::<R>(x, *word);
        return;
    }
    let half = column.len() / 2;
    let (left, right) = column.split_at_mut(half);
    let c = code.g.len();
    let t = code.t[c * (half - 1)..].iter().step_by(c);
    uncross::<R>(t, &inverses[half - 1..], left, right);
    undo::<R>(code, x, inverses, left);
    undo::<R>(code, x, inverses, right);
}

/// At each place the line through the words u and v of the two halves: its value at 0 instead of u,
/// its slope instead of v.
fn uncross<'a, R: Reduce>(
    t: impl Iterator<Item = &'a u32>,
    inverses: &[u32],
    left: &mut [u32],
    right: &mut [u32],
) {
    for (((u, v), &s), &t) in left.iter_mut().zip(right).zip(inverses).zip(t) {
        let slope = times::<R>(s, minus::<R>(*v, *u));
        *u = minus::<R>(*u, times::<R>(t, slope));
        *v = slope;
    }
}

/// Column by column: column j of a codeword is that of the message under word j of the row and the
/// columns j of the diagonals. Column 0 is right, as the message was found from it.
fn same_columns<R: Reduce>(
    code: &Code<'_>,
    block: &[u32],
    message: &[u32],
    space: &mut [u32],
) -> bool {
    let c = code.g.len();
    let column = &mut space[..message.len()];
    (1..c).all(|j| {
        scale::<R>(code.g[j], message, column);
        lift_column::<R>(code, j, column);
        let same = |ok, (a, b)| ok & (a == b);
        column
            .iter()
            .zip(block[j..].iter().step_by(c))
            .fold(true, same)
    })
}

/// The levels of the code over column j.
fn lift_column<R: Reduce>(code: &Code<'_>, j: usize, column: &mut [u32]) {
    if column.len() == 1 {
        return;
    }
    let (left, right) = column.split_at_mut(column.len() / 2);
    lift_column::<R>(code, j, left);
    lift_column::<R>(code, j, right);
    let c = code.g.len();
    let from = c * (left.len() - 1) + j;
    let t = code.t[from..].iter().step_by(c);
    let t2 = code.t2[from..].iter().step_by(c);
    for (((l, r), &t), &t2) in left.iter_mut().zip(right).zip(t).zip(t2) {
        let (a, b) = (*l, *r);
        *l = plus_product::<R>(a, t, b);
        *r = plus_product::<R>(a, t2, b);
    }
}

/// By halves: with R the codeword of the message's right half, a block of halves u and v is the
/// codeword of the message where u - t R is that of the left half, and v is (u - t R) + t2 R.
fn same_halves<R: Reduce>(
    code: &Code<'_>,
    block: &[u32],
    message: &[u32],
    space: &mut [u32],
) -> bool {
    let c = code.g.len();
    if message.len() == 1 {
        return same_base::<R>(message[0], code.g, block);
    }
    let mut n = block.len() / 2;
    let (u, v) = block.split_at(n);
    encode_words::<R>(code, &message[n / c..], &mut space[..n]);
    if !peel_lent::<R>(code, u, v, &mut space[..n]) {
        return false;
    }
    while n > c {
        n /= 2;
        let (upper, right) = space.split_at_mut(2 * n);
        let (u, v) = upper.split_at_mut(n);
        let right = &mut right[..n];
        encode_words::<R>(code, &message[n / c..2 * n / c], right);
        if !peel::<R>(code, u, v, right) {
            return false;
        }
    }
    same_base::<R>(message[0], code.g, space)
}

/// Where the halves are lent: `right` becomes u - t R. Whether that gives v.
fn peel_lent<R: Reduce>(code: &Code<'_>, u: &[u32], v: &[u32], right: &mut [u32]) -> bool {
    let (t, t2) = level(code, right.len());
    let mut same = true;
    for ((((r, &u), &v), &t), &t2) in right.iter_mut().zip(u).zip(v).zip(t).zip(t2) {
        let left = minus::<R>(u, times::<R>(t, *r));
        same &= plus_product::<R>(left, t2, *r) == v;
        *r = left;
    }
    same
}

/// The left half becomes u - t R. Whether that gives v.
fn peel<R: Reduce>(code: &Code<'_>, u: &mut [u32], v: &[u32], right: &[u32]) -> bool {
    let (t, t2) = level(code, right.len());
    let mut same = true;
    for ((((u, &v), &r), &t), &t2) in u.iter_mut().zip(v).zip(right).zip(t).zip(t2) {
        *u = minus::<R>(*u, times::<R>(t, r));
        same &= plus_product::<R>(*u, t2, r) == v;
    }
    same
}

/// Both diagonals of the level whose blocks have n words.
fn level<'a>(code: &Code<'a>, n: usize) -> (&'a [u32], &'a [u32]) {
    let c = code.g.len();
    (&code.t[n - c..2 * n - c], &code.t2[n - c..2 * n - c])
}

/// Whether the block begins with the word times the base row.
fn same_base<R: Reduce>(word: u32, g: &[u32], block: &[u32]) -> bool {
    let same = |(&g, &b): (&u32, &u32)| times::<R>(word, g) == b;
    g.iter().zip(block).all(same)
}
