//! What the jobs judge, in the order of the refusals.

use super::residue::Reduce;
use super::scan::{all_below, first_equal, first_high, first_zero, none_zero, pair};
use crate::answer::{Code, Input, Refusal};
use crate::sizes::{Sizes, MAX_DEPTH};

/// `Ok` where the condition holds.
pub fn ensure(holds: bool, refusal: Refusal) -> Result<(), Refusal> {
    if holds {
        Ok(())
    } else {
        Err(refusal)
    }
}

/// Refusal 1 of a depth.
pub fn depth(depth: u32) -> Result<usize, Refusal> {
    ensure(depth <= MAX_DEPTH, Refusal::Depth)?;
    Ok(depth as usize)
}

/// Refusal 2.
pub fn rate(rate: u32) -> Result<usize, Refusal> {
    ensure((2..=16).contains(&rate), Refusal::Rate)?;
    Ok(rate as usize)
}

/// Refusal 13: there is no base message of more words here.
pub fn one_word(k0: u32) -> Result<(), Refusal> {
    ensure(k0 == 1, Refusal::BaseWords)
}

/// Refusal 1 of a length that tells the depth.
pub fn power(length: usize) -> Result<(), Refusal> {
    let legal = length <= 1 << MAX_DEPTH && length.is_power_of_two();
    ensure(legal, Refusal::Depth)
}

/// Refusal 3: each length found is the one due.
pub fn lengths(found_due: &[(usize, usize)]) -> Result<(), Refusal> {
    let exact = found_due.iter().all(|(found, due)| found == due);
    ensure(exact, Refusal::Length)
}

/// A slice of words that is read, and the input that it is.
pub type Read<'a> = (Input, &'a [u32]);

/// Whether refusal 4 is not due.
pub fn below<R: Reduce>(read: &[Read<'_>]) -> bool {
    read.iter().all(|(_, words)| all_below::<R>(words))
}

/// Refusal 4, by the flag of a scan of all words: only where one is too large the first is looked for.
pub fn words<R: Reduce>(below: bool, read: &[Read<'_>]) -> Result<(), Refusal> {
    if below {
        return Ok(());
    }
    let first = |&(input, words): &Read<'_>| Some(Refusal::Word(input, first_high::<R>(words)?));
    refused(read.iter().find_map(first))
}

/// Refusal 5, by the flag of a scan.
fn row(g: &[u32]) -> Result<(), Refusal> {
    if none_zero(g) {
        return Ok(());
    }
    refused(first_zero(g).map(Refusal::BaseRow))
}

/// Refusal 6, by the flag of the same scan.
pub fn diagonals(apart: bool, t: &[u32], t2: &[u32]) -> Result<(), Refusal> {
    if apart {
        return Ok(());
    }
    refused(first_equal(t, t2).map(Refusal::Diagonals))
}

fn refused(found: Option<Refusal>) -> Result<(), Refusal> {
    found.map_or(Ok(()), Err)
}

/// Refusals 1 to 6 and 13 of a call that lends a code: `others` gives the lengths of all other slices,
/// found and due, and `read` holds all other words that are read, in the order of inputs.
pub fn code<R: Reduce, const N: usize>(
    code: &Code<'_>,
    others: impl FnOnce(Sizes) -> [(usize, usize); N],
    read: &[Read<'_>],
) -> Result<Sizes, Refusal> {
    let sizes = Sizes {
        depth: depth(code.depth)?,
        rate: rate(code.rate)?,
    };
    one_word(code.k0)?;
    let due = sizes.diagonals();
    lengths(&[
        (code.g.len(), sizes.rate),
        (code.t.len(), due),
        (code.t2.len(), due),
    ])?;
    lengths(&others(sizes))?;
    let Code { g, t, t2, .. } = *code;
    let in_row = all_below::<R>(g);
    let (in_pairs, apart) = pair::<R>(t, t2);
    let all = in_row & in_pairs && below::<R>(read);
    words::<R>(all, &[(Input::G, g), (Input::T, t), (Input::T2, t2)])?;
    words::<R>(all, read)?;
    row(g)?;
    diagonals(apart, t, t2)?;
    Ok(sizes)
}
