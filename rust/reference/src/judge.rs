//! The refusals, one function per number. A job calls them in ascending order, so that the
//! smallest number that applies is the one given; 13 alone stands elsewhere, right after 2.

use crate::answer::{Input, Refusal};
use crate::code::Code;
use crate::layout::Layout;
use crate::linear::inverse;
use crate::residue::Residue;
use crate::sizes::{K0S, MAX_DEPTH, MAX_QUERIES, MAX_TABLE, RATES};
use std::collections::HashSet;

fn demand(holds: bool, refusal: Refusal) -> Result<(), Refusal> {
    if holds {
        Ok(())
    } else {
        Err(refusal)
    }
}

/// What 1 takes for k0: an illegal one counts as 1, since 13 comes later.
fn base_words(k0: u32) -> usize {
    if K0S.contains(&k0) {
        k0 as usize
    } else {
        1
    }
}

/// 1: a message of k0 * 2^d words has at most 1048576.
pub fn depth(depth: u32, k0: u32) -> Result<usize, Refusal> {
    // Without the first comparison the second one could overflow.
    let legal = depth <= MAX_DEPTH && base_words(k0) << depth <= MAX_TABLE;
    demand(legal, Refusal::Size)?;
    Ok(depth as usize)
}

/// 1, for folding: the upper level is a depth, and not 0.
pub fn upper_level(level: u32, k0: u32) -> Result<usize, Refusal> {
    demand(level >= 1, Refusal::Size)?;
    depth(level, k0)
}

/// 1, for tables: the length is k0 * 2^d for some d, and at most 1048576. Gives the variables, the low
/// ones and d.
pub fn table_length(length: usize, k0: u32) -> Result<usize, Refusal> {
    let legal = length.is_power_of_two() && (base_words(k0)..=MAX_TABLE).contains(&length);
    demand(legal, Refusal::Size)?;
    Ok(length.trailing_zeros() as usize)
}

/// 2: the rate is 2 to 16.
pub fn rate(rate: u32) -> Result<usize, Refusal> {
    demand(RATES.contains(&rate), Refusal::Rate)?;
    Ok(rate as usize)
}

/// 13: a base message has 1, 2 or 4 words.
pub fn k0(k0: u32) -> Result<usize, Refusal> {
    demand(K0S.contains(&k0), Refusal::BaseWords)?;
    Ok(k0 as usize)
}

/// 13, for a job that takes base messages of one word only.
pub fn one_word(k0: u32) -> Result<(), Refusal> {
    demand(k0 == 1, Refusal::BaseWords)
}

/// 3: every length found is the length due; pairs of found and due.
pub fn lengths(pairs: &[(usize, usize)]) -> Result<(), Refusal> {
    demand(
        pairs.iter().all(|(found, due)| found == due),
        Refusal::Length,
    )
}

/// 4: every word of an input is below p. Gives the residues. A job calls this for one input after the
/// other, in the order of [`Input`].
pub fn words<const P: u32>(input: Input, words: &[u32]) -> Result<Vec<Residue<P>>, Refusal> {
    let mut residues = Vec::with_capacity(words.len());
    for (index, &word) in words.iter().enumerate() {
        let residue = Residue::new(word).ok_or(Refusal::Word { input, index })?;
        residues.push(residue);
    }
    Ok(residues)
}

/// 4, for a single value.
pub fn word<const P: u32>(input: Input, word: u32) -> Result<Residue<P>, Refusal> {
    Residue::new(word).ok_or(Refusal::Word { input, index: 0 })
}

/// 5: no zero in a base row that is alone; of several rows the first k0 columns have an inverse.
pub fn rows<const P: u32>(code: &Code<P>) -> Result<(), Refusal> {
    if code.sizes.k0 > 1 {
        return demand(inverse(&code.leading()).is_some(), Refusal::NoInverse);
    }
    for (index, &word) in code.g.iter().enumerate() {
        demand(word != Residue::ZERO, Refusal::ZeroInRow(index))?;
    }
    Ok(())
}

/// 6: T and T' differ in every place.
pub fn diagonals<const P: u32>(t: &[Residue<P>], t2: &[Residue<P>]) -> Result<(), Refusal> {
    for (index, (a, b)) in t.iter().zip(t2).enumerate() {
        demand(a != b, Refusal::EqualPair(index))?;
    }
    Ok(())
}

/// 7: at depth 0 no query; else 1 to 256 places below n_(d-1).
pub fn queries(queries: &[u32], layout: &Layout) -> Result<Vec<usize>, Refusal> {
    if layout.depth == 0 {
        demand(queries.is_empty(), Refusal::Queries)?;
        return Ok(Vec::new());
    }
    let count = (1..=MAX_QUERIES).contains(&queries.len());
    let below = layout.block(layout.depth - 1);
    let places = queries.iter().all(|&place| (place as usize) < below);
    demand(count && places, Refusal::Queries)?;
    Ok(queries.iter().map(|&place| place as usize).collect())
}

/// 11: a list with a repeated place is refused; there are as many different places as queries.
pub fn different(queries: &[usize]) -> Result<(), Refusal> {
    let places: HashSet<&usize> = queries.iter().collect();
    demand(places.len() == queries.len(), Refusal::Repeated)
}

/// 12: a rate to fill is a power of two.
pub fn power_of_two(rate: usize) -> Result<(), Refusal> {
    demand(rate.is_power_of_two(), Refusal::NoPowerOfTwo)
}

/// Writes residues into a result buffer of their exact length.
pub fn write<const P: u32>(result: &mut [u32], residues: &[Residue<P>]) {
    assert_eq!(result.len(), residues.len());
    for (word, residue) in result.iter_mut().zip(residues) {
        *word = residue.word();
    }
}
