//! What is refused. Everything is tested before anything is written.

use super::field::Field;

/// Why a call is refused.
#[derive(Clone, Copy, PartialEq, Eq, Debug)]
pub enum Refusal {
    /// The depth, or the upper level of a fold.
    Depth,
    /// The rate.
    Rate,
    /// A base message of more than one word.
    BaseWords,
    /// A slice that has not its exact length.
    Length,
    /// A word that is not below p.
    Word,
    /// A zero in the base row.
    BaseRow,
    /// Diagonals that are equal in some place.
    Diagonals,
}

impl Refusal {
    /// The number in `include/tvarchula.h`.
    pub fn number(self) -> u32 {
        match self {
            Refusal::Depth => 1,
            Refusal::Rate => 2,
            Refusal::BaseWords => 13,
            Refusal::Length => 3,
            Refusal::Word => 4,
            Refusal::BaseRow => 5,
            Refusal::Diagonals => 6,
        }
    }
}

/// The largest depth.
pub const MAX_DEPTH: u32 = 20;
/// The largest rate.
pub const MAX_RATE: usize = 16;

/// `Ok` where it holds.
pub fn ensure(holds: bool, refusal: Refusal) -> Result<(), Refusal> {
    if holds {
        Ok(())
    } else {
        Err(refusal)
    }
}

/// Depth, rate and the words of a base message.
pub fn sizes(least: u32, depth: u32, rate: u32, k0: u32) -> Result<(), Refusal> {
    ensure((least..=MAX_DEPTH).contains(&depth), Refusal::Depth)?;
    ensure((2..=MAX_RATE as u32).contains(&rate), Refusal::Rate)?;
    ensure(k0 == 1, Refusal::BaseWords)
}

/// The top bit tells whether some word is not below p. A word that has it is too large, and one that has it not
/// gains it from what p lacks to 2^31. Comparisons of unsigned words would take longer.
#[inline]
fn high<F: Field>(w: u32) -> u32 {
    w | w.wrapping_add((1 << 31) - F::P)
}

/// Whether each word is below p.
pub fn below<F: Field>(words: &[u32]) -> bool {
    let seen = words.iter().fold(0, |seen, &w| seen | high::<F>(w));
    seen >> 31 == 0
}

/// Of two diagonals: whether each word is below p, and whether they differ in every place.
pub fn diagonals<F: Field>(t: &[u32], t2: &[u32]) -> (bool, bool) {
    let (mut seen, mut equal) = (0, false);
    for (&a, &b) in t.iter().zip(t2) {
        seen |= high::<F>(a) | high::<F>(b);
        equal |= a == b;
    }
    (seen >> 31 == 0, !equal)
}
