//! Tests of whole slices. None of the tests leaves early, so that the loops vectorise; a search, which a
//! call makes only once it refuses, stops at what it finds.

use super::residue::Reduce;

/// Whether each word is below p.
pub fn all_below<R: Reduce>(s: &[u32]) -> bool {
    s.iter().fold(true, |ok, &w| ok & (w < R::P))
}

/// One pass over two slices of the same length: whether each word of both is below p, and whether
/// they differ in every place. What is wrong is kept, which for vectors takes less than what is right.
pub fn pair<R: Reduce>(s: &[u32], t: &[u32]) -> (bool, bool) {
    let (mut high, mut equal) = (false, false);
    for (&a, &b) in s.iter().zip(t) {
        high |= (a >= R::P) | (b >= R::P);
        equal |= a == b;
    }
    (!high, !equal)
}

/// Whether no word is 0.
pub fn none_zero(s: &[u32]) -> bool {
    s.iter().fold(true, |ok, &w| ok & (w != 0))
}

/// The first word that is not below p.
pub fn first_high<R: Reduce>(s: &[u32]) -> Option<usize> {
    s.iter().position(|&w| w >= R::P)
}

/// The first word that is 0.
pub fn first_zero(s: &[u32]) -> Option<usize> {
    s.iter().position(|&w| w == 0)
}

/// The first place where both have the same word.
pub fn first_equal(s: &[u32], t: &[u32]) -> Option<usize> {
    s.iter().zip(t).position(|(a, b)| a == b)
}
