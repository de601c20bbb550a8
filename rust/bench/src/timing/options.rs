//! What a program is told.

use crate::sizes::MAX_DEPTH;
use std::ops::RangeInclusive;

/// A number in range.
pub fn number(text: &str, legal: RangeInclusive<usize>) -> Option<usize> {
    text.parse().ok().filter(|number| legal.contains(number))
}

/// Legal depths that can be folded, with commas between.
pub fn depths(text: &str) -> Option<Vec<usize>> {
    let depth = |text| number(text, 1..=MAX_DEPTH as usize);
    text.split(',').map(depth).collect()
}
