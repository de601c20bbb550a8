//! The transform between a table and its coefficients, in place: one pass for each variable.

/// All variables, from the lowest. `step` gives the new word of a right half from the words of the
/// left and the right half.
#[inline]
pub fn transform(step: impl Fn(u32, u32) -> u32 + Copy, s: &mut [u32]) {
    let mut half = 1;
    while half < s.len() {
        // With the shortest halves as constants their blocks are unrolled.
        match half {
            1 => pass(step, 1, s),
            2 => pass(step, 2, s),
            4 => pass(step, 4, s),
            _ => pass(step, half, s),
        }
        half *= 2;
    }
}

/// One variable: in every block the right half changes by the left half.
#[inline(always)]
fn pass(step: impl Fn(u32, u32) -> u32 + Copy, half: usize, s: &mut [u32]) {
    for block in s.chunks_exact_mut(2 * half) {
        let (left, right) = block.split_at_mut(half);
        for (x, y) in left.iter().zip(right) {
            *y = step(*x, *y);
        }
    }
}
