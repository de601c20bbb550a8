//! The verdict on an honest opening with one word moved. No challenge lies on a diagonal and no word of
//! a point is 0 or 1 in these samples, unless that is said.

use crate::honest::Honest;
use crate::small_layouts;
use tvarchula_reference::sample::{Rng, Style};
use tvarchula_reference::{over_both, Field, Layout};

over_both!(
    a_word_of_a_round
    a_final_coefficient
    a_final_coefficient_that_the_final_check_does_not_count
    a_word_of_block_0
    a_word_of_a_higher_block
    a_word_of_the_commitment
);

fn some<const P: u32>(seed: u64) -> impl Iterator<Item = Honest<P>> {
    let mut rng = Rng::new(Field::of(P), seed);
    small_layouts().map(move |layout| Honest::new(&mut rng, layout, Style::Random))
}

/// The values at 0 and 1 are in the sum; that at 2 only moves the next claim.
fn a_word_of_a_round<const P: u32>() {
    for mut honest in some::<P>(80) {
        for i in 1..=honest.layout.depth {
            let start = 3 * (honest.layout.depth - i);
            let next = match i {
                1 => (21, 0, 0),
                _ => (20, i as u32 - 1, 0),
            };
            let sum = (20, i as u32, 0);
            let verdicts = [0, 1, 2].map(|k| honest.moved(start + k));
            assert_eq!(verdicts, [sum, sum, next]);
        }
    }
}

/// The final check counts coefficient b as often as the product of those low words of z whose bit in b
/// is set, times eq of the others.
fn a_final_coefficient<const P: u32>() {
    for mut honest in some::<P>(81) {
        let Layout { depth, k0, .. } = honest.layout;
        for b in 0..k0 {
            assert_eq!(honest.moved(3 * depth + b), (21, 0, 0));
        }
    }
}

/// With z_0 = 0 the coefficients of X_0 are not counted: the base check finds them, where their row is
/// not zero for the first time.
fn a_final_coefficient_that_the_final_check_does_not_count<const P: u32>() {
    for mut honest in some::<P>(82).filter(|honest| honest.layout.k0 > 1) {
        honest.z[0] = 0;
        honest.write();
        assert_eq!(honest.verdict(), (0, 0, 0));
        let Layout { depth, rate, k0 } = honest.layout;
        for b in 0..k0 {
            let row = &honest.code[0][b * rate * k0..(b + 1) * rate * k0];
            let first = row.iter().position(|&word| word != 0);
            let due = match b % 2 {
                0 => (21, 0, 0),
                _ => (22, first.expect("a row of an inverse") as u32, 0),
            };
            assert_eq!(honest.moved(3 * depth + b), due);
        }
    }
}

/// Every place up to c * k0 - 1.
fn a_word_of_block_0<const P: u32>() {
    for mut honest in some::<P>(83).filter(|honest| honest.layout.depth > 0) {
        let Layout { rate, k0, .. } = honest.layout;
        let start = honest.opening.len() - rate * k0;
        for j in 0..rate * k0 {
            assert_eq!(honest.moved(start + j), (22, j as u32, 0));
        }
    }
}

/// By the path of the one query: it is at q mod n_i on level i, and the step to level i reads the block
/// above it there and n_i further on.
fn after_moved<const P: u32>(
    honest: &Honest<P>,
    query: u32,
    level: usize,
    place: usize,
) -> (u32, u32, u32) {
    let Layout { depth, rate, k0 } = honest.layout;
    let words = |i: usize| (rate * k0) << i;
    let at = |i: usize| query as usize % words(i);
    if level < depth && at(level) == place {
        return (23, 0, level as u32);
    }
    if level > 0 && at(level - 1) == place % words(level - 1) {
        return (23, 0, level as u32 - 1);
    }
    (0, 0, 0)
}

fn a_word_of_a_higher_block<const P: u32>() {
    let mut rng = Rng::new(Field::of(P), 85);
    for mut honest in some::<P>(84).filter(|honest| honest.layout.depth > 1) {
        let layout = honest.layout;
        let query = rng.below(layout.top_block() / 2) as u32;
        honest.queries = vec![query];
        let mut start = 3 * layout.depth + layout.k0;
        for level in (1..layout.depth).rev() {
            let words = (layout.rate * layout.k0) << level;
            for place in 0..words {
                let due = after_moved(&honest, query, level, place);
                assert_eq!(honest.moved(start + place), due);
            }
            start += words;
        }
    }
}

fn a_word_of_the_commitment<const P: u32>() {
    for mut honest in some::<P>(86) {
        let depth = honest.layout.depth;
        honest.queries.truncate(1);
        for place in 0..honest.block.len() {
            let due = match depth {
                0 => (22, place as u32, 0),
                _ => after_moved(&honest, honest.queries[0], depth, place),
            };
            let kept = honest.block[place];
            honest.block[place] = (kept + 1) % P;
            assert_eq!(honest.verdict(), due);
            honest.block[place] = kept;
        }
    }
}
