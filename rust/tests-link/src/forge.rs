//! Dishonest but well-formed claims that pass the earlier checks, so that the later ones decide.

use crate::call::{Call, Input};
use crate::good::{self, Shape};
use crate::job::Job;
use tvarchula_reference::encode::codeword;
use tvarchula_reference::fold::fold_block;
use tvarchula_reference::linear::{inverse, row_times};
use tvarchula_reference::polynomial::value_by_monomials;
use tvarchula_reference::sample::Rng;
use tvarchula_reference::sumcheck::{eq, quadratic_at, sent_places};
use tvarchula_reference::verify::judge_claim;
use tvarchula_reference::{over, Residue};

/// A claim with any claimed value whose block of `level` is not the fold of the block above it: a
/// codeword of another message (`whole`), or the fold with one word moved, which shows in the base
/// check. All blocks below are its folds, v is what block 0 holds at its first k0 places, and the rounds
/// are made to fit: the sum checks hold, and the final one unless r_0 is 0 or 1, which leaves
/// nothing to fit with.
pub fn claim(shape: Shape, level: usize, whole: bool, rng: &mut Rng) -> Call {
    over!(rng.field(), P => claim_over::<P>(shape, level, whole, rng))
}

fn claim_over<const P: u32>(shape: Shape, level: usize, whole: bool, rng: &mut Rng) -> Call {
    let mut call = good::call(Job::VerifyOpening, shape, rng);
    let words = |input| call.lent.words(input);
    let judged = judge_claim::<P>(
        call.lent.code(),
        words(Input::Block),
        words(Input::Z),
        call.lent.single(Input::Y),
        words(Input::R),
        words(Input::Queries),
        words(Input::Opening),
    );
    let (code, honest) = judged.expect("a well-formed claim");
    let sizes = code.sizes;
    let mut opening = honest.opening.clone();

    let mut block = if whole {
        let other = rng.residues(sizes.k0 << level, shape.words);
        codeword(&code, level, &other)
    } else {
        let mut block = honest.level_block(&code, level).to_vec();
        let j = rng.below(block.len());
        block[j] = block[j] + Residue::ONE;
        block
    };
    opening[sizes.opening_block(level)].copy_from_slice(&block);
    for i in (0..level).rev() {
        block = fold_block(code.t(i), code.t2(i), &block, honest.r[i]);
        opening[sizes.opening_block(i)].copy_from_slice(&block);
    }
    let base = inverse(&code.leading()).expect("a legal base");
    let v = row_times(&block[..sizes.k0], &base);
    opening[sizes.final_words()].copy_from_slice(&v);

    let y = rng.styled(shape.words);
    let (low, high) = honest.z.split_at(sizes.low());
    let last = value_by_monomials(&v, low) * eq(high, &honest.r);
    let rounds = fitting_rounds(y, last, &honest.r, shape, rng);
    opening[..sizes.final_value()].copy_from_slice(&rounds);
    let opening = opening.iter().map(|word| word.word()).collect();
    call.lent.words.insert(Input::Opening, opening);
    call.lent.words.insert(Input::Y, vec![y.word()]);
    call.add_note(&format!("forged at level {level}, whole {whole}"));
    call
}

/// Rounds that lead from the claim y to the claim `last`, where r_0 allows it.
fn fitting_rounds<const P: u32>(
    y: Residue<P>,
    last: Residue<P>,
    r: &[Residue<P>],
    shape: Shape,
    rng: &mut Rng,
) -> Vec<Residue<P>> {
    let mut claimed = y;
    let mut rounds = Vec::new();
    for i in (1..=r.len()).rev() {
        let at_0 = rng.styled(shape.words);
        let mut h = [at_0, claimed - at_0, rng.styled(shape.words)];
        if i == 1 {
            // h_1(r_0) moves with its value at 2 by the value of that word's own quadratic.
            let [zero, one, _] = sent_places();
            let factor = quadratic_at([zero, zero, one], r[0]);
            if let Some(inverse) = factor.inverse() {
                let missing = last - quadratic_at(h, r[0]);
                h[2] = h[2] + missing * inverse;
            }
        }
        claimed = quadratic_at(h, r[i - 1]);
        rounds.extend(h);
    }
    rounds
}
