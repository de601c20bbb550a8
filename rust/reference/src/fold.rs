//! Folding by one level.

use crate::answer::{Answer, Input, Refusal};
use crate::judge;
use crate::layout::Layout;
use crate::lent::LentLevel;
use crate::over;
use crate::residue::Residue;

/// The value at `a` of the straight line through (x, w) and (x2, w2). The two places must differ:
/// the inverse of zero is never made up.
pub fn line<const P: u32>(
    x: Residue<P>,
    w: Residue<P>,
    x2: Residue<P>,
    w2: Residue<P>,
    a: Residue<P>,
) -> Residue<P> {
    let inverse = (x2 - x).inverse().expect("two different places");
    let slope = (w2 - w) * inverse;
    w + slope * (a - x)
}

/// The fold of a block by `a`: at `j` the line through `(T[j], w[j])` and `(T'[j], w[j+n])`, at `a`.
pub fn fold_block<const P: u32>(
    t: &[Residue<P>],
    t2: &[Residue<P>],
    block: &[Residue<P>],
    a: Residue<P>,
) -> Vec<Residue<P>> {
    let (low, high) = block.split_at(t.len());
    let place = |j: usize| line(t[j], low[j], t2[j], high[j], a);
    (0..t.len()).map(place).collect()
}

/// The folding job. Refusals 1, 2, 13, 3, 4, 6.
pub fn fold(lent: LentLevel, block: &[u32], challenge: u32, out: &mut [u32]) -> Answer {
    over!(lent.field, P => try_fold::<P>(lent, block, challenge, out)).into()
}

fn try_fold<const P: u32>(
    lent: LentLevel,
    block: &[u32],
    challenge: u32,
    out: &mut [u32],
) -> Result<(), Refusal> {
    let depth = judge::upper_level(lent.parameters.depth, lent.parameters.k0)?;
    let rate = judge::rate(lent.parameters.rate)?;
    let k0 = judge::k0(lent.parameters.k0)?;
    let layout = Layout { depth, rate, k0 };
    let (upper, lower) = (layout.block(depth), layout.block(depth - 1));
    judge::lengths(&[
        (lent.t.len(), lower),
        (lent.t2.len(), lower),
        (block.len(), upper),
        (out.len(), lower),
    ])?;
    let t = judge::words::<P>(Input::T, lent.t)?;
    let t2 = judge::words(Input::T2, lent.t2)?;
    let block = judge::words(Input::Block, block)?;
    let challenge = judge::word(Input::R, challenge)?;
    judge::diagonals(&t, &t2)?;
    judge::write(out, &fold_block(&t, &t2, &block, challenge));
    Ok(())
}

#[cfg(test)]
mod tests {
    use super::*;
    use crate::code::tests::sample_code;
    use crate::encode::by_matrix;
    use crate::field::Field;
    use crate::over_both;
    use crate::parameters::Parameters;
    use crate::sample::{Rng, Style, STYLES};

    over_both!(the_line_meets_both_places the_fold_of_a_codeword_encodes_the_folded_message refusals);

    fn the_line_meets_both_places<const P: u32>() {
        let mut rng = Rng::new(Field::of(P), 9);
        for _ in 0..500 {
            for style in STYLES {
                let (x, w, w2) = (rng.styled::<P>(style), rng.styled(style), rng.styled(style));
                let x2 = x + Residue::ONE + rng.styled(STYLES[2]);
                assert_eq!(line(x, w, x2, w2, x), w);
                assert_eq!(line(x, w, x2, w2, x2), w2);
                // Three values of a straight line at equal steps: the middle is the mean.
                let (a, step) = (rng.styled(style), rng.styled(style));
                let at = |place| line(x, w, x2, w2, place);
                let mean = (at(a - step) + at(a + step)) * Residue::HALF;
                assert_eq!(at(a), mean);
            }
        }
    }

    fn the_fold_of_a_codeword_encodes_the_folded_message<const P: u32>() {
        let mut rng = Rng::new(Field::of(P), 10);
        for (k0, deepest) in [(1, 5), (2, 4), (4, 3)] {
            for depth in 1..=deepest {
                for rate in 2..=16 {
                    let layout = Layout { depth, rate, k0 };
                    for style in STYLES {
                        one_fold::<P>(&mut rng, layout, style);
                    }
                }
            }
        }
    }

    fn one_fold<const P: u32>(rng: &mut Rng, layout: Layout, style: Style) {
        let depth = layout.depth;
        let code = sample_code::<P>(rng, layout, style);
        let message = rng.residues(layout.message(), style);
        let a = rng.styled(style);
        let block = by_matrix(&code, depth, &message);
        let folded = fold_block(code.t(depth - 1), code.t2(depth - 1), &block, a);
        let (l, r) = message.split_at(message.len() / 2);
        let small: Vec<_> = l.iter().zip(r).map(|(&l, &r)| l + a * r).collect();
        assert_eq!(folded, by_matrix(&code, depth - 1, &small));
    }

    fn refusals<const P: u32>() {
        let p = P;
        let answer = |level, rate, t: &[u32], t2: &[u32], block: &[u32], a, out: usize| {
            let mut result = vec![7; out];
            let lent = LentLevel {
                field: Field::of(P),
                parameters: Parameters::one(level, rate),
                t,
                t2,
            };
            let answer = fold(lent, block, a, &mut result);
            assert!(answer.number == 0 || result.iter().all(|&word| word == 7));
            (answer.number, answer.first, answer.second)
        };
        let (t, t2, block) = ([2, 3], [4, 5], [1, 2, 3, 4]);
        assert_eq!(answer(1, 2, &t, &t2, &block, 0, 2), (0, 0, 0));
        assert_eq!(answer(0, 1, &t, &t2, &block, 0, 2), (1, 0, 0));
        assert_eq!(answer(21, 2, &t, &t2, &block, 0, 2), (1, 0, 0));
        assert_eq!(answer(20, 2, &t, &t2, &block, 0, 2), (3, 0, 0));
        assert_eq!(answer(1, 17, &t, &t2, &block, p, 3), (2, 0, 0));
        assert_eq!(answer(1, 2, &t, &t2, &block, p, 3), (3, 0, 0));
        assert_eq!(answer(1, 2, &t, &t, &block, p, 2), (4, 0, 7));
        assert_eq!(answer(1, 2, &t, &t, &[1, 2, p, p], p, 2), (4, 2, 4));
        assert_eq!(answer(1, 2, &t, &[4, p], &[p; 4], p, 2), (4, 1, 3));
        assert_eq!(answer(1, 2, &[2, p], &[p; 2], &[p; 4], p, 2), (4, 1, 2));
        assert_eq!(answer(1, 2, &t, &[4, 3], &block, 0, 2), (6, 1, 0));
        assert_eq!(answer(1, 2, &t, &t, &block, 0, 2), (6, 0, 0));
    }
}
