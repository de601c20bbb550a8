//! Writing an opening.

use crate::answer::{Answer, Input, Refusal};
use crate::code::Code;
use crate::encode::codeword;
use crate::fold::fold_block;
use crate::judge;
use crate::lent::LentCode;
use crate::over;
use crate::polynomial;
use crate::residue::Residue;
use crate::sumcheck::rounds;

/// The opening of a message: h_d to h_1, then v, the coefficients that f has in the low variables with
/// the higher ones set to r, then the blocks of level d-1 to 0, each the fold of the one above it by
/// its challenge.
pub fn opening_of<const P: u32>(
    code: &Code<P>,
    message: &[Residue<P>],
    z: &[Residue<P>],
    r: &[Residue<P>],
) -> Vec<Residue<P>> {
    let depth = code.sizes.depth;
    let mut opening = rounds(message, z, r).concat();
    opening.extend(polynomial::set_high(message, r));
    let mut block = codeword(code, depth, message);
    for i in (0..depth).rev() {
        block = fold_block(code.t(i), code.t2(i), &block, r[i]);
        opening.extend_from_slice(&block);
    }
    opening
}

/// The job that writes an opening and returns f(z) in `value`. Refusals 1, 2, 13, 3 to 6. The work
/// buffer, twice as long as the message, is zero after success.
pub fn write_opening(
    lent: LentCode,
    message: &[u32],
    z: &[u32],
    r: &[u32],
    opening: &mut [u32],
    work: &mut [u32],
    value: &mut u32,
) -> Answer {
    over!(lent.field, P => try_write_opening::<P>(lent, message, z, r, opening, work, value)).into()
}

fn try_write_opening<const P: u32>(
    lent: LentCode,
    message: &[u32],
    z: &[u32],
    r: &[u32],
    opening: &mut [u32],
    work: &mut [u32],
    value: &mut u32,
) -> Result<(), Refusal> {
    let (code, [message, z, r]) = lent.judge::<P, 3>(
        |sizes| {
            vec![
                (message.len(), sizes.message()),
                (z.len(), sizes.point()),
                (r.len(), sizes.depth),
                (opening.len(), sizes.opening()),
                (work.len(), 2 * sizes.message()),
            ]
        },
        [(Input::Block, message), (Input::Z, z), (Input::R, r)],
    )?;
    judge::write(opening, &opening_of(&code, &message, &z, &r));
    work.fill(0);
    *value = polynomial::value(&message, &z).word();
    Ok(())
}

#[cfg(test)]
mod tests {
    use super::*;
    use crate::code::tests::sample_code;
    use crate::field::Field;
    use crate::layout::Layout;
    use crate::over_both;
    use crate::sample::{Rng, STYLES};

    over_both!(block_zero_is_the_codeword_of_the_final_value and_of_final_coefficients);

    fn block_zero_is_the_codeword_of_the_final_value<const P: u32>() {
        let mut rng = Rng::new(Field::of(P), 16);
        for depth in 0..=7 {
            for style in STYLES {
                let rate = 2 + rng.below(15);
                let code = sample_code::<P>(&mut rng, Layout::one(depth, rate), style);
                let message = rng.residues(1 << depth, style);
                let z = rng.residues(depth, style);
                let r = rng.residues(depth, style);
                let opening = opening_of(&code, &message, &z, &r);
                assert_eq!(opening.len(), code.sizes.opening());
                let v = opening[code.sizes.final_value()];
                assert_eq!(v, polynomial::value_by_monomials(&message, &r));
                if depth > 0 {
                    let base = &opening[code.sizes.opening_block(0)];
                    assert_eq!(base, codeword(&code, 0, &[v]));
                }
            }
        }
    }

    fn and_of_final_coefficients<const P: u32>() {
        let mut rng = Rng::new(Field::of(P), 43);
        for k0 in [2, 4] {
            for depth in 0..=5 {
                for style in STYLES {
                    let rate = 2 + rng.below(15);
                    let layout = Layout { depth, rate, k0 };
                    let code = sample_code::<P>(&mut rng, layout, style);
                    let message = rng.residues(layout.message(), style);
                    let z = rng.residues(layout.point(), style);
                    let r = rng.residues(depth, style);
                    let opening = opening_of(&code, &message, &z, &r);
                    assert_eq!(opening.len(), layout.opening());
                    if depth > 0 {
                        let v = &opening[layout.final_words()];
                        assert_eq!(opening[layout.opening_block(0)], codeword(&code, 0, v));
                    }
                }
            }
        }
    }
}
