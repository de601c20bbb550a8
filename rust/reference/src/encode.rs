//! Encoding.

use crate::answer::{Answer, Input, Refusal};
use crate::code::{times, Code};
use crate::judge;
use crate::lent::LentCode;
use crate::linear::row_times;
use crate::over;
use crate::residue::Residue;
use crate::LITERAL_DEPTH;

/// The codeword of a message of a level, literally: the message times the generator matrix.
pub fn by_matrix<const P: u32>(
    code: &Code<P>,
    level: usize,
    message: &[Residue<P>],
) -> Vec<Residue<P>> {
    row_times(message, &code.matrix(level))
}

/// The same by halves, down to base messages: Enc(l) + T*Enc(r), then Enc(l) + T'*Enc(r).
pub fn by_halves<const P: u32>(
    code: &Code<P>,
    level: usize,
    message: &[Residue<P>],
) -> Vec<Residue<P>> {
    if level == 0 {
        return row_times(message, &code.base());
    }
    let (l, r) = message.split_at(message.len() / 2);
    let left = by_halves(code, level - 1, l);
    let right = by_halves(code, level - 1, r);
    let half = |diagonal: &[Residue<P>]| -> Vec<Residue<P>> {
        let products = times(&right, diagonal);
        left.iter().zip(products).map(|(&a, b)| a + b).collect()
    };
    [half(code.t(level - 1)), half(code.t2(level - 1))].concat()
}

/// The codeword of a message of a level.
pub fn codeword<const P: u32>(
    code: &Code<P>,
    level: usize,
    message: &[Residue<P>],
) -> Vec<Residue<P>> {
    if level <= LITERAL_DEPTH {
        by_matrix(code, level, message)
    } else {
        by_halves(code, level, message)
    }
}

/// The encoding job. Refusals 1, 2, 13, 3 to 6.
pub fn encode(lent: LentCode, message: &[u32], block: &mut [u32]) -> Answer {
    over!(lent.field, P => try_encode::<P>(lent, message, block)).into()
}

fn try_encode<const P: u32>(
    lent: LentCode,
    message: &[u32],
    block: &mut [u32],
) -> Result<(), Refusal> {
    let (code, [message]) = lent.judge::<P, 1>(
        |sizes| {
            vec![
                (message.len(), sizes.message()),
                (block.len(), sizes.top_block()),
            ]
        },
        [(Input::Block, message)],
    )?;
    judge::write(block, &codeword(&code, code.sizes.depth, &message));
    Ok(())
}

#[cfg(test)]
mod tests {
    use super::*;
    use crate::code::tests::sample_code;
    use crate::field::Field;
    use crate::layout::Layout;
    use crate::over_both;
    use crate::sample::{Rng, STYLES};

    over_both!(both_forms_agree a_call_of_smaller_depth_uses_the_lower_levels);

    fn both_forms_agree<const P: u32>() {
        let mut rng = Rng::new(Field::of(P), 7);
        for k0 in [1, 2, 4] {
            for depth in 0..=7 - k0 / 2 {
                for rate in 2..=16 {
                    let layout = Layout { depth, rate, k0 };
                    for style in STYLES {
                        let code = sample_code::<P>(&mut rng, layout, style);
                        let message = rng.residues(layout.message(), style);
                        let literal = by_matrix(&code, depth, &message);
                        assert_eq!(by_halves(&code, depth, &message), literal);
                    }
                }
            }
        }
    }

    fn a_call_of_smaller_depth_uses_the_lower_levels<const P: u32>() {
        let mut rng = Rng::new(Field::of(P), 8);
        let sizes = Layout::one(5, 3);
        let code = sample_code::<P>(&mut rng, sizes, STYLES[0]);
        for depth in 0..5 {
            let lower = Layout { depth, ..sizes };
            let message = rng.residues(1 << depth, STYLES[0]);
            let small = Code {
                sizes: lower,
                g: code.g.clone(),
                t: code.t[..lower.diagonals()].to_vec(),
                t2: code.t2[..lower.diagonals()].to_vec(),
            };
            let expected = by_matrix(&code, depth, &message);
            assert_eq!(by_matrix(&small, depth, &message), expected);
            assert_eq!(codeword(&small, depth, &message), expected);
        }
    }
}
