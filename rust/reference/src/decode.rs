//! Decoding.

use crate::answer::{Answer, Input, Refusal};
use crate::code::Code;
use crate::encode::codeword;
use crate::judge;
use crate::lent::LentCode;
use crate::linear::{inverse, row_times, Matrix};
use crate::over;
use crate::residue::Residue;

/// The message whose codeword a block is, none when it is no codeword.
///
/// If some message has the block as its codeword, undoing the code place by place gives exactly
/// that message; so the block is a codeword just when the undone message encodes to it.
pub fn message_of<const P: u32>(code: &Code<P>, block: &[Residue<P>]) -> Option<Vec<Residue<P>>> {
    let differences = code.t.iter().zip(&code.t2).map(|(&t, &t2)| t2 - t);
    let slopes: Vec<Residue<P>> = differences
        .map(|difference| difference.inverse().expect("T and T' differ"))
        .collect();
    let inverses = Inverses {
        slopes,
        base: inverse(&code.leading()).expect("a legal base"),
    };
    let message = undo(code, &inverses, code.sizes.depth, block);
    (codeword(code, code.sizes.depth, &message) == block).then_some(message)
}

/// What a block is undone with.
struct Inverses<const P: u32> {
    /// 1/(T' - T) in the layout of T.
    slopes: Vec<Residue<P>>,
    /// The inverse of the first k0 columns of the base rows.
    base: Matrix<P>,
}

/// Undoes the code: at each place the slope of the line is Enc(r), its value at 0 is Enc(l). The first
/// k0 words of a base block determine the base message.
fn undo<const P: u32>(
    code: &Code<P>,
    inverses: &Inverses<P>,
    level: usize,
    block: &[Residue<P>],
) -> Vec<Residue<P>> {
    if level == 0 {
        return row_times(&block[..code.sizes.k0], &inverses.base);
    }
    let t = code.t(level - 1);
    let slopes = &inverses.slopes[code.sizes.diagonal(level - 1)];
    let (low, high) = block.split_at(t.len());
    let slope = |j: usize| (high[j] - low[j]) * slopes[j];
    let right: Vec<Residue<P>> = (0..t.len()).map(slope).collect();
    let left: Vec<Residue<P>> = (0..t.len()).map(|j| low[j] - t[j] * right[j]).collect();
    let halves = [&left, &right].map(|half| undo(code, inverses, level - 1, half));
    halves.concat()
}

/// The decoding job. Refusals 1, 2, 13, 3 to 6 and 8. The work buffer is zero after success and after 8.
pub fn decode(lent: LentCode, block: &[u32], message: &mut [u32], work: &mut [u32]) -> Answer {
    over!(lent.field, P => try_decode::<P>(lent, block, message, work)).into()
}

fn try_decode<const P: u32>(
    lent: LentCode,
    block: &[u32],
    message: &mut [u32],
    work: &mut [u32],
) -> Result<(), Refusal> {
    let (code, [block]) = lent.judge::<P, 1>(
        |sizes| {
            vec![
                (block.len(), sizes.top_block()),
                (message.len(), sizes.message()),
                (work.len(), sizes.top_block()),
            ]
        },
        [(Input::Block, block)],
    )?;
    work.fill(0);
    let found = message_of(&code, &block).ok_or(Refusal::NoCodeword)?;
    judge::write(message, &found);
    Ok(())
}

#[cfg(test)]
mod tests {
    use super::*;
    use crate::code::tests::sample_code;
    use crate::field::Field;
    use crate::layout::Layout;
    use crate::over_both;
    use crate::parameters::Parameters;
    use crate::sample::{Rng, Style, STYLES};

    over_both!(codewords_and_every_single_word_moved any_block work_and_result);

    /// Solves message * matrix = block by elimination: a second way, without any line.
    fn message_by_elimination<const P: u32>(
        code: &Code<P>,
        block: &[Residue<P>],
    ) -> Option<Vec<Residue<P>>> {
        let matrix = code.matrix(code.sizes.depth);
        let unknowns = matrix.len();
        let equation = |j: usize| -> Vec<Residue<P>> {
            let left = matrix.iter().map(|row| row[j]);
            left.chain([block[j]]).collect()
        };
        let mut equations: Vec<_> = (0..block.len()).map(equation).collect();
        for k in 0..unknowns {
            let pivot = (k..equations.len()).find(|&e| equations[e][k] != Residue::ZERO)?;
            equations.swap(k, pivot);
            let inverse = equations[k][k].inverse()?;
            let row: Vec<_> = equations[k].iter().map(|&x| x * inverse).collect();
            for (e, equation) in equations.iter_mut().enumerate() {
                let factor = equation[k];
                if e != k {
                    for (x, &y) in equation.iter_mut().zip(&row) {
                        *x = *x - factor * y;
                    }
                }
            }
            equations[k] = row;
        }
        let solvable = equations[unknowns..]
            .iter()
            .all(|e| e[unknowns] == Residue::ZERO);
        solvable.then(|| equations[..unknowns].iter().map(|e| e[unknowns]).collect())
    }

    fn codewords_and_every_single_word_moved<const P: u32>() {
        let mut rng = Rng::new(Field::of(P), 11);
        for (k0, deepest) in [(1, 3), (2, 2), (4, 1)] {
            for depth in 0..=deepest {
                for rate in [2, 3, 5, 16] {
                    for style in STYLES {
                        every_word_moved::<P>(&mut rng, Layout { depth, rate, k0 }, style);
                    }
                }
            }
        }
    }

    fn every_word_moved<const P: u32>(rng: &mut Rng, layout: Layout, style: Style) {
        let code = sample_code::<P>(rng, layout, style);
        let message = rng.residues(layout.message(), style);
        let block = codeword(&code, layout.depth, &message);
        assert_eq!(message_of(&code, &block), Some(message.clone()));
        assert_eq!(message_by_elimination(&code, &block), Some(message));
        for j in 0..block.len() {
            let mut moved = block.clone();
            moved[j] = moved[j] + Residue::ONE;
            let found = message_of(&code, &moved);
            assert_eq!(found, message_by_elimination(&code, &moved));
        }
    }

    fn any_block<const P: u32>() {
        let mut rng = Rng::new(Field::of(P), 12);
        let mut codewords = 0;
        for k in 0..900 {
            let sizes = Layout {
                depth: rng.below(3),
                rate: 2,
                k0: [1, 2, 4][k / 300],
            };
            let style = rng.pick(&STYLES);
            let code = sample_code::<P>(&mut rng, sizes, style);
            let block = rng.residues(sizes.top_block(), STYLES[2]);
            let found = message_of(&code, &block);
            assert_eq!(found, message_by_elimination(&code, &block));
            codewords += usize::from(found.is_some());
        }
        assert!(codewords > 0);
    }

    fn work_and_result<const P: u32>() {
        let lent = LentCode {
            field: Field::of(P),
            parameters: Parameters::one(0, 2),
            g: &[1, 2],
            t: &[],
            t2: &[],
        };
        let (mut message, mut work) = ([7], [8, 8]);
        let answer = decode(lent, &[3, 7], &mut message, &mut work);
        assert_eq!((answer.number, message, work), (8, [7], [0, 0]));
        let mut work = [8, 8];
        let answer = decode(lent, &[3, 6], &mut message, &mut work);
        assert_eq!((answer.number, message, work), (0, [3], [0, 0]));
        let mut work = [8, 8];
        let answer = decode(lent, &[u32::MAX, 6], &mut message, &mut work);
        assert_eq!((answer.number, message, work), (4, [3], [8, 8]));
        assert_eq!((answer.first, answer.second), (0, 4));
    }
}
