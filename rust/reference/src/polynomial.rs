//! The polynomial whose coefficients a message holds, and the evaluation job.

use crate::answer::{Answer, Input, Refusal};
use crate::field::Field;
use crate::judge;
use crate::over;
use crate::parameters::Parameters;
use crate::residue::Residue;
use crate::LITERAL_DEPTH;

/// Bit `i` of `b`.
pub fn bit(b: usize, i: usize) -> bool {
    b >> i & 1 == 1
}

/// The point of corner b: X_i is bit i of b.
pub fn corner<const P: u32>(b: usize, depth: usize) -> Vec<Residue<P>> {
    let coordinate = |i| {
        if bit(b, i) {
            Residue::ONE
        } else {
            Residue::ZERO
        }
    };
    (0..depth).map(coordinate).collect()
}

/// The value at a point, literally: word b times the product of those X_i whose bit in b is set.
pub fn value_by_monomials<const P: u32>(
    message: &[Residue<P>],
    point: &[Residue<P>],
) -> Residue<P> {
    let monomial = |b: usize| -> Residue<P> {
        let set = (0..point.len()).filter(|&i| bit(b, i));
        set.map(|i| point[i]).product()
    };
    let terms = message.iter().enumerate();
    terms.map(|(b, &word)| word * monomial(b)).sum()
}

/// The value at a point by halves: the right half of a message is what multiplies the top variable.
pub fn value_by_halves<const P: u32>(message: &[Residue<P>], point: &[Residue<P>]) -> Residue<P> {
    let Some((&top, lower)) = point.split_last() else {
        return message[0];
    };
    let (left, right) = message.split_at(message.len() / 2);
    value_by_halves(left, lower) + top * value_by_halves(right, lower)
}

/// The value at a point.
pub fn value<const P: u32>(message: &[Residue<P>], point: &[Residue<P>]) -> Residue<P> {
    if point.len() <= LITERAL_DEPTH {
        value_by_monomials(message, point)
    } else {
        value_by_halves(message, point)
    }
}

/// The coefficients that are left in the low variables when the higher ones are set: word b of them is
/// the value of the polynomial that multiplies the low monomial b.
pub fn set_high<const P: u32>(message: &[Residue<P>], high: &[Residue<P>]) -> Vec<Residue<P>> {
    let left = message.len() >> high.len();
    let beside = |b: usize| -> Vec<_> { message.iter().skip(b).step_by(left).copied().collect() };
    (0..left).map(|b| value(&beside(b), high)).collect()
}

/// The evaluation job. Refusals 1, 13, 3, 4. The rate is no number of it. `value` is written only when
/// done.
pub fn evaluate(
    field: Field,
    Parameters { depth, k0, .. }: Parameters,
    message: &[u32],
    z: &[u32],
    value: &mut u32,
) -> Answer {
    over!(field, P => try_evaluate::<P>(depth, k0, message, z, value)).into()
}

fn try_evaluate<const P: u32>(
    depth: u32,
    k0: u32,
    message: &[u32],
    z: &[u32],
    value: &mut u32,
) -> Result<(), Refusal> {
    let depth = judge::depth(depth, k0)?;
    let k0 = judge::k0(k0)?;
    let low = k0.trailing_zeros() as usize;
    judge::lengths(&[(message.len(), k0 << depth), (z.len(), low + depth)])?;
    let message = judge::words::<P>(Input::Block, message)?;
    let z = judge::words(Input::Z, z)?;
    *value = self::value(&message, &z).word();
    Ok(())
}

#[cfg(test)]
mod tests {
    use super::*;
    use crate::over_both;
    use crate::sample::{Rng, STYLES};

    over_both!(both_forms_agree low_and_high refusals);

    fn both_forms_agree<const P: u32>() {
        let mut rng = Rng::new(Field::of(P), 4);
        for depth in 0..=9 {
            for style in STYLES {
                for _ in 0..10 {
                    let message = rng.residues::<P>(1 << depth, style);
                    let point = rng.residues(depth, style);
                    let literal = value_by_monomials(&message, &point);
                    assert_eq!(value_by_halves(&message, &point), literal);
                }
            }
        }
    }

    /// Setting the high variables first and then the low ones gives the value at the whole point.
    fn low_and_high<const P: u32>() {
        let mut rng = Rng::new(Field::of(P), 42);
        for depth in 0..=7 {
            for low in 0..=depth {
                let message = rng.residues::<P>(1 << depth, STYLES[0]);
                let point = rng.residues(depth, STYLES[0]);
                let left = set_high(&message, &point[low..]);
                assert_eq!(left.len(), 1 << low);
                let value = value_by_monomials(&left, &point[..low]);
                assert_eq!(value, value_by_monomials(&message, &point));
            }
        }
    }

    fn refusals<const P: u32>() {
        let p = P;
        let mut value = 77;
        let mut answer = |depth, message: &[u32], z: &[u32]| {
            let lent = Parameters::one(depth, u32::MAX);
            let answer = evaluate(Field::of(P), lent, message, z, &mut value);
            assert!(answer.number == 0 || value == 77);
            (answer.number, answer.first, answer.second)
        };
        assert_eq!(answer(21, &[p], &[]), (1, 0, 0));
        assert_eq!(answer(20, &[p], &[]), (3, 0, 0));
        assert_eq!(answer(u32::MAX, &[1], &[]), (1, 0, 0));
        assert_eq!(answer(1, &[p], &[1]), (3, 0, 0));
        assert_eq!(answer(1, &[p, 1], &[]), (3, 0, 0));
        assert_eq!(answer(1, &[p, 1], &[1]), (4, 0, 4));
        assert_eq!(answer(1, &[1, p], &[p]), (4, 1, 4));
        assert_eq!(answer(1, &[1, 1], &[p]), (4, 0, 5));
        assert_eq!(answer(2, &[1; 4], &[1, p]), (4, 1, 5));
        assert_eq!(answer(0, &[9], &[]), (0, 0, 0));
        assert_eq!(value, 9);
    }
}
