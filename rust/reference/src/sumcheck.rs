//! The rounds h_d to h_1 of an opening.
//!
//! A point may have more words than there are challenges: the low variables, so many, stay inside the
//! base message, and r_i belongs to the variable that many places higher.

use crate::polynomial::{corner, value_by_monomials};
use crate::residue::Residue;
use crate::table::corner_values;
use crate::LITERAL_DEPTH;

/// eq: the product of z_i*x_i + (1-z_i)(1-x_i), and 1 for no variables.
pub fn eq<const P: u32>(z: &[Residue<P>], x: &[Residue<P>]) -> Residue<P> {
    assert_eq!(z.len(), x.len());
    let factor =
        |(&z, &x): (&Residue<P>, &Residue<P>)| z * x + (Residue::ONE - z) * (Residue::ONE - x);
    z.iter().zip(x).map(factor).product()
}

/// The places at which a round is sent: 0, 1, 2.
pub fn sent_places<const P: u32>() -> [Residue<P>; 3] {
    let two = Residue::ONE + Residue::ONE;
    [Residue::ZERO, Residue::ONE, two]
}

/// h_i at 0, 1, 2, literally: the sum of f*eq over the 0/1 choices of the low variables and the i - 1
/// above them, with the next one the place and the higher ones set to their challenges.
pub fn round_by_corners<const P: u32>(
    message: &[Residue<P>],
    z: &[Residue<P>],
    r: &[Residue<P>],
    i: usize,
) -> [Residue<P>; 3] {
    let lower = z.len() - r.len() + i - 1;
    sent_places().map(|place| {
        let term = |b| {
            let mut x = corner(b, lower);
            x.push(place);
            x.extend_from_slice(&r[i..]);
            value_by_monomials(message, &x) * eq(z, &x)
        };
        (0..1 << lower).map(term).sum()
    })
}

/// All rounds, h_d first, from the values of f and eq at the corners of the variables that are not
/// yet set. Both are straight lines in the top variable, so two corners give any place.
pub fn rounds_by_tables<const P: u32>(
    message: &[Residue<P>],
    z: &[Residue<P>],
    r: &[Residue<P>],
) -> Vec<[Residue<P>; 3]> {
    let mut f = corner_values(message);
    let mut weight: Vec<_> = (0..f.len()).map(|b| eq(z, &corner(b, z.len()))).collect();
    let mut rounds = Vec::new();
    for i in (1..=r.len()).rev() {
        rounds.push(sent_places().map(|place| {
            let (f, weight) = (set_top(&f, place), set_top(&weight, place));
            f.iter().zip(&weight).map(|(&f, &w)| f * w).sum()
        }));
        f = set_top(&f, r[i - 1]);
        weight = set_top(&weight, r[i - 1]);
    }
    rounds
}

/// Sets the top variable of a table of corner values.
fn set_top<const P: u32>(table: &[Residue<P>], place: Residue<P>) -> Vec<Residue<P>> {
    let (at_0, at_1) = table.split_at(table.len() / 2);
    let set = |(&a, &b): (&Residue<P>, &Residue<P>)| a + place * (b - a);
    at_0.iter().zip(at_1).map(set).collect()
}

/// All rounds, h_d first.
pub fn rounds<const P: u32>(
    message: &[Residue<P>],
    z: &[Residue<P>],
    r: &[Residue<P>],
) -> Vec<[Residue<P>; 3]> {
    if z.len() <= LITERAL_DEPTH {
        let round = |i| round_by_corners(message, z, r, i);
        (1..=r.len()).rev().map(round).collect()
    } else {
        rounds_by_tables(message, z, r)
    }
}

/// The value at x of the polynomial of degree at most 2 with these values at 0, 1, 2.
pub fn quadratic_at<const P: u32>(h: [Residue<P>; 3], x: Residue<P>) -> Residue<P> {
    let [_, one, two] = sent_places();
    h[0] * (x - one) * (x - two) * Residue::HALF - h[1] * x * (x - two)
        + h[2] * x * (x - one) * Residue::HALF
}

#[cfg(test)]
mod tests {
    use super::*;
    use crate::field::Field;
    use crate::over_both;
    use crate::polynomial::value;
    use crate::sample::{Rng, STYLES};

    over_both!(both_forms_agree eq_picks_the_value_at_the_point quadratics);

    fn both_forms_agree<const P: u32>() {
        let mut rng = Rng::new(Field::of(P), 13);
        for low in 0..=2 {
            for depth in 0..=6 - low {
                for style in STYLES {
                    for _ in 0..4 {
                        let message = rng.residues::<P>(1 << (low + depth), style);
                        let z = rng.residues(low + depth, style);
                        let r = rng.residues(depth, style);
                        let round = |i| round_by_corners(&message, &z, &r, i);
                        let literal: Vec<_> = (1..=depth).rev().map(round).collect();
                        assert_eq!(rounds_by_tables(&message, &z, &r), literal);
                    }
                }
            }
        }
    }

    fn eq_picks_the_value_at_the_point<const P: u32>() {
        let mut rng = Rng::new(Field::of(P), 14);
        for depth in 0..=6 {
            let message = rng.residues::<P>(1 << depth, STYLES[0]);
            let z = rng.residues(depth, STYLES[0]);
            let term = |b| {
                let x = corner(b, depth);
                value(&message, &x) * eq(&z, &x)
            };
            let total: Residue<P> = (0..1 << depth).map(term).sum();
            assert_eq!(total, value(&message, &z));
        }
    }

    fn quadratics<const P: u32>() {
        let mut rng = Rng::new(Field::of(P), 15);
        for _ in 0..500 {
            let (a, b, c) = (rng.residue::<P>(), rng.residue(), rng.residue());
            let at = |x: Residue<P>| a + b * x + c * x * x;
            let h = sent_places().map(at);
            let x = rng.residue();
            assert_eq!(quadratic_at(h, x), at(x));
        }
    }
}
