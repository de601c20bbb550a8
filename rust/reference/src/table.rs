//! A table of clearances to coefficients, and back.

use crate::answer::{Answer, Input, Refusal};
use crate::clearance;
use crate::field::Field;
use crate::judge;
use crate::over;
use crate::parameters::Parameters;
use crate::polynomial::{bit, corner, value_by_monomials};
use crate::residue::Residue;
use crate::LITERAL_DEPTH;

/// The coefficients of the polynomial with these values at the corners, literally: coefficient b
/// is the sum over the corners s within b, with a minus for every bit that s lacks.
pub fn coefficients_by_corners<const P: u32>(table: &[Residue<P>]) -> Vec<Residue<P>> {
    let signed = |b: usize, s: usize| {
        let missing = (b & !s).count_ones();
        if missing % 2 == 1 {
            -table[s]
        } else {
            table[s]
        }
    };
    let coefficient = |b: usize| (0..=b).filter(|s| s & !b == 0).map(|s| signed(b, s)).sum();
    (0..table.len()).map(coefficient).collect()
}

/// The same, variable by variable.
pub fn coefficients_by_variables<const P: u32>(table: &[Residue<P>]) -> Vec<Residue<P>> {
    by_variables(table, |with, without| with - without)
}

/// The values at the corners, literally.
pub fn corner_values_by_monomials<const P: u32>(message: &[Residue<P>]) -> Vec<Residue<P>> {
    let depth = message.len().trailing_zeros() as usize;
    let value = |b| value_by_monomials(message, &corner(b, depth));
    (0..message.len()).map(value).collect()
}

/// The same, variable by variable.
pub fn corner_values_by_variables<const P: u32>(message: &[Residue<P>]) -> Vec<Residue<P>> {
    by_variables(message, |with, without| with + without)
}

/// For every variable, changes each word whose bit is set by the word that only lacks that bit.
fn by_variables<const P: u32>(
    words: &[Residue<P>],
    step: impl Fn(Residue<P>, Residue<P>) -> Residue<P>,
) -> Vec<Residue<P>> {
    let mut words = words.to_vec();
    for i in 0..words.len().trailing_zeros() as usize {
        for b in 0..words.len() {
            if bit(b, i) {
                words[b] = step(words[b], words[b ^ (1 << i)]);
            }
        }
    }
    words
}

/// The values at the corners.
pub fn corner_values<const P: u32>(message: &[Residue<P>]) -> Vec<Residue<P>> {
    if message.len() <= 1 << LITERAL_DEPTH {
        corner_values_by_monomials(message)
    } else {
        corner_values_by_variables(message)
    }
}

/// Table to coefficients. Refusals 1, 13, 3, 9. Depth and rate are no numbers of it.
pub fn table_to_coefficients(
    field: Field,
    Parameters { k0, .. }: Parameters,
    clearances: &[i32],
    message: &mut [u32],
) -> Answer {
    over!(field, P => try_table_to_coefficients::<P>(k0, clearances, message)).into()
}

fn try_table_to_coefficients<const P: u32>(
    k0: u32,
    clearances: &[i32],
    message: &mut [u32],
) -> Result<(), Refusal> {
    let variables = judge::table_length(clearances.len(), k0)?;
    judge::k0(k0)?;
    judge::lengths(&[(message.len(), clearances.len())])?;
    let residues = clearances.iter().map(|&x| clearance::to_residue::<P>(x));
    let table = residues.collect::<Result<Vec<_>, _>>()?;
    let coefficients = if variables <= LITERAL_DEPTH {
        coefficients_by_corners(&table)
    } else {
        coefficients_by_variables(&table)
    };
    judge::write(message, &coefficients);
    Ok(())
}

/// Coefficients to table. Refusals 1, 13, 3, 4. Depth and rate are no numbers of it. The work buffer is
/// zero after success.
pub fn coefficients_to_table(
    field: Field,
    Parameters { k0, .. }: Parameters,
    message: &[u32],
    clearances: &mut [i32],
    work: &mut [u32],
) -> Answer {
    over!(field, P => try_coefficients_to_table::<P>(k0, message, clearances, work)).into()
}

fn try_coefficients_to_table<const P: u32>(
    k0: u32,
    message: &[u32],
    clearances: &mut [i32],
    work: &mut [u32],
) -> Result<(), Refusal> {
    judge::table_length(message.len(), k0)?;
    judge::k0(k0)?;
    let due = message.len();
    judge::lengths(&[(clearances.len(), due), (work.len(), due)])?;
    let message = judge::words::<P>(Input::Block, message)?;
    for (clearance, value) in clearances.iter_mut().zip(corner_values(&message)) {
        *clearance = clearance::from_residue(value);
    }
    work.fill(0);
    Ok(())
}

#[cfg(test)]
mod tests {
    use super::*;
    use crate::over_both;
    use crate::sample::{Rng, STYLES};

    /// Depth and rate are of no matter.
    const ONE: Parameters = Parameters::one(u32::MAX, u32::MAX);

    over_both!(the_coefficients_have_the_table_as_corner_values there_and_back refusals_on_the_way_to_coefficients refusals_on_the_way_back);

    fn the_coefficients_have_the_table_as_corner_values<const P: u32>() {
        let mut rng = Rng::new(Field::of(P), 5);
        for depth in 0..=8 {
            for style in STYLES {
                let table = rng.residues::<P>(1 << depth, style);
                let coefficients = coefficients_by_corners(&table);
                assert_eq!(coefficients_by_variables(&table), coefficients);
                assert_eq!(corner_values_by_monomials(&coefficients), table);
                assert_eq!(corner_values_by_variables(&coefficients), table);
            }
        }
    }

    fn there_and_back<const P: u32>() {
        let mut rng = Rng::new(Field::of(P), 6);
        for depth in [0, 1, 2, 5, 11, 16, 20] {
            let residues = rng.residues::<P>(1 << depth, STYLES[0]);
            let table: Vec<i32> = residues
                .iter()
                .map(|&r| clearance::from_residue(r))
                .collect();
            let mut message = vec![7; table.len()];
            let answer = table_to_coefficients(Field::of(P), ONE, &table, &mut message);
            assert_eq!(answer, Answer::DONE);
            let mut back = vec![8; table.len()];
            let mut work = vec![9; table.len()];
            let answer = coefficients_to_table(Field::of(P), ONE, &message, &mut back, &mut work);
            assert_eq!(answer, Answer::DONE);
            assert_eq!(back, table);
            assert!(work.iter().all(|&word| word == 0));
        }
    }

    fn refusals_on_the_way_to_coefficients<const P: u32>() {
        let big = Field::of(P).max_clearance() + 1;
        let number = |table: &[i32], result: usize| {
            let mut message = vec![7; result];
            let answer = table_to_coefficients(Field::of(P), ONE, table, &mut message);
            assert!(message.iter().all(|&word| word == 7));
            answer.number
        };
        assert_eq!(number(&[], 0), 1);
        assert_eq!(number(&[1, 2, big], 3), 1);
        assert_eq!(number(&vec![0; 2_097_152], 2_097_152), 1);
        assert_eq!(number(&vec![0; 1_048_577], 1_048_577), 1);
        assert_eq!(number(&vec![big; 1_048_576], 1_048_576), 9);
        assert_eq!(number(&[1, big], 3), 3);
        assert_eq!(number(&[1, big], 2), 9);
        assert_eq!(number(&[1, -big], 2), 9);
        assert_eq!(number(&[1, i32::MAX], 2), 9);
        assert_eq!(number(&[1, i32::MIN], 2), 9);
    }

    fn refusals_on_the_way_back<const P: u32>() {
        let p = P;
        let answer = |message: &[u32], result: usize, work: usize| {
            let mut clearances = vec![7; result];
            let mut work = vec![8; work];
            let answer =
                coefficients_to_table(Field::of(P), ONE, message, &mut clearances, &mut work);
            assert!(clearances.iter().all(|&x| x == 7) && work.iter().all(|&x| x == 8));
            (answer.number, answer.first, answer.second)
        };
        assert_eq!(answer(&[], 0, 0), (1, 0, 0));
        assert_eq!(answer(&[p, 0, 0], 1, 1), (1, 0, 0));
        assert_eq!(answer(&[p, 0], 1, 2), (3, 0, 0));
        assert_eq!(answer(&[p, 0], 2, 1), (3, 0, 0));
        assert_eq!(answer(&[p, 0], 2, 2), (4, 0, 4));
        assert_eq!(answer(&[0, p + 1], 2, 2), (4, 1, 4));
    }
}
