//! Square matrices over a field, by elimination.

use crate::residue::Residue;

/// A matrix, row by row.
pub type Matrix<const P: u32> = Vec<Vec<Residue<P>>>;

/// The inverse of a square matrix, none when it has none: what is done to the rows until they are
/// those of the identity is done to the identity beside them.
pub fn inverse<const P: u32>(matrix: &[Vec<Residue<P>>]) -> Option<Matrix<P>> {
    let size = matrix.len();
    let beside = |(k, row): (usize, &Vec<Residue<P>>)| [&row[..], &unit(k, size)].concat();
    let mut rows: Matrix<P> = matrix.iter().enumerate().map(beside).collect();
    for k in 0..size {
        // The rows above are done: without a pivot below them column k depends on those before it.
        let pivot = (k..size).find(|&row| rows[row][k] != Residue::ZERO)?;
        rows.swap(k, pivot);
        let scale = rows[k][k].inverse()?;
        let row: Vec<_> = rows[k].iter().map(|&x| x * scale).collect();
        for other in &mut rows {
            let factor = other[k];
            subtract(other, factor, &row);
        }
        rows[k] = row;
    }
    Some(rows.into_iter().map(|row| row[size..].to_vec()).collect())
}

/// Row k of the identity.
fn unit<const P: u32>(k: usize, size: usize) -> Vec<Residue<P>> {
    let mut row = vec![Residue::ZERO; size];
    row[k] = Residue::ONE;
    row
}

fn subtract<const P: u32>(from: &mut [Residue<P>], factor: Residue<P>, row: &[Residue<P>]) {
    for (x, &y) in from.iter_mut().zip(row) {
        *x = *x - factor * y;
    }
}

/// A row of words times a matrix of as many rows.
pub fn row_times<const P: u32>(
    words: &[Residue<P>],
    matrix: &[Vec<Residue<P>>],
) -> Vec<Residue<P>> {
    assert_eq!(words.len(), matrix.len());
    let rows = || words.iter().zip(matrix);
    let column = |j: usize| rows().map(|(&word, row)| word * row[j]).sum();
    (0..matrix[0].len()).map(column).collect()
}

#[cfg(test)]
mod tests {
    use super::*;
    use crate::answer::Input;
    use crate::field::{Field, FIRST};
    use crate::judge;
    use crate::over_both;
    use crate::sample::{Rng, STYLES};

    over_both!(an_inverse_is_one_on_both_sides a_dependent_row_leaves_none two_by_two);

    fn residues(words: &[u32]) -> Vec<Residue<FIRST>> {
        judge::words(Input::Block, words).unwrap()
    }

    /// 2, 3 over 5, 7 has determinant -1: the inverse is -7, 3 over 5, -2.
    #[test]
    fn by_hand() {
        let p = FIRST;
        let found = inverse(&[residues(&[2, 3]), residues(&[5, 7])]);
        let due = vec![residues(&[p - 7, 3]), residues(&[5, p - 2])];
        assert_eq!(found, Some(due));
        // A zero in the corner asks for another pivot.
        let swap = vec![residues(&[0, 1]), residues(&[1, 0])];
        assert_eq!(inverse(&swap), Some(swap));
        assert_eq!(inverse(&[residues(&[2, 3]), residues(&[4, 6])]), None);
        assert_eq!(inverse(&[residues(&[0])]), None);
    }

    fn an_inverse_is_one_on_both_sides<const P: u32>() {
        let mut rng = Rng::new(Field::of(P), 40);
        for size in [1, 2, 3, 4, 7] {
            for style in STYLES {
                for _ in 0..100 {
                    let matrix: Matrix<P> = (0..size).map(|_| rng.residues(size, style)).collect();
                    let Some(inverse) = inverse(&matrix) else {
                        continue;
                    };
                    for k in 0..size {
                        assert_eq!(row_times(&matrix[k], &inverse), unit(k, size));
                        assert_eq!(row_times(&inverse[k], &matrix), unit(k, size));
                    }
                }
            }
        }
    }

    /// One row is a combination of the others: there is no inverse, whatever they are.
    fn a_dependent_row_leaves_none<const P: u32>() {
        let mut rng = Rng::new(Field::of(P), 41);
        for size in [1, 2, 4, 7] {
            for style in STYLES {
                for k in 0..size {
                    let mut matrix: Matrix<P> =
                        (0..size).map(|_| rng.residues(size, style)).collect();
                    let mut factors = rng.residues(size, style);
                    factors[k] = Residue::ZERO;
                    matrix[k] = row_times(&factors, &matrix);
                    assert_eq!(inverse(&matrix), None);
                }
            }
        }
    }

    /// Every matrix of 0, 1, 2, -1: there is an inverse just where the products across differ.
    fn two_by_two<const P: u32>() {
        let words = [0, 1, 2, P - 1].map(|word| Residue::<P>::new(word).unwrap());
        for number in 0..256 {
            let [a, b, c, d] = [0, 2, 4, 6].map(|shift| words[(number >> shift) % 4]);
            let found = inverse(&[vec![a, b], vec![c, d]]);
            assert_eq!(found.is_some(), a * d != b * c);
        }
    }
}
