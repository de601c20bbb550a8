//! A code that was judged, and its generator matrix.

use crate::layout::Layout;
use crate::linear::Matrix;
use crate::residue::Residue;

/// A legal code.
#[derive(Clone, Debug)]
pub struct Code<const P: u32> {
    /// Depth, rate and k0.
    pub sizes: Layout,
    /// The base rows, one after another: one without a zero, or several whose first columns have an
    /// inverse.
    pub g: Vec<Residue<P>>,
    /// T, all levels.
    pub t: Vec<Residue<P>>,
    /// T', all levels, different from T in every place.
    pub t2: Vec<Residue<P>>,
}

impl<const P: u32> Code<P> {
    /// T_i.
    pub fn t(&self, level: usize) -> &[Residue<P>] {
        &self.t[self.sizes.diagonal(level)]
    }

    /// T'_i.
    pub fn t2(&self, level: usize) -> &[Residue<P>] {
        &self.t2[self.sizes.diagonal(level)]
    }

    /// The generator matrix of level 0: row b is for word b of a base message.
    pub fn base(&self) -> Matrix<P> {
        let rows = self.g.chunks(self.sizes.block(0));
        rows.map(<[_]>::to_vec).collect()
    }

    /// The first k0 columns of the base rows.
    pub fn leading(&self) -> Matrix<P> {
        let mut rows = self.base();
        rows.iter_mut().for_each(|row| row.truncate(self.sizes.k0));
        rows
    }

    /// The generator matrix of a level, row by row, built as its definition says: the base rows, and
    /// above them the blocks G, G over G*T, G*T'.
    pub fn matrix(&self, level: usize) -> Matrix<P> {
        if level == 0 {
            return self.base();
        }
        let lower = self.matrix(level - 1);
        let (t, t2) = (self.t(level - 1), self.t2(level - 1));
        let top = lower.iter().map(|row| [&row[..], &row[..]].concat());
        let bottom = lower
            .iter()
            .map(|row| [times(row, t), times(row, t2)].concat());
        top.chain(bottom).collect()
    }
}

/// The product place by place, which is a row times a diagonal matrix.
pub fn times<const P: u32>(row: &[Residue<P>], diagonal: &[Residue<P>]) -> Vec<Residue<P>> {
    assert_eq!(row.len(), diagonal.len());
    row.iter().zip(diagonal).map(|(&a, &b)| a * b).collect()
}

#[cfg(test)]
pub(crate) mod tests {
    use super::*;
    use crate::answer::Input;
    use crate::field::FIRST;
    use crate::judge;
    use crate::lent::LentCode;
    use crate::sample::{Rng, Style};

    /// A legal code of these sizes.
    pub fn sample_code<const P: u32>(rng: &mut Rng, layout: Layout, style: Style) -> Code<P> {
        let [g, t, t2] = rng.code(&layout, style);
        let lent = LentCode {
            field: rng.field(),
            parameters: layout.parameters(),
            g: &g,
            t: &t,
            t2: &t2,
        };
        lent.judge::<P, 0>(|_| Vec::new(), []).expect("legal").0
    }

    fn residues(words: &[u32]) -> Vec<Residue<FIRST>> {
        judge::words(Input::Block, words).unwrap()
    }

    #[test]
    fn matrix_of_the_order() {
        let code = Code {
            sizes: Layout::one(1, 2),
            g: residues(&[1, 1]),
            t: residues(&[2, 3]),
            t2: residues(&[2_147_483_645, 2_147_483_644]),
        };
        let rows = [
            residues(&[1, 1, 1, 1]),
            residues(&[2, 3, 2_147_483_645, 2_147_483_644]),
        ];
        assert_eq!(code.matrix(1), rows);
    }

    /// Two base rows of four words; every word by hand.
    #[test]
    fn matrix_over_two_base_rows() {
        let code = Code {
            sizes: Layout {
                depth: 1,
                rate: 2,
                k0: 2,
            },
            g: residues(&[1, 0, 1, 1, 0, 1, 1, 2]),
            t: residues(&[1, 2, 3, 4]),
            t2: residues(&[5, 6, 7, 8]),
        };
        let rows = [
            residues(&[1, 0, 1, 1, 1, 0, 1, 1]),
            residues(&[0, 1, 1, 2, 0, 1, 1, 2]),
            residues(&[1, 0, 3, 4, 5, 0, 7, 8]),
            residues(&[0, 2, 3, 8, 0, 6, 7, 16]),
        ];
        assert_eq!(code.matrix(1), rows);
    }
}
