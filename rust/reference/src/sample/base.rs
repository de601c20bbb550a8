//! Base rows whose first columns have a rank that is known before anything is eliminated.

use super::{Rng, Style};
use crate::layout::Layout;

impl Rng {
    /// Base rows, one after another, whose first k0 columns have exactly this rank; they are legal just
    /// when it is k0. The other columns are any.
    ///
    /// The columns are L * U in shuffled order: L has `rank` columns, ones on its diagonal and zeros
    /// above it, U has `rank` rows, no zero on its diagonal and zeros below it. So each factor has that
    /// rank, and the product has it too.
    pub fn base_rows(&mut self, layout: &Layout, rank: usize, style: Style) -> Vec<u32> {
        let (size, length) = (layout.k0, layout.block(0));
        let lower = self.corner(size, rank, style, |_| 1);
        let upper = self.corner(size, rank, style, |rng| rng.non_zero(style));
        let p = u64::from(self.field.modulus());
        let product = |row: usize, column: usize| {
            let terms = lower[row].iter().zip(&upper[column]);
            let sum = terms.fold(0, |sum, (&a, &b)| (sum + u64::from(a) * u64::from(b)) % p);
            sum as u32
        };
        let (rows, columns) = (self.places(size, size), self.places(size, size));
        let mut g = Vec::with_capacity(size * length);
        for &row in &rows {
            g.extend(columns.iter().map(|&c| product(row as usize, c as usize)));
            g.extend(self.words(length - size, style));
        }
        g
    }

    /// `size` rows of `width` words, with zeros after the diagonal and on it what `diagonal` draws.
    fn corner(
        &mut self,
        size: usize,
        width: usize,
        style: Style,
        diagonal: impl Fn(&mut Rng) -> u32,
    ) -> Vec<Vec<u32>> {
        let mut rows = vec![vec![0; width]; size];
        for (k, row) in rows.iter_mut().enumerate() {
            for (j, word) in row.iter_mut().take(k + 1).enumerate() {
                *word = if j == k {
                    diagonal(self)
                } else {
                    self.styled_word(style)
                };
            }
        }
        rows
    }
}
