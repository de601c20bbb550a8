//! What a call lends of a code, and its judging.

use crate::answer::{Input, Refusal};
use crate::code::Code;
use crate::field::Field;
use crate::judge;
use crate::layout::Layout;
use crate::parameters::Parameters;
use crate::residue::Residue;

/// The code as a call lends it: raw numbers and words.
#[derive(Clone, Copy, Debug)]
pub struct LentCode<'a> {
    /// Field.
    pub field: Field,
    /// Depth, rate and k0.
    pub parameters: Parameters,
    /// Base rows, one after another.
    pub g: &'a [u32],
    /// T, all levels.
    pub t: &'a [u32],
    /// T', all levels.
    pub t2: &'a [u32],
}

/// One level of the diagonals, as a call of folding lends it.
#[derive(Clone, Copy, Debug)]
pub struct LentLevel<'a> {
    /// Field.
    pub field: Field,
    /// Its depth is the upper level: the diagonals are those of the one below.
    pub parameters: Parameters,
    /// T of that level.
    pub t: &'a [u32],
    /// T' of that level.
    pub t2: &'a [u32],
}

impl LentCode<'_> {
    /// Refusals 1 to 6 and 13 of a call that lends the code and more: `lengths` gives the other slices'
    /// lengths, found and due; `read` is every other slice of words that is read, in the order of the
    /// inputs. The modulus is that of the lent field.
    pub fn judge<const P: u32, const N: usize>(
        &self,
        lengths: impl Fn(&Layout) -> Vec<(usize, usize)>,
        read: [(Input, &[u32]); N],
    ) -> Result<(Code<P>, [Vec<Residue<P>>; N]), Refusal> {
        assert_eq!(P, self.field.modulus());
        let sizes = judge_parameters(self.parameters)?;
        judge::lengths(&[
            (self.g.len(), sizes.rows()),
            (self.t.len(), sizes.diagonals()),
            (self.t2.len(), sizes.diagonals()),
        ])?;
        judge::lengths(&lengths(&sizes))?;
        let code = Code {
            sizes,
            g: judge::words(Input::G, self.g)?,
            t: judge::words(Input::T, self.t)?,
            t2: judge::words(Input::T2, self.t2)?,
        };
        let mut words = [(); N].map(|()| Vec::new());
        for (residues, (input, slice)) in words.iter_mut().zip(read) {
            *residues = judge::words(input, slice)?;
        }
        judge::rows(&code)?;
        judge::diagonals(&code.t, &code.t2)?;
        Ok((code, words))
    }
}

/// 1, 2 and 13 of a job that uses all three numbers.
fn judge_parameters(lent: Parameters) -> Result<Layout, Refusal> {
    let depth = judge::depth(lent.depth, lent.k0)?;
    let rate = judge::rate(lent.rate)?;
    let k0 = judge::k0(lent.k0)?;
    Ok(Layout { depth, rate, k0 })
}
