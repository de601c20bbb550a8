//! The polynomial and its code: evaluation, encoding, decoding, folding.

#[cfg(feature = "alloc")]
use alloc::{vec, vec::Vec};

use crate::clearance::{to_coefficients, to_table};
use crate::field::Field;
use crate::input::Input;
use crate::parameters::Parameters;
use crate::raw;
use crate::refusal::{done, done_with, Refusal};

/// The code that planner and cell agree on. Whoever draws its row and diagonals keeps them; they
/// are lent to each call.
#[derive(Clone, Copy, PartialEq, Eq, Debug)]
#[non_exhaustive]
pub struct Code<'a> {
    /// The field of all its words, and of the messages, blocks and openings that it is used with.
    pub field: Field,
    /// The number of levels, 0 to [`MAX_DEPTH`](crate::MAX_DEPTH), and less than that for larger `k0`. A
    /// message has k0 * 2^depth words.
    pub depth: u32,
    /// The words of a block for each word of a message, [`MIN_RATE`](crate::MIN_RATE) to
    /// [`MAX_RATE`](crate::MAX_RATE).
    pub rate: u32,
    /// The words of a base message: 1, 2 or 4.
    pub k0: u32,
    /// The base rows, one after another, as many as a base message has words. One row has `rate` words, none
    /// of them 0; two or four have `rate * k0` words each, and their first `k0` columns have an inverse.
    pub g: &'a [u32],
    /// The first diagonal of every level, [`diagonals_len`](crate::diagonals_len) words.
    pub t: &'a [u32],
    /// The second diagonal of every level, different from the first in every place.
    pub t2: &'a [u32],
}

impl<'a> Code<'a> {
    /// A code with base messages of one word. Nothing is judged here: the jobs do that.
    ///
    /// ```
    /// use tvarchula::{Code, Field};
    /// let (t, t2) = ([2, 3], [2147483645, 2147483644]);
    /// let code = Code::new(Field::Mersenne31, 1, 2, &[1, 1], &t, &t2);
    /// assert_eq!((code.depth, code.rate), (1, 2));
    /// ```
    #[must_use]
    pub const fn new(
        field: Field,
        depth: u32,
        rate: u32,
        g: &'a [u32],
        t: &'a [u32],
        t2: &'a [u32],
    ) -> Code<'a> {
        Code {
            field,
            depth,
            rate,
            k0: 1,
            g,
            t,
            t2,
        }
    }

    /// The same with base messages of so many words, and as many base rows in `g`.
    ///
    /// ```
    /// use tvarchula::{encode, Code, Field};
    /// // Two rows: the base message a, b has the codeword a, b, a + b, a + 2 b.
    /// let g = [1, 0, 1, 1, 0, 1, 1, 2];
    /// let code = Code::new(Field::Mersenne31, 0, 2, &g, &[], &[]).with_base_words(2);
    /// let mut block = [0; 4];
    /// encode(&code, &[5, 7], &mut block)?;
    /// assert_eq!(block, [5, 7, 12, 19]);
    /// # Ok::<(), tvarchula::Refusal>(())
    /// ```
    #[must_use]
    pub const fn with_base_words(self, k0: u32) -> Code<'a> {
        Code { k0, ..self }
    }

    /// Depth, rate and k0, from which all lengths follow.
    #[must_use]
    pub const fn parameters(&self) -> Parameters {
        Parameters::new(self.depth, self.rate).with_base_words(self.k0)
    }

    /// [`table_to_coefficients`](crate::table_to_coefficients) of a table with at least `k0` entries.
    ///
    /// # Errors
    ///
    /// Those of [`table_to_coefficients`](crate::table_to_coefficients), and [`Refusal::BaseWords`].
    pub fn table_to_coefficients(
        &self,
        clearances: &[i32],
        message: &mut [u32],
    ) -> Result<(), Refusal> {
        to_coefficients(self.field, self.parameters(), clearances, message)
    }

    /// [`coefficients_to_table`](crate::coefficients_to_table) of a message with at least `k0` words.
    ///
    /// # Errors
    ///
    /// Those of [`coefficients_to_table`](crate::coefficients_to_table), and [`Refusal::BaseWords`].
    pub fn coefficients_to_table(
        &self,
        message: &[u32],
        clearances: &mut [i32],
        work: &mut [u32],
    ) -> Result<(), Refusal> {
        to_table(self.field, self.parameters(), message, clearances, work)
    }

    /// [`evaluate`] of a message of this code: `z` has a word for each variable, the low ones of a base
    /// message first.
    ///
    /// # Errors
    ///
    /// Those of [`evaluate`], and [`Refusal::BaseWords`].
    ///
    /// ```
    /// use tvarchula::{Code, Field};
    /// let code = Code::new(Field::Mersenne31, 1, 2, &[], &[], &[]).with_base_words(2);
    /// // 1 + 2 X_0 + 3 X_1 + 4 X_0 X_1, where X_0 is the low variable
    /// assert_eq!(code.evaluate(&[1, 2, 3, 4], &[3, 4]), Ok(67));
    /// ```
    pub fn evaluate(&self, message: &[u32], z: &[u32]) -> Result<u32, Refusal> {
        value(self.field, self.parameters(), message, z)
    }

    /// [`fold`] of a block of a level of this code, under the diagonals of the level below: `level` is the upper
    /// one, from 1 to the depth.
    ///
    /// # Errors
    ///
    /// Those of [`fold`], and [`Refusal::BaseWords`]. [`Refusal::Length`] also where the diagonals of the code
    /// have not that level; an index in `t` or `t2` counts from where the level begins.
    pub fn fold(
        &self,
        level: u32,
        block: &[u32],
        challenge: u32,
        folded: &mut [u32],
    ) -> Result<(), Refusal> {
        let sizes = Parameters::new(level, self.rate).with_base_words(self.k0);
        let below = Parameters::new(level.saturating_sub(1), self.rate).with_base_words(self.k0);
        let lies = below.diagonals_len()..sizes.diagonals_len();
        let diagonal = |words: &'a [u32]| words.get(lies.clone()).unwrap_or(&[]);
        let (t, t2) = (diagonal(self.t), diagonal(self.t2));
        folded_by(self.field, sizes, [t, t2], block, challenge, folded)
    }

    /// What a call lends of it, for the place of a refusal.
    pub(crate) const fn lent(&self) -> [(Input, &'a [u32]); 3] {
        [(Input::G, self.g), (Input::T, self.t), (Input::T2, self.t2)]
    }
}

/// The value at `z` of the polynomial whose coefficients the message holds: word b multiplies those
/// variables whose bit in b is set, and word i of `z` is variable i. [`Code::evaluate`] is for any code.
///
/// # Errors
///
/// [`Refusal::Depth`], [`Refusal::Length`], [`Refusal::Word`].
///
/// ```
/// use tvarchula::{evaluate, Field};
/// assert_eq!(evaluate(Field::Mersenne31, 1, &[5, 7], &[3]), Ok(26)); // 5 + 7 * 3
/// // 7 * 287609418 is 2013265926, and that is 5 in the second field.
/// assert_eq!(evaluate(Field::BabyBear, 1, &[5, 7], &[287609418]), Ok(10));
/// ```
pub fn evaluate(field: Field, depth: u32, message: &[u32], z: &[u32]) -> Result<u32, Refusal> {
    value(field, Parameters::new(depth, 0), message, z)
}

/// The same of a record, of which the rate does not matter.
fn value(field: Field, sizes: Parameters, message: &[u32], z: &[u32]) -> Result<u32, Refusal> {
    let mut value = 0;
    let answer = raw::evaluate(field, sizes, message, z, &mut value);
    done(field, answer, &[(Input::Block, message), (Input::Z, z)])?;
    Ok(value)
}

/// Writes the codeword of a message, [`block_len`](Parameters::block_len)`(depth)` words: the commitment.
///
/// # Errors
///
/// [`Refusal::Depth`], [`Refusal::Rate`], [`Refusal::BaseWords`], [`Refusal::Length`], [`Refusal::Word`],
/// [`Refusal::BaseRow`] or [`Refusal::BaseRows`], [`Refusal::Diagonals`].
///
/// ```
/// use tvarchula::{encode, Code, Field};
/// let (t, t2) = ([2, 3], [2147483645, 2147483644]);
/// let code = Code::new(Field::Mersenne31, 1, 2, &[1, 1], &t, &t2);
/// let mut block = [0; 4];
/// encode(&code, &[5, 7], &mut block)?;
/// assert_eq!(block, [19, 26, 2147483638, 2147483631]);
/// # Ok::<(), tvarchula::Refusal>(())
/// ```
pub fn encode(code: &Code<'_>, message: &[u32], block: &mut [u32]) -> Result<(), Refusal> {
    let [g, t, t2] = code.lent();
    let answer = raw::encode(code, message, block);
    done_with(code, answer, &[g, t, t2, (Input::Block, message)])
}

/// [`encode`] into a new vector.
///
/// # Errors
///
/// As [`encode`].
#[cfg(feature = "alloc")]
pub fn encode_vec(code: &Code<'_>, message: &[u32]) -> Result<Vec<u32>, Refusal> {
    let mut block = vec![0; code.parameters().block_len(code.depth)];
    encode(code, message, &mut block)?;
    Ok(block)
}

/// Writes the message of a codeword. `work` is as long as the block.
///
/// # Errors
///
/// Those of [`encode`], and [`Refusal::NoCodeword`] for every other block.
///
/// ```
/// use tvarchula::{decode, Code, Field, Refusal};
/// let (t, t2) = ([2, 3], [2147483645, 2147483644]);
/// let code = Code::new(Field::Mersenne31, 1, 2, &[1, 1], &t, &t2);
/// let (mut message, mut work) = ([0; 2], [0; 4]);
/// decode(&code, &[19, 26, 2147483638, 2147483631], &mut message, &mut work)?;
/// assert_eq!(message, [5, 7]);
///
/// let damaged = [19, 26, 2147483638, 2147483632];
/// let refused = decode(&code, &damaged, &mut message, &mut work);
/// assert_eq!(refused, Err(Refusal::NoCodeword));
/// # Ok::<(), Refusal>(())
/// ```
pub fn decode(
    code: &Code<'_>,
    block: &[u32],
    message: &mut [u32],
    work: &mut [u32],
) -> Result<(), Refusal> {
    let [g, t, t2] = code.lent();
    let answer = raw::decode(code, block, message, work);
    done_with(code, answer, &[g, t, t2, (Input::Block, block)])
}

/// [`decode`] into a new vector.
///
/// # Errors
///
/// As [`decode`].
#[cfg(feature = "alloc")]
pub fn decode_vec(code: &Code<'_>, block: &[u32]) -> Result<Vec<u32>, Refusal> {
    let sizes = code.parameters();
    let mut message = vec![0; sizes.message_len()];
    let mut work = vec![0; sizes.block_len(code.depth)];
    decode(code, block, &mut message, &mut work)?;
    Ok(message)
}

/// Folds a block of a level to the one below. At place j that is the value at the challenge of the
/// straight line through the block's words j and j + n, which stand at `t[j]` and `t2[j]`.
///
/// `level` is the upper one, from 1; `t`, `t2` and `folded` have the n words of the level below. This is for
/// base messages of one word; [`Code::fold`] is for any code.
///
/// # Errors
///
/// [`Refusal::Depth`], [`Refusal::Rate`], [`Refusal::Length`], [`Refusal::Word`],
/// [`Refusal::Diagonals`].
///
/// ```
/// use tvarchula::{fold, Field};
/// let (t, t2) = ([2, 3], [2147483645, 2147483644]);
/// let block = [19, 26, 2147483638, 2147483631];
/// let mut folded = [0; 2];
/// fold(Field::Mersenne31, 1, 2, &t, &t2, &block, 4, &mut folded)?;
/// assert_eq!(folded, [33, 33]);
/// # Ok::<(), tvarchula::Refusal>(())
/// ```
#[allow(clippy::too_many_arguments)] // a fold is of one level, and no Code has it alone
pub fn fold(
    field: Field,
    level: u32,
    rate: u32,
    t: &[u32],
    t2: &[u32],
    block: &[u32],
    challenge: u32,
    folded: &mut [u32],
) -> Result<(), Refusal> {
    let sizes = Parameters::new(level, rate);
    folded_by(field, sizes, [t, t2], block, challenge, folded)
}

/// The same of a record, whose depth is the upper level.
fn folded_by(
    field: Field,
    sizes: Parameters,
    [t, t2]: [&[u32]; 2],
    block: &[u32],
    challenge: u32,
    folded: &mut [u32],
) -> Result<(), Refusal> {
    let lent: [(Input, &[u32]); 4] = [
        (Input::T, t),
        (Input::T2, t2),
        (Input::Block, block),
        (Input::R, &[challenge]),
    ];
    let answer = raw::fold(field, sizes, t, t2, block, challenge, folded);
    done(field, answer, &lent)
}

/// [`fold`] into a new vector.
///
/// # Errors
///
/// As [`fold`].
#[cfg(feature = "alloc")]
pub fn fold_vec(
    field: Field,
    level: u32,
    rate: u32,
    t: &[u32],
    t2: &[u32],
    block: &[u32],
    challenge: u32,
) -> Result<Vec<u32>, Refusal> {
    let mut folded = vec![0; crate::block_len(level.saturating_sub(1), rate)];
    fold(field, level, rate, t, t2, block, challenge, &mut folded)?;
    Ok(folded)
}
