//! A base row and diagonals of roots of unity, for the second field.

#[cfg(feature = "alloc")]
use alloc::{vec, vec::Vec};

#[cfg(feature = "alloc")]
use crate::code::Code;
use crate::field::Field;
use crate::parameters::Parameters;
use crate::raw;
use crate::refusal::{done, Refusal};
#[cfg(feature = "alloc")]
use crate::sizes::{block_len, diagonals_len};

/// Writes a base row and diagonals for [`Field::BabyBear`], the same ones at every call.
///
/// `g` has `rate` words and is all ones. `t` and `t2` have
/// [`diagonals_len`](crate::diagonals_len)`(depth, rate)` words: a level of n words of `t` is the
/// powers 0 to n - 1 of the root of unity of order 2 n, and `t2` is the negatives of `t`. The root of
/// order 2^27 is 31^15, and each one of half the order is the square of the one before.
///
/// With these the codeword of a message is that of a Reed-Solomon code: the values of one polynomial
/// in one variable, at the powers of the root whose order is the length of the block. Word b of the
/// message is the coefficient of the degree that has the `depth` bits of b in reversed order.
///
/// These are for base messages of one word. What the buffers hold before the call does not matter.
///
/// # Errors
///
/// [`Refusal::Depth`], [`Refusal::Rate`], [`Refusal::Length`], [`Refusal::NoPowerOfTwo`] for a rate
/// that is not 2, 4, 8 or 16.
///
/// ```
/// use tvarchula::{fill_roots, Refusal};
/// let (mut g, mut t, mut t2) = ([0; 2], [0; 2], [0; 2]);
/// fill_roots(1, 2, &mut g, &mut t, &mut t2)?;
/// assert_eq!(g, [1, 1]);
/// assert_eq!(t, [1, 1728404513]); // 31^15, squared 25 times
/// assert_eq!(t2, [2013265920, 284861408]);
///
/// let refused = fill_roots(1, 3, &mut [0; 3], &mut [0; 3], &mut [0; 3]);
/// assert_eq!(refused, Err(Refusal::NoPowerOfTwo));
/// # Ok::<(), Refusal>(())
/// ```
pub fn fill_roots(
    depth: u32,
    rate: u32,
    g: &mut [u32],
    t: &mut [u32],
    t2: &mut [u32],
) -> Result<(), Refusal> {
    let answer = raw::fill_roots(Parameters::new(depth, rate), g, t, t2);
    done(Field::BabyBear, answer, &[])
}

/// [`fill_roots`] into new vectors: a code over [`Field::BabyBear`] that nobody has to draw.
///
/// ```
/// use tvarchula::{encode_vec, Field, Refusal, Roots};
/// let roots = Roots::new(1, 2)?;
/// let code = roots.code();
/// assert_eq!((code.field, code.depth, code.rate), (Field::BabyBear, 1, 2));
/// // 5 + 7 X at 1, w, -1 and -w, where w is 1728404513 and its square is -1.
/// let block = encode_vec(&code, &[5, 7])?;
/// assert_eq!(block, [12, 19236070, 2013265919, 1994029861]);
///
/// assert_eq!(Roots::new(1, 3), Err(Refusal::NoPowerOfTwo));
/// # Ok::<(), Refusal>(())
/// ```
#[cfg(feature = "alloc")]
#[derive(Clone, PartialEq, Eq, Debug)]
pub struct Roots {
    depth: u32,
    rate: u32,
    g: Vec<u32>,
    t: Vec<u32>,
    t2: Vec<u32>,
}

#[cfg(feature = "alloc")]
impl Roots {
    /// The row and the diagonals of a depth and a rate.
    ///
    /// # Errors
    ///
    /// As [`fill_roots`], without [`Refusal::Length`].
    pub fn new(depth: u32, rate: u32) -> Result<Roots, Refusal> {
        let mut g = vec![0; block_len(0, rate)];
        let mut t = vec![0; diagonals_len(depth, rate)];
        let mut t2 = t.clone();
        fill_roots(depth, rate, &mut g, &mut t, &mut t2)?;
        Ok(Roots {
            depth,
            rate,
            g,
            t,
            t2,
        })
    }

    /// The code, to be lent to a call.
    #[must_use]
    pub fn code(&self) -> Code<'_> {
        let (depth, rate) = (self.depth, self.rate);
        Code::new(Field::BabyBear, depth, rate, &self.g, &self.t, &self.t2)
    }
}
