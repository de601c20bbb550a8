//! Openings: writing one and verifying one.

#[cfg(feature = "alloc")]
use alloc::{vec, vec::Vec};

use crate::code::Code;
use crate::input::Input;
use crate::raw;
use crate::refusal::{done_with, Refusal};
use crate::verdict::{verdict_of, Verdict, VerifyError};

/// What an opening answers. `z` has a word for each variable, word i for variable i; `r` has one for each level,
/// which with base messages of one word is the same. Else the low variables, of which a base message of two
/// words has one and one of four has two, come first in `z`, and word i of `r` is for the variable that many
/// places higher.
#[derive(Clone, Copy, PartialEq, Eq, Debug)]
pub struct Question<'a> {
    /// The point at which the polynomial is asked for. Entry b of a table stands at the corner where
    /// variable i is bit i of b.
    pub z: &'a [u32],
    /// The challenges. The planner could not foresee them when it committed.
    pub r: &'a [u32],
}

/// What an opening has to show: that the committed polynomial has the value `y` at `z`.
///
/// `z` and `r` are those of the [`Question`].
#[derive(Clone, Copy, PartialEq, Eq, Debug)]
pub struct Claim<'a> {
    /// The point at which the polynomial is asked for.
    pub z: &'a [u32],
    /// The value claimed there.
    pub y: u32,
    /// The challenges under which the opening was written.
    pub r: &'a [u32],
    /// The places at which folds are checked: 1 to [`MAX_QUERIES`](crate::MAX_QUERIES) places below
    /// [`block_len`](crate::Parameters::block_len)`(depth - 1)`, each different from all others; at depth 0
    /// none. The planner could not foresee them when it wrote the opening.
    pub queries: &'a [u32],
}

/// Writes an opening of the message, and returns the value at `z`.
///
/// `opening` has [`opening_len`](crate::Parameters::opening_len) words, and `work` twice
/// [`message_len`](crate::Parameters::message_len).
///
/// # Errors
///
/// [`Refusal::Depth`], [`Refusal::Rate`], [`Refusal::BaseWords`], [`Refusal::Length`], [`Refusal::Word`],
/// [`Refusal::BaseRow`] or [`Refusal::BaseRows`], [`Refusal::Diagonals`].
///
/// ```
/// use tvarchula::{write_opening, Code, Field, Question};
/// let (t, t2) = ([2, 3], [2147483645, 2147483644]);
/// let code = Code::new(Field::Mersenne31, 1, 2, &[1, 1], &t, &t2);
/// let question = Question { z: &[3], r: &[4] };
/// let (mut opening, mut work) = ([0; 6], [0; 4]);
/// let value = write_opening(&code, &[5, 7], &question, &mut opening, &mut work)?;
/// assert_eq!(value, 26);
/// assert_eq!(opening, [2147483637, 36, 152, 33, 33, 33]);
/// # Ok::<(), tvarchula::Refusal>(())
/// ```
pub fn write_opening(
    code: &Code<'_>,
    message: &[u32],
    question: &Question<'_>,
    opening: &mut [u32],
    work: &mut [u32],
) -> Result<u32, Refusal> {
    let mut value = 0;
    let [g, t, t2] = code.lent();
    let (z, r) = ((Input::Z, question.z), (Input::R, question.r));
    let answer = raw::write_opening(code, message, question, opening, work, &mut value);
    let lent = [g, t, t2, (Input::Block, message), z, r];
    done_with(code, answer, &lent)?;
    Ok(value)
}

/// [`write_opening`] into a new vector: the opening and the value.
///
/// # Errors
///
/// As [`write_opening`].
#[cfg(feature = "alloc")]
pub fn write_opening_vec(
    code: &Code<'_>,
    message: &[u32],
    question: &Question<'_>,
) -> Result<(Vec<u32>, u32), Refusal> {
    let sizes = code.parameters();
    let mut opening = vec![0; sizes.opening_len()];
    let mut work = vec![0; 2 * sizes.message_len()];
    let value = write_opening(code, message, question, &mut opening, &mut work)?;
    Ok((opening, value))
}

/// Accepts an opening only when every check of it holds: then it shows the claim.
///
/// `block` is the commitment, [`block_len`](crate::Parameters::block_len)`(depth)` words.
///
/// # Errors
///
/// [`VerifyError::Rejected`] with the first check that fails, when all is well formed.
/// [`VerifyError::Refused`] with [`Refusal::Depth`], [`Refusal::Rate`], [`Refusal::BaseWords`],
/// [`Refusal::Length`], [`Refusal::Word`], [`Refusal::BaseRow`], [`Refusal::BaseRows`],
/// [`Refusal::Diagonals`], [`Refusal::Queries`] or [`Refusal::Repeated`].
///
/// ```
/// use tvarchula::{verify_opening, Claim, Code, Failure, Field, Refusal, VerifyError};
/// let (t, t2) = ([2, 3], [2147483645, 2147483644]);
/// let code = Code::new(Field::Mersenne31, 1, 2, &[1, 1], &t, &t2);
/// let block = [19, 26, 2147483638, 2147483631];
/// let opening = [2147483637, 36, 152, 33, 33, 33];
/// let claim = Claim { z: &[3], y: 26, r: &[4], queries: &[0, 1] };
/// assert_eq!(verify_opening(&code, &block, &claim, &opening), Ok(()));
///
/// let forged = Claim { y: 27, ..claim };
/// let rejected = Err(VerifyError::Rejected(Failure::Sum(1)));
/// assert_eq!(verify_opening(&code, &block, &forged, &opening), rejected);
///
/// let twice = Claim { queries: &[1, 1], ..claim };
/// let refused = Err(VerifyError::Refused(Refusal::Repeated));
/// assert_eq!(verify_opening(&code, &block, &twice, &opening), refused);
/// ```
///
/// Nobody can overlook the answer:
///
/// ```compile_fail
/// #![deny(unused_must_use)]
/// # use tvarchula::{verify_opening, Claim, Code};
/// # fn cell(code: &Code<'_>, block: &[u32], claim: &Claim<'_>, opening: &[u32]) {
/// verify_opening(code, block, claim, opening);
/// # }
/// ```
///
/// ```
/// #![deny(unused_must_use)]
/// # use tvarchula::{verify_opening, Claim, Code, VerifyError};
/// # fn cell(code: &Code<'_>, block: &[u32], claim: &Claim<'_>, opening: &[u32])
/// #     -> Result<(), VerifyError> {
/// verify_opening(code, block, claim, opening)?;
/// # Ok(())
/// # }
/// ```
#[must_use = "only `Ok` accepts the opening"]
pub fn verify_opening(
    code: &Code<'_>,
    block: &[u32],
    claim: &Claim<'_>,
    opening: &[u32],
) -> Result<(), VerifyError> {
    Ok(verdict(code, block, claim, opening)?.into_result()?)
}

/// [`verify_opening`] with refusals and verdicts apart, for callers that treat them differently. An
/// opening that is rejected is `Ok` here: use [`verify_opening`] where only acceptance matters.
///
/// # Errors
///
/// The refusals of [`verify_opening`].
///
/// ```
/// use tvarchula::{verdict, Claim, Code, Failure, Field, Verdict};
/// let (t, t2) = ([2, 3], [2147483645, 2147483644]);
/// let code = Code::new(Field::Mersenne31, 1, 2, &[1, 1], &t, &t2);
/// let block = [19, 26, 2147483638, 2147483631];
/// let opening = [2147483637, 36, 152, 33, 33, 33];
/// let claim = Claim { z: &[3], y: 27, r: &[4], queries: &[0, 1] };
/// let verdict = verdict(&code, &block, &claim, &opening);
/// assert_eq!(verdict, Ok(Verdict::Rejected(Failure::Sum(1))));
/// ```
///
/// A verdict that nobody looks at is a warning, after `?` too:
///
/// ```compile_fail
/// #![deny(unused_must_use)]
/// # use tvarchula::{verdict, Claim, Code, Refusal};
/// # fn cell(code: &Code<'_>, block: &[u32], claim: &Claim<'_>, opening: &[u32])
/// #     -> Result<(), Refusal> {
/// verdict(code, block, claim, opening)?;
/// # Ok(())
/// # }
/// ```
pub fn verdict(
    code: &Code<'_>,
    block: &[u32],
    claim: &Claim<'_>,
    opening: &[u32],
) -> Result<Verdict, Refusal> {
    let [g, t, t2] = code.lent();
    let lent: [(Input, &[u32]); 8] = [
        g,
        t,
        t2,
        (Input::Block, block),
        (Input::Z, claim.z),
        (Input::Y, &[claim.y]),
        (Input::R, claim.r),
        (Input::Opening, opening),
    ];
    let answer = raw::verify_opening(code, block, claim, opening);
    verdict_of(code, answer, &lent)
}
