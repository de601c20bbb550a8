//! What a verifier answers.

use core::error::Error;
use core::fmt;

use tvarchula_sys::{self as sys, tv_answer};

use crate::code::Code;
use crate::refusal::{done_with, Lent, Refusal};

/// The verdict on an opening that is well formed.
#[derive(Clone, Copy, PartialEq, Eq, Hash, Debug)]
#[must_use = "nothing is known of the claimed value unless the opening is accepted"]
#[non_exhaustive]
pub enum Verdict {
    /// Every check holds.
    Accepted,
    /// This check is the first that fails.
    Rejected(Failure),
}

/// A check that fails, in the order in which they are made.
#[derive(Clone, Copy, PartialEq, Eq, Hash, Debug)]
#[non_exhaustive]
pub enum Failure {
    /// 20: the sum check of round i, from depth down to 1.
    Sum(u32),
    /// 21: the final check.
    Final,
    /// 22: the base check at place j.
    Base(u32),
    /// 23: a fold check.
    Fold {
        /// The query's position in the list, from 0.
        query: u32,
        /// The lower level of the step, from depth - 1 down to 0.
        level: u32,
    },
}

/// Why an opening is not accepted.
#[derive(Clone, Copy, PartialEq, Eq, Hash, Debug)]
#[non_exhaustive]
pub enum VerifyError {
    /// Something lent is not well formed: nothing was checked.
    Refused(Refusal),
    /// All is well formed, and this check is the first that fails: the claimed value is not shown.
    Rejected(Failure),
}

impl Verdict {
    /// Whether every check holds.
    #[must_use]
    pub const fn is_accepted(self) -> bool {
        matches!(self, Verdict::Accepted)
    }

    /// The number that C sees: 0 when accepted, else the failure's.
    #[must_use]
    pub const fn number(self) -> u32 {
        match self {
            Verdict::Accepted => sys::TV_ACCEPTED,
            Verdict::Rejected(failure) => failure.number(),
        }
    }

    /// The verdict as a result.
    ///
    /// # Errors
    ///
    /// The check that fails, when the opening is rejected.
    ///
    /// ```
    /// use tvarchula::{Failure, Verdict};
    /// assert_eq!(Verdict::Accepted.into_result(), Ok(()));
    /// let rejected = Verdict::Rejected(Failure::Final);
    /// assert_eq!(rejected.into_result(), Err(Failure::Final));
    /// ```
    pub const fn into_result(self) -> Result<(), Failure> {
        match self {
            Verdict::Accepted => Ok(()),
            Verdict::Rejected(failure) => Err(failure),
        }
    }
}

impl Failure {
    /// The number that C sees, 20 to 23.
    #[must_use]
    pub const fn number(self) -> u32 {
        match self {
            Failure::Sum(_) => sys::TV_FAILED_SUM,
            Failure::Final => sys::TV_FAILED_FINAL,
            Failure::Base(_) => sys::TV_FAILED_BASE,
            Failure::Fold { .. } => sys::TV_FAILED_FOLD,
        }
    }
}

impl VerifyError {
    /// The number that C sees.
    #[must_use]
    pub const fn number(self) -> u32 {
        match self {
            VerifyError::Refused(refusal) => refusal.number(),
            VerifyError::Rejected(failure) => failure.number(),
        }
    }
}

impl From<Refusal> for VerifyError {
    fn from(refusal: Refusal) -> VerifyError {
        VerifyError::Refused(refusal)
    }
}

impl From<Failure> for VerifyError {
    fn from(failure: Failure) -> VerifyError {
        VerifyError::Rejected(failure)
    }
}

impl fmt::Display for Verdict {
    fn fmt(&self, f: &mut fmt::Formatter<'_>) -> fmt::Result {
        match self {
            Verdict::Accepted => f.write_str("accepted"),
            Verdict::Rejected(failure) => write!(f, "rejected: {failure}"),
        }
    }
}

impl fmt::Display for Failure {
    fn fmt(&self, f: &mut fmt::Formatter<'_>) -> fmt::Result {
        match self {
            Failure::Sum(i) => write!(f, "round {i} does not sum to the value claimed before it"),
            Failure::Final => f.write_str("the final value does not fit the last claim"),
            Failure::Base(j) => write!(f, "the lowest block does not fit the final value at {j}"),
            Failure::Fold { query, level } => {
                write!(f, "query {query} finds a wrong fold to level {level}")
            }
        }
    }
}

impl fmt::Display for VerifyError {
    fn fmt(&self, f: &mut fmt::Formatter<'_>) -> fmt::Result {
        match self {
            VerifyError::Refused(refusal) => write!(f, "refused: {refusal}"),
            VerifyError::Rejected(failure) => write!(f, "rejected: {failure}"),
        }
    }
}

impl Error for Failure {}

impl Error for VerifyError {}

/// The verdict from what the verifier answers of a call. Only 0 accepts; a number that is neither a
/// failure nor a refusal known here, or that stands with a place it does not name, is refused as unknown.
pub(crate) fn verdict_of(
    code: &Code<'_>,
    answer: tv_answer,
    lent: Lent<'_>,
) -> Result<Verdict, Refusal> {
    Ok(Verdict::Rejected(
        match (answer.number, answer.first, answer.second) {
            (sys::TV_FAILED_SUM, i, 0) => Failure::Sum(i),
            (sys::TV_FAILED_FINAL, 0, 0) => Failure::Final,
            (sys::TV_FAILED_BASE, j, 0) => Failure::Base(j),
            (sys::TV_FAILED_FOLD, query, level) => Failure::Fold { query, level },
            _ => return done_with(code, answer, lent).map(|()| Verdict::Accepted),
        },
    ))
}

#[cfg(test)]
mod tests {
    use super::*;

    use crate::field::Field;
    use crate::input::Input;

    fn answered(number: u32, first: u32, second: u32) -> Result<Verdict, Refusal> {
        let answer = tv_answer {
            number,
            first,
            second,
        };
        let code = Code::new(Field::BabyBear, 1, 2, &[], &[], &[]);
        verdict_of(&code, answer, &[(Input::Y, &[u32::MAX])])
    }

    #[test]
    fn only_0_is_accepted() {
        for number in (0..100).chain([u32::MAX]) {
            for (first, second) in [(0, 0), (1, 0), (0, 1), (1, 2)] {
                let verdict = answered(number, first, second);
                let accepted = (number, first, second) == (0, 0, 0);
                assert_eq!(verdict == Ok(Verdict::Accepted), accepted);
                let found = verdict.map_or_else(Refusal::number, Verdict::number);
                assert_eq!(found, number);
            }
        }
    }

    #[test]
    fn places() {
        let rejected = |failure| Ok(Verdict::Rejected(failure));
        assert_eq!(answered(20, 3, 0), rejected(Failure::Sum(3)));
        assert_eq!(answered(21, 0, 0), rejected(Failure::Final));
        assert_eq!(answered(22, 5, 0), rejected(Failure::Base(5)));
        let fold = Failure::Fold { query: 7, level: 2 };
        assert_eq!(answered(23, 7, 2), rejected(fold));
        let refused = Refusal::Word {
            field: Field::BabyBear,
            input: Input::Y,
            index: 0,
            word: u32::MAX,
        };
        assert_eq!(answered(4, 0, 6), Err(refused));
        for (number, first, second) in [(20, 3, 1), (21, 1, 0), (22, 5, 1), (4, 1, 6), (11, 1, 0)] {
            let unknown = Refusal::Unknown { number, kind: 0 };
            assert_eq!(answered(number, first, second), Err(unknown));
        }
    }
}
