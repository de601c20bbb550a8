//! Clearances: reading one, and tables of them.

#[cfg(feature = "alloc")]
use alloc::{vec, vec::Vec};
use core::fmt;

use tvarchula_sys::{tv_reading, TV_CONTACT, TV_FREE, TV_OVERLAP};

use crate::field::Field;
use crate::input::Input;
use crate::parameters::Parameters;
use crate::raw;
use crate::refusal::{done, Refusal};

/// What a residue says as a clearance, in micrometres. Only a free one may be passed
/// ([`is_free`](Reading::is_free)).
#[derive(Clone, Copy, PartialEq, Eq, Hash, Debug)]
#[non_exhaustive]
pub enum Reading {
    /// Free, with this distance, which is above zero.
    Free(u32),
    /// Contact: at distance zero the parcels touch, and must not be passed.
    Contact,
    /// An overlap of this amount, which is above zero.
    Overlap(u32),
}

impl Reading {
    /// Whether it may be passed: free, and neither contact nor an overlap.
    ///
    /// ```
    /// use tvarchula::Reading;
    /// assert!(Reading::Free(1).is_free());
    /// assert!(!Reading::Contact.is_free());
    /// assert!(!Reading::Overlap(1).is_free());
    /// ```
    #[must_use]
    pub const fn is_free(self) -> bool {
        matches!(self, Reading::Free(_))
    }

    /// The clearance as it stands in a table: zero for contact, negative for an overlap.
    ///
    /// ```
    /// use tvarchula::Reading;
    /// assert_eq!(Reading::Free(1250).micrometres(), 1250);
    /// assert_eq!(Reading::Contact.micrometres(), 0);
    /// assert_eq!(Reading::Overlap(300).micrometres(), -300);
    /// ```
    #[must_use]
    pub const fn micrometres(self) -> i64 {
        match self {
            Reading::Free(distance) => distance as i64,
            Reading::Contact => 0,
            Reading::Overlap(amount) => -(amount as i64),
        }
    }
}

impl fmt::Display for Reading {
    fn fmt(&self, f: &mut fmt::Formatter<'_>) -> fmt::Result {
        match self {
            Reading::Free(distance) => write!(f, "{distance} micrometres free"),
            Reading::Contact => f.write_str("contact, must not be passed"),
            Reading::Overlap(amount) => {
                write!(f, "{amount} micrometres of overlap, must not be passed")
            }
        }
    }
}

/// Reads a word as a clearance.
///
/// # Errors
///
/// [`Refusal::Word`] for a word that is no residue.
///
/// ```
/// use tvarchula::{read_clearance, Field, Input, Reading, Refusal};
/// let field = Field::BabyBear;
/// assert_eq!(read_clearance(field, 1250), Ok(Reading::Free(1250)));
/// assert_eq!(read_clearance(field, 0), Ok(Reading::Contact));
/// assert_eq!(read_clearance(field, 2013265920), Ok(Reading::Overlap(1)));
/// let (input, index, word) = (Input::Block, 0, 2013265921);
/// let refused = Refusal::Word { field, input, index, word };
/// assert_eq!(read_clearance(field, word), Err(refused));
/// // The other field has this word: it is 2147483647 - 134217726.
/// let reading = read_clearance(Field::Mersenne31, word);
/// assert_eq!(reading, Ok(Reading::Overlap(134217726)));
/// ```
pub fn read_clearance(field: Field, word: u32) -> Result<Reading, Refusal> {
    reading_of(field, raw::read_clearance(field, word), word)
}

/// A kind that is not known here is no reading, and neither is an amount that its kind cannot have:
/// "free by 0" is what an archive from before 0.2 says of contact.
fn reading_of(field: Field, raw: tv_reading, word: u32) -> Result<Reading, Refusal> {
    done(field, raw.answer, &[(Input::Block, &[word])])?;
    match (raw.kind, raw.amount) {
        (TV_FREE, 1..) => Ok(Reading::Free(raw.amount)),
        (TV_CONTACT, 0) => Ok(Reading::Contact),
        (TV_OVERLAP, 1..) => Ok(Reading::Overlap(raw.amount)),
        (kind, _) => Err(Refusal::Unknown { number: 0, kind }),
    }
}

/// The coefficients of the polynomial whose values at the corners are the table's entries: entry b
/// is the value where variable i is bit i of b.
///
/// `message` has as many words as the table has entries, a power of two.
///
/// # Errors
///
/// [`Refusal::Depth`], [`Refusal::Length`], [`Refusal::Clearance`].
///
/// ```
/// use tvarchula::{table_to_coefficients, Field};
/// let mut message = [0; 4];
/// table_to_coefficients(Field::Mersenne31, &[3, 5, 4, 10], &mut message)?;
/// assert_eq!(message, [3, 2, 1, 4]);
/// # Ok::<(), tvarchula::Refusal>(())
/// ```
pub fn table_to_coefficients(
    field: Field,
    clearances: &[i32],
    message: &mut [u32],
) -> Result<(), Refusal> {
    to_coefficients(field, Parameters::new(0, 0), clearances, message)
}

/// The same of a record, of which k0 alone matters.
pub(crate) fn to_coefficients(
    field: Field,
    sizes: Parameters,
    clearances: &[i32],
    message: &mut [u32],
) -> Result<(), Refusal> {
    let answer = raw::table_to_coefficients(field, sizes, clearances, message);
    done(field, answer, &[])
}

/// [`table_to_coefficients`] into a new vector.
///
/// # Errors
///
/// As [`table_to_coefficients`].
#[cfg(feature = "alloc")]
pub fn table_to_coefficients_vec(field: Field, clearances: &[i32]) -> Result<Vec<u32>, Refusal> {
    let mut message = vec![0; clearances.len()];
    table_to_coefficients(field, clearances, &mut message)?;
    Ok(message)
}

/// The table back from the coefficients. `clearances` and `work` are as long as the message.
///
/// # Errors
///
/// [`Refusal::Depth`], [`Refusal::Length`], [`Refusal::Word`].
///
/// ```
/// use tvarchula::{coefficients_to_table, Field};
/// let (mut table, mut work) = ([0; 4], [0; 4]);
/// coefficients_to_table(Field::Mersenne31, &[3, 2, 1, 4], &mut table, &mut work)?;
/// assert_eq!(table, [3, 5, 4, 10]);
/// # Ok::<(), tvarchula::Refusal>(())
/// ```
pub fn coefficients_to_table(
    field: Field,
    message: &[u32],
    clearances: &mut [i32],
    work: &mut [u32],
) -> Result<(), Refusal> {
    to_table(field, Parameters::new(0, 0), message, clearances, work)
}

/// The same of a record, of which k0 alone matters.
pub(crate) fn to_table(
    field: Field,
    sizes: Parameters,
    message: &[u32],
    clearances: &mut [i32],
    work: &mut [u32],
) -> Result<(), Refusal> {
    let answer = raw::coefficients_to_table(field, sizes, message, clearances, work);
    done(field, answer, &[(Input::Block, message)])
}

/// [`coefficients_to_table`] into a new vector.
///
/// # Errors
///
/// As [`coefficients_to_table`].
#[cfg(feature = "alloc")]
pub fn coefficients_to_table_vec(field: Field, message: &[u32]) -> Result<Vec<i32>, Refusal> {
    let mut clearances = vec![0; message.len()];
    let mut work = vec![0; message.len()];
    coefficients_to_table(field, message, &mut clearances, &mut work)?;
    Ok(clearances)
}

#[cfg(test)]
mod tests {
    use super::*;
    use std::string::ToString;
    use tvarchula_sys::tv_answer;

    fn raw(number: u32, [first, second]: [u32; 2], kind: u32, amount: u32) -> tv_reading {
        let answer = tv_answer {
            number,
            first,
            second,
        };
        tv_reading {
            answer,
            kind,
            amount,
        }
    }

    #[test]
    fn a_refused_word_is_named() {
        for (field, p) in [
            (Field::Mersenne31, 2_147_483_647),
            (Field::BabyBear, 2_013_265_921),
        ] {
            let refused = |places, word| reading_of(field, raw(4, places, 0, 0), word);
            let (input, index, word) = (Input::Block, 0, p + 9);
            let named = Refusal::Word {
                field,
                input,
                index,
                word,
            };
            assert_eq!(refused([0, 4], word), Err(named));
            let unknown = Refusal::Unknown { number: 4, kind: 0 };
            for places in [[0, 0], [1, 4], [0, 7], [4, 0]] {
                assert_eq!(refused(places, word), Err(unknown));
            }
            assert_eq!(refused([0, 4], p - 1), Err(unknown));
        }
    }

    #[test]
    fn what_no_kind_can_say_is_no_reading() {
        let read = |kind, amount| reading_of(Field::BabyBear, raw(0, [0, 0], kind, amount), 1);
        assert_eq!(read(1, 1), Ok(Reading::Free(1)));
        assert_eq!(read(2, 1), Ok(Reading::Overlap(1)));
        assert_eq!(read(3, 0), Ok(Reading::Contact));
        for (kind, amount) in [
            (0, 0),
            (0, 1),
            (1, 0),
            (2, 0),
            (3, 1),
            (4, 0),
            (u32::MAX, 1),
        ] {
            let unknown = Refusal::Unknown { number: 0, kind };
            assert_eq!(read(kind, amount), Err(unknown));
        }
    }

    #[test]
    fn words_for_people() {
        let free = Reading::Free(15).to_string();
        assert_eq!(free, "15 micrometres free");
        let contact = Reading::Contact.to_string();
        assert_eq!(contact, "contact, must not be passed");
        let overlap = Reading::Overlap(300).to_string();
        assert_eq!(overlap, "300 micrometres of overlap, must not be passed");
    }
}
