//! Why a job refuses.

use core::error::Error;
use core::fmt;

use tvarchula_sys::{self as sys, tv_answer};

use crate::code::Code;
use crate::field::Field;
use crate::input::Input;
use crate::sizes::{MAX_RATE, MAX_TABLE_LEN, MIN_RATE};

/// Why a job refuses what it is lent. When several reasons apply, the one with the smallest number
/// is given, but that 13 comes right after 2; where it is 4, 5 or 6, it names the first place that
/// offends. Every index counts from 0, over the whole slice as it was lent.
///
/// ```
/// use tvarchula::{evaluate, table_to_coefficients, Field, Input, Refusal};
/// let field = Field::Mersenne31;
/// let refused = table_to_coefficients(field, &[1, 2, 3], &mut [0; 3]).unwrap_err();
/// assert_eq!(refused, Refusal::Depth);
/// assert_eq!(refused.number(), 1);
///
/// let (input, index, word) = (Input::Z, 1, 2147483648);
/// let refused = evaluate(field, 2, &[5, 7, 11, 13], &[3, word]).unwrap_err();
/// assert_eq!(refused, Refusal::Word { field, input, index, word });
/// assert_eq!(refused.to_string(), "word 1 of z is 2147483648, not below 2147483647");
/// ```
#[derive(Clone, Copy, PartialEq, Eq, Hash, Debug)]
#[non_exhaustive]
pub enum Refusal {
    /// 1: a depth with which messages would have more than [`MAX_TABLE_LEN`] words; for folding the upper
    /// level 0 too; where a job finds the depth from a length, one that is no power of two from k0 to
    /// [`MAX_TABLE_LEN`]. A k0 that is not legal counts as 1 here.
    Depth,
    /// 2: a rate that is not [`MIN_RATE`] to [`MAX_RATE`].
    Rate,
    /// 3: a slice, result and work included, that has not its exact length. The length of the query
    /// list is judged by 7.
    Length,
    /// 4: a word or single value that is read is the [`modulus`](Field::modulus) of the call's field or
    /// more. The words of the query list are judged by 7.
    Word {
        /// The field of the call.
        field: Field,
        /// The first input that has such a word.
        input: Input,
        /// The first such word's index in it; 0 for a single value.
        index: usize,
        /// The word that stands there.
        word: u32,
    },
    /// 5: a zero in the base row, where there is one row.
    BaseRow {
        /// The first zero's index.
        index: usize,
    },
    /// 5: two or four base rows whose first columns, as many as the rows, have no inverse.
    BaseRows,
    /// 6: the two diagonals are equal in some place.
    Diagonals {
        /// The index of the first such place.
        index: usize,
    },
    /// 7: a query list that is too short or too long, or has a place that is too large.
    Queries,
    /// 8: a well-formed block that is no codeword. Only decoding answers this.
    NoCodeword,
    /// 9: a clearance that is further from 0 than the [`max_clearance`](Field::max_clearance) of the
    /// call's field.
    Clearance {
        /// The field of the call.
        field: Field,
    },
    /// 11: a place that stands in the query list more than once. Only verifying answers this, before
    /// any check of the opening.
    Repeated,
    /// 12: a rate that is no power of two. Only [`fill_roots`](crate::fill_roots) answers this.
    NoPowerOfTwo,
    /// 13: a number of words of a base message that is not 1, 2 or 4.
    BaseWords,
    /// The archive answered what this crate does not know, or a place that does not fit the call: it
    /// is of another version. Nothing that such a call wrote or said may be used.
    Unknown {
        /// The number that it answered.
        number: u32,
        /// The kind of a reading that it answered, else 0.
        kind: u32,
    },
}

impl Refusal {
    /// The number that C sees, 1 to 9 or 11 to 13. [`Refusal::Unknown`] has the number that was
    /// answered.
    #[must_use]
    pub const fn number(self) -> u32 {
        match self {
            Refusal::Depth => sys::TV_REFUSED_DEPTH,
            Refusal::Rate => sys::TV_REFUSED_RATE,
            Refusal::Length => sys::TV_REFUSED_LENGTH,
            Refusal::Word { .. } => sys::TV_REFUSED_WORD,
            Refusal::BaseRow { .. } | Refusal::BaseRows => sys::TV_REFUSED_ROW,
            Refusal::Diagonals { .. } => sys::TV_REFUSED_DIAGONALS,
            Refusal::Queries => sys::TV_REFUSED_QUERIES,
            Refusal::NoCodeword => sys::TV_REFUSED_NO_CODEWORD,
            Refusal::Clearance { .. } => sys::TV_REFUSED_CLEARANCE,
            Refusal::Repeated => sys::TV_REFUSED_REPEATED,
            Refusal::NoPowerOfTwo => sys::TV_REFUSED_NO_POWER_OF_TWO,
            Refusal::BaseWords => sys::TV_REFUSED_BASE_WORDS,
            Refusal::Unknown { number, .. } => number,
        }
    }

    /// The refusal that an answer tells of a call with so many base rows, if it is one that this crate knows
    /// and its place is there: what is said of the word must be true of the caller's own.
    fn of(field: Field, k0: u32, answer: tv_answer, lent: Lent<'_>) -> Option<Refusal> {
        let index = answer.first as usize;
        let word = |input| words(lent, input)?.get(index).copied();
        match (answer.number, answer.second) {
            (sys::TV_REFUSED_WORD, number) => {
                let input = Input::of(number)?;
                let word = word(input).filter(|&word| word >= field.modulus())?;
                Some(Refusal::Word {
                    field,
                    input,
                    index,
                    word,
                })
            }
            (sys::TV_REFUSED_ROW, 0) if k0 > 1 => {
                let rows = index == 0 && !words(lent, Input::G)?.is_empty();
                rows.then_some(Refusal::BaseRows)
            }
            (sys::TV_REFUSED_ROW, 0) => {
                let zero = word(Input::G)? == 0;
                zero.then_some(Refusal::BaseRow { index })
            }
            (sys::TV_REFUSED_DIAGONALS, 0) => {
                let equal = word(Input::T)? == word(Input::T2)?;
                equal.then_some(Refusal::Diagonals { index })
            }
            (number, 0) if index == 0 => Refusal::without_place(field, number),
            _ => None,
        }
    }

    /// The refusal of a number that names no place.
    const fn without_place(field: Field, number: u32) -> Option<Refusal> {
        Some(match number {
            sys::TV_REFUSED_DEPTH => Refusal::Depth,
            sys::TV_REFUSED_RATE => Refusal::Rate,
            sys::TV_REFUSED_LENGTH => Refusal::Length,
            sys::TV_REFUSED_QUERIES => Refusal::Queries,
            sys::TV_REFUSED_NO_CODEWORD => Refusal::NoCodeword,
            sys::TV_REFUSED_CLEARANCE => Refusal::Clearance { field },
            sys::TV_REFUSED_REPEATED => Refusal::Repeated,
            sys::TV_REFUSED_NO_POWER_OF_TWO => Refusal::NoPowerOfTwo,
            sys::TV_REFUSED_BASE_WORDS => Refusal::BaseWords,
            _ => return None,
        })
    }
}

impl fmt::Display for Refusal {
    fn fmt(&self, f: &mut fmt::Formatter<'_>) -> fmt::Result {
        match self {
            Refusal::Depth => write!(
                f,
                "a message of that depth has more than {MAX_TABLE_LEN} words, the upper level of a fold is 0, \
                 or a length that tells the depth is no power of two from k0 to {MAX_TABLE_LEN}"
            ),
            Refusal::Rate => write!(f, "the rate is not {MIN_RATE} to {MAX_RATE}"),
            Refusal::Length => f.write_str("a slice has not its exact length"),
            Refusal::Word {
                field,
                input,
                index,
                word,
            } => {
                let modulus = field.modulus();
                write!(f, "word {index} of {input} is {word}, not below {modulus}")
            }
            Refusal::BaseRow { index } => write!(f, "word {index} of the base row is 0"),
            Refusal::BaseRows => f.write_str("the first columns of the base rows have no inverse"),
            Refusal::Diagonals { index } => write!(f, "word {index} of T and of T' are equal"),
            Refusal::Queries => f.write_str(
                "the query list is too short or too long, or one of its places is too large",
            ),
            Refusal::NoCodeword => f.write_str("the block is no codeword"),
            Refusal::Clearance { field } => {
                let farthest = field.max_clearance();
                write!(f, "a clearance is further than {farthest} micrometres from 0")
            }
            Refusal::Repeated => {
                f.write_str("a place stands in the query list more than once")
            }
            Refusal::NoPowerOfTwo => f.write_str("the rate is no power of two"),
            Refusal::BaseWords => f.write_str("a base message has not 1, 2 or 4 words"),
            Refusal::Unknown { number, kind } => write!(
                f,
                "libtvarchula.a is of another version: it answered {number}, kind {kind}"
            ),
        }
    }
}

impl Error for Refusal {}

/// The words that a call lends to be judged by 4, by input.
pub(crate) type Lent<'a> = &'a [(Input, &'a [u32])];

/// The words of an input that the job is lent.
fn words(lent: Lent<'_>, input: Input) -> Option<&[u32]> {
    let (_, words) = lent.iter().find(|(lent, _)| *lent == input)?;
    Some(words)
}

/// The result of a job that has no code, from what it answers. Only 0 is success. A place that does not fit
/// the call, or stands with a number that names none, is of another version.
pub(crate) fn done(field: Field, answer: tv_answer, lent: Lent<'_>) -> Result<(), Refusal> {
    result(field, 1, answer, lent)
}

/// The same of a job that has one.
pub(crate) fn done_with(code: &Code<'_>, answer: tv_answer, lent: Lent<'_>) -> Result<(), Refusal> {
    result(code.field, code.k0, answer, lent)
}

fn result(field: Field, k0: u32, answer: tv_answer, lent: Lent<'_>) -> Result<(), Refusal> {
    let number = answer.number;
    let unknown = Refusal::Unknown { number, kind: 0 };
    match (number, answer.first, answer.second) {
        (sys::TV_DONE, 0, 0) => Ok(()),
        _ => Err(Refusal::of(field, k0, answer, lent).unwrap_or(unknown)),
    }
}

#[cfg(test)]
mod tests {
    use super::*;
    use std::string::ToString;

    const P: u32 = 2_147_483_647;
    /// The other modulus.
    const P2: u32 = 2_013_265_921;
    const LENT: Lent<'static> = &[
        (Input::G, &[1, 0, 0]),
        (Input::T, &[2, 3, P, 5]),
        (Input::T2, &[4, 3, 7, u32::MAX]),
        (Input::Block, &[P + 1]),
        (Input::R, &[]),
    ];

    fn answered(number: u32, first: u32, second: u32) -> Result<(), Refusal> {
        let answer = tv_answer {
            number,
            first,
            second,
        };
        done(Field::Mersenne31, answer, LENT)
    }

    fn unknown(number: u32) -> Result<(), Refusal> {
        Err(Refusal::Unknown { number, kind: 0 })
    }

    #[test]
    fn only_0_is_success() {
        assert_eq!(answered(0, 0, 0), Ok(()));
        for number in (1..100).chain([u32::MAX]) {
            let refused = answered(number, 0, 0).unwrap_err();
            assert_eq!(refused.number(), number);
        }
        for number in [10, 14, 20, 23, 24, 40, u32::MAX] {
            assert_eq!(answered(number, 0, 0), unknown(number));
        }
    }

    #[test]
    fn places_with_the_callers_words() {
        let word = |input, index, word| {
            Err(Refusal::Word {
                field: Field::Mersenne31,
                input,
                index,
                word,
            })
        };
        assert_eq!(answered(4, 2, 2), word(Input::T, 2, P));
        assert_eq!(answered(4, 3, 3), word(Input::T2, 3, u32::MAX));
        assert_eq!(answered(4, 0, 4), word(Input::Block, 0, P + 1));
        assert_eq!(answered(5, 1, 0), Err(Refusal::BaseRow { index: 1 }));
        assert_eq!(answered(5, 2, 0), Err(Refusal::BaseRow { index: 2 }));
        assert_eq!(answered(6, 1, 0), Err(Refusal::Diagonals { index: 1 }));
    }

    #[test]
    fn places_that_do_not_fit() {
        // No input, one that is not lent, one without words, an index behind its words.
        for (first, second) in [
            (0, 0),
            (0, 9),
            (2, u32::MAX),
            (0, 5),
            (0, 6),
            (0, 8),
            (0, 7),
            (1, 4),
            (4, 2),
            (u32::MAX, 3),
        ] {
            assert_eq!(answered(4, first, second), unknown(4));
        }
        // A word that is legal, no zero, no equal pair: what is said must be true.
        for (number, first, second) in [(4, 0, 1), (4, 1, 2), (4, 2, 3), (5, 0, 0), (6, 0, 0)] {
            assert_eq!(answered(number, first, second), unknown(number));
        }
        for (number, first, second) in [(5, 3, 0), (6, 4, 0), (5, 1, 1), (6, 1, 2)] {
            assert_eq!(answered(number, first, second), unknown(number));
        }
        for number in [0, 1, 2, 3, 7, 8, 9, 11, 12, 13] {
            for (first, second) in [(1, 0), (0, 1), (2, 2)] {
                assert_eq!(answered(number, first, second), unknown(number));
            }
        }
        let refused = tv_answer {
            number: 5,
            first: 0,
            second: 0,
        };
        assert_eq!(done(Field::Mersenne31, refused, &[]), unknown(5));
    }

    /// Of several rows 5 names no word.
    #[test]
    fn several_rows() {
        let code = Code::new(Field::Mersenne31, 0, 2, &[], &[], &[]);
        let answered = |k0, first, lent| {
            let answer = tv_answer {
                number: 5,
                first,
                second: 0,
            };
            done_with(&code.with_base_words(k0), answer, lent)
        };
        for k0 in [2, 4] {
            assert_eq!(answered(k0, 0, LENT), Err(Refusal::BaseRows));
            assert_eq!(answered(k0, 1, LENT), unknown(5));
            assert_eq!(answered(k0, 0, &[]), unknown(5));
        }
        assert_eq!(answered(1, 1, LENT), Err(Refusal::BaseRow { index: 1 }));
        assert_eq!(answered(1, 0, LENT), unknown(5));
    }

    /// What one field refuses may be a word of the other.
    #[test]
    fn the_field_of_the_call() {
        let (input, index) = (Input::Z, 1);
        let answer = tv_answer {
            number: 4,
            first: 1,
            second: 5,
        };
        for (field, word, refused) in [
            (Field::Mersenne31, P, true),
            (Field::Mersenne31, P - 1, false),
            (Field::Mersenne31, P2, false),
            (Field::BabyBear, P, true),
            (Field::BabyBear, P2, true),
            (Field::BabyBear, P2 - 1, false),
        ] {
            let named = Refusal::Word {
                field,
                input,
                index,
                word,
            };
            let due = if refused { Err(named) } else { unknown(4) };
            assert_eq!(done(field, answer, &[(input, &[3, word])]), due);
        }
        for field in [Field::Mersenne31, Field::BabyBear] {
            let answer = tv_answer {
                number: 9,
                first: 0,
                second: 0,
            };
            let refused = Err(Refusal::Clearance { field });
            assert_eq!(done(field, answer, &[]), refused);
        }
    }

    #[test]
    fn sentences() {
        let word = |input, index| Refusal::Word {
            field: Field::Mersenne31,
            input,
            index,
            word: P,
        };
        for (refusal, sentence) in [
            (
                word(Input::G, 1),
                "word 1 of g is 2147483647, not below 2147483647",
            ),
            (
                word(Input::T2, 17),
                "word 17 of T' is 2147483647, not below 2147483647",
            ),
            (
                word(Input::Block, 5),
                "word 5 of the message, block or word is 2147483647, not below 2147483647",
            ),
            (
                word(Input::R, 0),
                "word 0 of r or the challenge is 2147483647, not below 2147483647",
            ),
            (
                word(Input::Opening, 40),
                "word 40 of the opening is 2147483647, not below 2147483647",
            ),
            (Refusal::BaseRow { index: 3 }, "word 3 of the base row is 0"),
            (
                Refusal::BaseRows,
                "the first columns of the base rows have no inverse",
            ),
            (Refusal::BaseWords, "a base message has not 1, 2 or 4 words"),
            (
                Refusal::Diagonals { index: 17 },
                "word 17 of T and of T' are equal",
            ),
            (
                Refusal::Clearance {
                    field: Field::Mersenne31,
                },
                "a clearance is further than 1073741823 micrometres from 0",
            ),
            (
                Refusal::Clearance {
                    field: Field::BabyBear,
                },
                "a clearance is further than 1006632960 micrometres from 0",
            ),
            (Refusal::NoPowerOfTwo, "the rate is no power of two"),
        ] {
            assert_eq!(refusal.to_string(), sentence);
        }
        for (field, sentence) in [
            (
                Field::Mersenne31,
                "word 0 of y is 4294967295, not below 2147483647",
            ),
            (
                Field::BabyBear,
                "word 0 of y is 4294967295, not below 2013265921",
            ),
        ] {
            let largest = Refusal::Word {
                field,
                input: Input::Y,
                index: 0,
                word: u32::MAX,
            };
            assert_eq!(largest.to_string(), sentence);
        }
    }
}
