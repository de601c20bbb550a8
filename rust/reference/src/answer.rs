//! What the jobs answer.

use std::fmt;

/// The answer of a job: the order's number and its named places, else zeros.
#[derive(Clone, Copy, PartialEq, Eq, Debug)]
pub struct Answer {
    /// 0 is done or accepted, 1 to 9 and 11 to 13 a refusal, 20 to 23 a failed check.
    pub number: u32,
    /// 4: the index of the word. 5: that of the zero, and 0 for several rows. 6: that of the equal
    /// pair. 20: i. 22: j. 23: the query's position.
    pub first: u32,
    /// 4: the input. 23: the level.
    pub second: u32,
}

impl Answer {
    /// Done, or accepted.
    pub const DONE: Answer = Answer::plain(0);

    /// An answer without a named place.
    pub const fn plain(number: u32) -> Answer {
        Answer {
            number,
            first: 0,
            second: 0,
        }
    }
}

impl fmt::Display for Answer {
    fn fmt(&self, f: &mut fmt::Formatter) -> fmt::Result {
        write!(f, "{} ({}, {})", self.number, self.first, self.second)
    }
}

/// The reading of one word as a clearance.
#[derive(Clone, Copy, PartialEq, Eq, Debug)]
pub struct Reading {
    /// 0, or 4 when the word is no residue.
    pub answer: Answer,
    /// 1 free, 2 overlap, 3 contact; 0 when refused.
    pub kind: u32,
    /// The distance, or the positive amount of the overlap; 0 for contact, and when refused.
    pub amount: u32,
}

/// What 4 names. The numbers are the order's, and the inputs are judged in their order.
#[derive(Clone, Copy, PartialEq, Eq, PartialOrd, Ord, Debug)]
pub enum Input {
    /// Base row or rows.
    G = 1,
    /// T, as lent.
    T = 2,
    /// T', as lent.
    T2 = 3,
    /// Block or message, or the word that is read as a clearance.
    Block = 4,
    /// Point.
    Z = 5,
    /// Claimed value.
    Y = 6,
    /// Challenges, or the one of folding.
    R = 7,
    /// Opening.
    Opening = 8,
}

/// Why a job refuses, and the first place that offends where the order asks for it.
#[derive(Clone, Copy, PartialEq, Eq, Debug)]
pub enum Refusal {
    /// 1: depth, upper level or table length.
    Size,
    /// 2: rate not 2 to 16.
    Rate,
    /// 3: a lent slice not of its exact length.
    Length,
    /// 4: a word of p or more.
    Word {
        /// The first input that has one.
        input: Input,
        /// Its first such word.
        index: usize,
    },
    /// 5: a zero in the base row, at this index.
    ZeroInRow(usize),
    /// 5: several base rows whose first columns, as many as the rows, have no inverse.
    NoInverse,
    /// 6: T and T' equal at this index of both as lent.
    EqualPair(usize),
    /// 7: the query list or one of its places.
    Queries,
    /// 8: a well-formed block that is no codeword.
    NoCodeword,
    /// 9: a clearance outside the range.
    Clearance,
    /// 11: a place that stands in the query list more than once.
    Repeated,
    /// 12: a rate to fill that is no power of two.
    NoPowerOfTwo,
    /// 13: a number of words of a base message that the job does not take.
    BaseWords,
}

impl From<Refusal> for Answer {
    fn from(refusal: Refusal) -> Answer {
        let (number, first, second) = match refusal {
            Refusal::Size => (1, 0, 0),
            Refusal::Rate => (2, 0, 0),
            Refusal::Length => (3, 0, 0),
            Refusal::Word { input, index } => (4, index, input as u32),
            Refusal::ZeroInRow(index) => (5, index, 0),
            Refusal::NoInverse => (5, 0, 0),
            Refusal::EqualPair(index) => (6, index, 0),
            Refusal::Queries => (7, 0, 0),
            Refusal::NoCodeword => (8, 0, 0),
            Refusal::Clearance => (9, 0, 0),
            Refusal::Repeated => (11, 0, 0),
            Refusal::NoPowerOfTwo => (12, 0, 0),
            Refusal::BaseWords => (13, 0, 0),
        };
        Answer {
            number,
            first: first as u32,
            second,
        }
    }
}

impl From<Result<(), Refusal>> for Answer {
    fn from(result: Result<(), Refusal>) -> Answer {
        match result {
            Ok(()) => Answer::DONE,
            Err(refusal) => refusal.into(),
        }
    }
}
