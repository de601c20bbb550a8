//! What a job answers, and the code that it is lent.

/// The number, and the places that it names, else zeros.
#[derive(Clone, Copy, PartialEq, Eq, Debug)]
pub struct Answer {
    /// 0 is done or accepted, 1 to 9 and 11 to 13 a refusal, 20 to 23 a failed check.
    pub number: u32,
    /// 4, 5 and 6: the index. 20: i. 22: j. 23: the query's position.
    pub first: u32,
    /// 4: the input. 23: the level.
    pub second: u32,
}

impl Answer {
    /// Done, or accepted.
    pub const DONE: Answer = Answer::at(0, 0, 0);

    const fn at(number: u32, first: u32, second: u32) -> Answer {
        Answer {
            number,
            first,
            second,
        }
    }
}

/// What is lent, with its number and in the order in which words are judged.
#[derive(Clone, Copy, PartialEq, Eq, Debug)]
pub enum Input {
    /// The base row.
    G = 1,
    /// The first diagonal.
    T = 2,
    /// The second diagonal.
    T2 = 3,
    /// The message or the block.
    Block = 4,
    /// The point.
    Z = 5,
    /// The value claimed there.
    Y = 6,
    /// The challenges, or the one of folding.
    R = 7,
    /// The opening.
    Opening = 8,
}

/// Why a job refuses, and the first place that offends where that is named.
#[derive(Clone, Copy, PartialEq, Eq, Debug)]
pub enum Refusal {
    /// The depth, the upper level, or the length that tells the depth.
    Depth,
    /// The rate.
    Rate,
    /// A slice that has not its exact length.
    Length,
    /// A word of p or more: the input and its index there.
    Word(Input, usize),
    /// A zero in the base row.
    BaseRow(usize),
    /// Diagonals that are equal in some place.
    Diagonals(usize),
    /// The query list: its length, or a place that is too large.
    Queries,
    /// A block that is no codeword.
    NoCodeword,
    /// A clearance out of range.
    Clearance,
    /// A place that stands in the query list more than once.
    Repeated,
    /// A rate that is no power of two, where filling needs one.
    NoPowerOfTwo,
    /// A number of words of a base message other than one, which is all that plain Rust has.
    BaseWords,
}

impl From<Refusal> for Answer {
    fn from(refusal: Refusal) -> Answer {
        match refusal {
            Refusal::Depth => Answer::at(1, 0, 0),
            Refusal::Rate => Answer::at(2, 0, 0),
            Refusal::Length => Answer::at(3, 0, 0),
            Refusal::Word(input, index) => Answer::at(4, index as u32, input as u32),
            Refusal::BaseRow(index) => Answer::at(5, index as u32, 0),
            Refusal::Diagonals(index) => Answer::at(6, index as u32, 0),
            Refusal::Queries => Answer::at(7, 0, 0),
            Refusal::NoCodeword => Answer::at(8, 0, 0),
            Refusal::Clearance => Answer::at(9, 0, 0),
            Refusal::Repeated => Answer::at(11, 0, 0),
            Refusal::NoPowerOfTwo => Answer::at(12, 0, 0),
            Refusal::BaseWords => Answer::at(13, 0, 0),
        }
    }
}

/// The check of an opening that fails first.
#[derive(Clone, Copy, PartialEq, Eq, Debug)]
pub enum Failure {
    /// Sum i.
    Sum(usize),
    /// The final check.
    Final,
    /// Base check j.
    Base(usize),
    /// The query's position and the level.
    Fold(usize, usize),
}

impl From<Failure> for Answer {
    fn from(failure: Failure) -> Answer {
        match failure {
            Failure::Sum(i) => Answer::at(20, i as u32, 0),
            Failure::Final => Answer::at(21, 0, 0),
            Failure::Base(j) => Answer::at(22, j as u32, 0),
            Failure::Fold(query, level) => Answer::at(23, query as u32, level as u32),
        }
    }
}

/// A call's result as the answer that the library gives.
impl<E: Into<Answer>> From<Result<(), E>> for Answer {
    fn from(result: Result<(), E>) -> Answer {
        result.map_or_else(Into::into, |()| Answer::DONE)
    }
}

/// Record, base rows and diagonals, as a call lends them.
#[derive(Clone, Copy, Debug)]
pub struct Code<'a> {
    /// The depth.
    pub depth: u32,
    /// The rate.
    pub rate: u32,
    /// The words of a base message.
    pub k0: u32,
    /// The base rows.
    pub g: &'a [u32],
    /// The first diagonal of every level.
    pub t: &'a [u32],
    /// The second diagonal of every level.
    pub t2: &'a [u32],
}
