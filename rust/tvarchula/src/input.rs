//! What a call lends, by the names that a refusal has for it.

use core::fmt;

use tvarchula_sys as sys;

/// What a call lends, in the order in which its words are judged: of all words that are the
/// [`modulus`](crate::Field::modulus) of the call's field or more,
/// [`Refusal::Word`](crate::Refusal::Word) names the first one of the first input that has one. The
/// query list is judged apart.
///
/// ```
/// use tvarchula::Input;
/// assert_eq!(Input::T2.number(), 3);
/// assert_eq!(Input::T2.to_string(), "T'");
/// assert!(Input::Block < Input::Z);
/// ```
#[derive(Clone, Copy, PartialEq, Eq, PartialOrd, Ord, Hash, Debug)]
pub enum Input {
    /// 1: the base row.
    G,
    /// 2: the first diagonal, for folding that of the one level that is lent.
    T,
    /// 3: the second diagonal.
    T2,
    /// 4: the message or the block, whichever is read, or the word that is read as a clearance.
    Block,
    /// 5: the point.
    Z,
    /// 6: the claimed value, a single word.
    Y,
    /// 7: the challenges, or the single challenge of folding.
    R,
    /// 8: the opening that is verified.
    Opening,
}

impl Input {
    const ALL: [Input; 8] = [
        Input::G,
        Input::T,
        Input::T2,
        Input::Block,
        Input::Z,
        Input::Y,
        Input::R,
        Input::Opening,
    ];

    /// The number that C sees, 1 to 8.
    #[must_use]
    pub const fn number(self) -> u32 {
        match self {
            Input::G => sys::TV_INPUT_G,
            Input::T => sys::TV_INPUT_T,
            Input::T2 => sys::TV_INPUT_T2,
            Input::Block => sys::TV_INPUT_BLOCK,
            Input::Z => sys::TV_INPUT_Z,
            Input::Y => sys::TV_INPUT_Y,
            Input::R => sys::TV_INPUT_R,
            Input::Opening => sys::TV_INPUT_OPENING,
        }
    }

    /// The input of a number, if it is one.
    pub(crate) fn of(number: u32) -> Option<Input> {
        let mut all = Input::ALL.into_iter();
        all.find(|input| input.number() == number)
    }
}

impl fmt::Display for Input {
    fn fmt(&self, f: &mut fmt::Formatter<'_>) -> fmt::Result {
        f.write_str(match self {
            Input::G => "g",
            Input::T => "T",
            Input::T2 => "T'",
            Input::Block => "the message, block or word",
            Input::Z => "z",
            Input::Y => "y",
            Input::R => "r or the challenge",
            Input::Opening => "the opening",
        })
    }
}

#[cfg(test)]
mod tests {
    use super::*;

    #[test]
    fn numbers_in_order() {
        for (number, input) in (1..).zip(Input::ALL) {
            assert_eq!(input.number(), number);
            assert_eq!(Input::of(number), Some(input));
        }
        for number in [0, 9, u32::MAX] {
            assert_eq!(Input::of(number), None);
        }
        assert!(Input::ALL.windows(2).all(|pair| pair[0] < pair[1]));
    }
}
