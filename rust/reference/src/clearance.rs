//! Clearances, and reading a word as one.

use core::cmp::Ordering;

use crate::answer::{Answer, Input, Reading, Refusal};
use crate::field::Field;
use crate::judge;
use crate::over;
use crate::residue::Residue;

/// The largest clearance either way, in micrometres.
fn largest<const P: u32>() -> i64 {
    i64::from(Field::of(P).max_clearance())
}

/// The residue of a clearance: x itself, or p + x when x is negative; refusal 9 outside the range.
pub fn to_residue<const P: u32>(clearance: i32) -> Result<Residue<P>, Refusal> {
    let x = i64::from(clearance);
    if x.abs() > largest::<P>() {
        return Err(Refusal::Clearance);
    }
    let value = if x >= 0 { x } else { i64::from(P) + x };
    let word = u32::try_from(value).expect("0 to p - 1");
    Ok(Residue::new(word).expect("0 to p - 1"))
}

/// The clearance of a residue: the one number in the range whose residue it is.
pub fn from_residue<const P: u32>(residue: Residue<P>) -> i32 {
    let value = i64::from(residue.word());
    let x = if value <= largest::<P>() {
        value
    } else {
        value - i64::from(P)
    };
    i32::try_from(x).expect("a clearance")
}

/// Reading one word: above zero is free (kind 1), below zero an overlap (kind 2), zero contact (kind
/// 3, with no amount). Refusal 4, where the word counts as the block.
pub fn read_clearance(field: Field, word: u32) -> Reading {
    over!(field, P => read::<P>(word))
}

fn read<const P: u32>(word: u32) -> Reading {
    let (answer, kind, amount) = match judge::word::<P>(Input::Block, word) {
        Err(refusal) => (refusal.into(), 0, 0),
        Ok(residue) => {
            let x = from_residue(residue);
            let (kind, amount) = match x.cmp(&0) {
                Ordering::Greater => (1, x.unsigned_abs()),
                Ordering::Less => (2, x.unsigned_abs()),
                Ordering::Equal => (3, 0),
            };
            (Answer::DONE, kind, amount)
        }
    };
    Reading {
        answer,
        kind,
        amount,
    }
}

#[cfg(test)]
mod tests {
    use super::*;
    use crate::over_both;
    use crate::sample::Rng;

    over_both!(every_residue_is_one_clearance outside_the_range);

    fn every_residue_is_one_clearance<const P: u32>() {
        let largest = Field::of(P).max_clearance();
        let mut rng = Rng::new(Field::of(P), 2);
        let ends = [0, 1, -1, largest, -largest];
        let any = (0..2000).map(|_| rng.word() as i32 % (largest + 1));
        for x in ends.into_iter().chain(any) {
            assert_eq!(from_residue(to_residue::<P>(x).unwrap()), x);
        }
        let mut rng = Rng::new(Field::of(P), 3);
        for _ in 0..2000 {
            let residue = rng.residue::<P>();
            assert_eq!(to_residue(from_residue(residue)), Ok(residue));
        }
    }

    fn outside_the_range<const P: u32>() {
        let largest = Field::of(P).max_clearance();
        for x in [largest + 1, -largest - 1, i32::MAX, i32::MIN] {
            assert_eq!(to_residue::<P>(x), Err(Refusal::Clearance));
        }
    }

    fn reading(field: Field, word: u32) -> (u32, u32, u32) {
        let Reading {
            answer: Answer { number, .. },
            kind,
            amount,
        } = read_clearance(field, word);
        (number, kind, amount)
    }

    #[test]
    fn readings_of_the_first_field() {
        let reading = |word| reading(Field::First, word);
        assert_eq!(reading(0), (0, 3, 0));
        assert_eq!(reading(1), (0, 1, 1));
        assert_eq!(reading(1_073_741_823), (0, 1, 1_073_741_823));
        assert_eq!(reading(1_073_741_824), (0, 2, 1_073_741_823));
        assert_eq!(reading(2_147_483_646), (0, 2, 1));
        for word in [2_147_483_647, u32::MAX] {
            assert_eq!(reading(word), (4, 0, 0));
            let Answer { first, second, .. } = read_clearance(Field::First, word).answer;
            assert_eq!((first, second), (0, 4));
        }
    }

    #[test]
    fn readings_of_the_second_field() {
        let reading = |word| reading(Field::Second, word);
        assert_eq!(reading(0), (0, 3, 0));
        assert_eq!(reading(1), (0, 1, 1));
        assert_eq!(reading(1_006_632_960), (0, 1, 1_006_632_960));
        assert_eq!(reading(1_006_632_961), (0, 2, 1_006_632_960));
        assert_eq!(reading(2_013_265_920), (0, 2, 1));
        for word in [2_013_265_921, 2_147_483_646, u32::MAX] {
            assert_eq!(reading(word), (4, 0, 0));
            let Answer { first, second, .. } = read_clearance(Field::Second, word).answer;
            assert_eq!((first, second), (0, 4));
        }
    }
}
