//! Where 4, 5 and 6 are: words of p or more, zeros in g, rows of g that depend on each other and equal
//! pairs at chosen places, alone, two and more at once. The least of them in the order of numbers, inputs and indices is due.

use super::{good, Swept};
use crate::call::{Call, Input};
use crate::compare::Comparison;
use crate::damage::refused_words;
use crate::good::Shape;
use crate::job::Job;
use tvarchula_reference::sample::Rng;
use tvarchula_reference::{Answer, Layout};

/// Something that offends. Of two the lesser is named: inputs are declared in the order in which they
/// are judged.
#[derive(Clone, Copy, PartialEq, Eq, PartialOrd, Ord, Debug)]
enum Spot {
    /// A word of p or more.
    Word(Input, usize),
    /// A zero in the one row of g.
    Zero(usize),
    /// The second of several rows like the first.
    Dependent,
    /// T' like T.
    Pair(usize),
}

impl Spot {
    fn answer(self) -> Answer {
        let (number, index, second) = match self {
            Spot::Word(input, j) => (4, j, input.number().expect("judged by 4")),
            Spot::Zero(j) => (5, j, 0),
            Spot::Dependent => (5, 0, 0),
            Spot::Pair(j) => (6, j, 0),
        };
        Answer {
            number,
            first: index as u32,
            second,
        }
    }

    fn put(self, call: &mut Call, rng: &mut Rng) {
        let lent = &mut call.lent;
        match self {
            Spot::Word(input, j) => {
                lent.words_mut(input)[j] = rng.pick(&refused_words(lent.field));
            }
            Spot::Zero(j) => lent.words_mut(Input::G)[j] = 0,
            Spot::Dependent => {
                let rows = lent.k0() as usize;
                let g = lent.words_mut(Input::G);
                let n = g.len() / rows;
                g.copy_within(..n, n);
            }
            Spot::Pair(j) => lent.words_mut(Input::T2)[j] = lent.words(Input::T)[j],
        }
        call.add_note(&format!("{self:?}"));
    }
}

/// All calls of one job.
pub fn run(c: &mut Comparison, job: Job, rng: &mut Rng) -> Swept {
    for (depth, rate, k0) in [
        (1, 2, 1),
        (2, 3, 1),
        (3, 4, 1),
        (4, 2, 1),
        (2, 16, 1),
        (1, 3, 2),
        (2, 2, 2),
        (1, 2, 4),
        (2, 2, 4),
    ] {
        let shape = Shape::random(depth, rate).with(k0);
        let call = good(c, job, shape, rng)?;
        for spot in every(&call) {
            ask(c, &call, &[spot], rng)?;
        }
        let some = some(&call, &shape.sizes);
        for (k, &first) in some.iter().enumerate() {
            for &second in &some[k + 1..] {
                ask(c, &call, &[first, second], rng)?;
            }
        }
    }
    several(c, job, rng)
}

/// The last word of every input of a call, the last zero and the last pair.
pub fn last(c: &mut Comparison, call: &Call, rng: &mut Rng) -> Swept {
    let spots = spots(call, |_, len| len.checked_sub(1).into_iter().collect());
    spots
        .iter()
        .try_for_each(|&spot| ask(c, call, &[spot], rng))
}

/// Three and more at once, at any places.
fn several(c: &mut Comparison, job: Job, rng: &mut Rng) -> Swept {
    for _ in 0..100 {
        let (depth, rate) = (1 + rng.below(3), 2 + rng.below(6));
        let k0 = rng.pick(&[1, 1, 2, 4]);
        let call = good(c, job, Shape::any(depth, rate, rng).with(k0), rng)?;
        let every = every(&call);
        let spots: Vec<_> = (0..3 + rng.below(6)).map(|_| rng.pick(&every)).collect();
        ask(c, &call, &spots, rng)?;
    }
    Ok(())
}

/// The least of these is due. It is put last, so that no other one takes its place.
fn ask(c: &mut Comparison, call: &Call, spots: &[Spot], rng: &mut Rng) -> Swept {
    let mut call = call.clone();
    let mut spots = spots.to_vec();
    spots.sort();
    for spot in spots.iter().rev() {
        spot.put(&mut call, rng);
    }
    let answer = c.check(&call)?;
    assert_eq!(answer, spots[0].answer(), "agreed, but not due: {call}");
    Ok(())
}

/// Every place of a call.
fn every(call: &Call) -> Vec<Spot> {
    spots(call, |_, len| (0..len).collect())
}

/// The ends and the middle of every input, and both ends of every level of the diagonals: above the
/// lowest one an index within the level is another one.
fn some(call: &Call, sizes: &Layout) -> Vec<Spot> {
    let levels = |j: usize| (0..sizes.depth).any(|i| [j, j + 1].contains(&sizes.diagonal(i).start));
    spots(call, |input, len| {
        let leveled = matches!(input, Input::T | Input::T2) && call.job != Job::Fold;
        let edge = |j: &usize| [0, len / 2, len - 1].contains(j) || leveled && levels(*j);
        (0..len).filter(edge).collect()
    })
}

/// The spots at chosen indices of every input, which has so many words.
fn spots(call: &Call, chosen: impl Fn(Input, usize) -> Vec<usize>) -> Vec<Spot> {
    let mut spots = Vec::new();
    let inputs = call.lent.words.iter();
    for (&input, words) in inputs.filter(|(input, _)| input.number().is_some()) {
        let indices = chosen(input, words.len());
        spots.extend(indices.iter().map(|&j| Spot::Word(input, j)));
        match input {
            Input::G if call.lent.k0() > 1 => spots.push(Spot::Dependent),
            Input::G => spots.extend(indices.iter().map(|&j| Spot::Zero(j))),
            Input::T => spots.extend(indices.iter().map(|&j| Spot::Pair(j))),
            _ => (),
        }
    }
    spots
}

#[cfg(test)]
mod tests {
    use super::*;
    use crate::good::formed;
    use tvarchula_reference::Field;

    #[test]
    fn ends_and_middles() {
        let shape = Shape::random(3, 4);
        let call = formed(Job::WriteOpening, shape, &mut Rng::new(Field::First, 1));
        let spots = some(&call, &shape.sizes);
        let indices = |found: fn(Spot) -> Option<usize>| -> Vec<usize> {
            spots.iter().filter_map(|&spot| found(spot)).collect()
        };
        let zeros = indices(|spot| match spot {
            Spot::Zero(j) => Some(j),
            _ => None,
        });
        assert_eq!(zeros, [0, 2, 3]);
        // Levels of 4, 8 and 16 words.
        let pairs = indices(|spot| match spot {
            Spot::Pair(j) => Some(j),
            _ => None,
        });
        assert_eq!(pairs, [0, 3, 4, 11, 12, 14, 27]);
        let messages = indices(|spot| match spot {
            Spot::Word(Input::Message, j) => Some(j),
            _ => None,
        });
        assert_eq!(messages, [0, 4, 7]);
        assert_eq!(every(&call).len(), 2 * 4 + 3 * 28 + 8 + 3 + 3);
    }

    #[test]
    fn the_order_of_spots() {
        let in_order = [
            (Spot::Word(Input::G, 9), (4, 9, 1)),
            (Spot::Word(Input::T, 2), (4, 2, 2)),
            (Spot::Word(Input::T, 3), (4, 3, 2)),
            (Spot::Word(Input::T2, 0), (4, 0, 3)),
            (Spot::Word(Input::Message, 8), (4, 8, 4)),
            (Spot::Word(Input::Block, 8), (4, 8, 4)),
            (Spot::Word(Input::Z, 1), (4, 1, 5)),
            (Spot::Word(Input::Y, 0), (4, 0, 6)),
            (Spot::Word(Input::R, 0), (4, 0, 7)),
            (Spot::Word(Input::Challenge, 0), (4, 0, 7)),
            (Spot::Word(Input::Opening, 0), (4, 0, 8)),
            (Spot::Zero(1), (5, 1, 0)),
            (Spot::Dependent, (5, 0, 0)),
            (Spot::Pair(0), (6, 0, 0)),
        ];
        assert!(in_order.windows(2).all(|pair| pair[0].0 < pair[1].0));
        for (spot, due) in in_order {
            let Answer {
                number,
                first,
                second,
            } = spot.answer();
            assert_eq!((number, first, second), due);
        }
    }
}
