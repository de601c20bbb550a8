//! Calls of a large size, one after another: each is compared like any other call, and its time, its
//! lent memory and its stack are told.
//!
//! At depth 20 and rate 16 a block, an opening and each diagonal have 64 MB. What one call reads is
//! moved to the next, so that few copies are alive: the call, the copy that an implementation runs on,
//! what the other one wrote, and the reference's own. Decoding has the most, 260 MB lent: two of
//! those, another result and work buffer, the residues of all that is read, the inverses, and the
//! halves of the block that it encodes again; 1.1 GB in all, as was seen with the reference on both
//! sides. The library allocates nothing. Filling is over the second field alone, at rates that can be
//! filled.

mod case;
mod growth;
mod line;
pub mod stack;

pub use case::Case;
pub use growth::{growth, Growth};
pub use line::{Line, Time, HEADS};

use crate::call::{Call, Input};
use crate::compare::{Comparison, Difference, Runner};
use crate::damage::{moved, moved_back};
use crate::good::{formed, most_queries, Shape};
use crate::job::Job;
use std::collections::BTreeMap;
use std::time::{Duration, Instant};
use tvarchula_reference::sample::Rng;
use tvarchula_reference::Field;

/// A call that takes longer is timed once.
const LONG: Duration = Duration::from_secs(2);
/// Others are timed until this has passed, but three times at least and 101 times at most.
const ENOUGH: Duration = Duration::from_millis(500);

/// Two implementations, and what the calls of the left one took.
struct Large<'a> {
    left: Runner,
    /// The stack of the least call, which is not counted.
    idle: usize,
    comparison: Comparison,
    rng: Rng,
    /// What calls read or wrote, for those that follow.
    known: BTreeMap<Input, Vec<u32>>,
    tell: &'a mut dyn FnMut(&Line),
}

/// The sizes of the cases.
#[derive(Clone, Debug)]
pub struct Sizes {
    /// Variables of a message: its depth for base messages of one word, else that and the low variables.
    pub variables: Vec<usize>,
    /// Rates.
    pub rates: Vec<usize>,
    /// Words of a base message.
    pub k0s: Vec<usize>,
}

/// All cases over a field at these sizes, told one by one. Stops at the first difference.
pub fn run(
    [left, right]: [Runner; 2],
    field: Field,
    sizes: &Sizes,
    tell: &mut dyn FnMut(&Line),
) -> Result<(), Difference> {
    let mut large = Large {
        left,
        idle: idle(left),
        comparison: Comparison::new(left, right),
        rng: Rng::new(field, 400),
        known: BTreeMap::new(),
        tell,
    };
    for &variables in &sizes.variables {
        for &k0 in &sizes.k0s {
            let Some(depth) = variables.checked_sub(k0.trailing_zeros() as usize) else {
                continue;
            };
            large.without_rate(Shape::random(depth, 2).with(k0))?;
            // Folding needs a level.
            for &rate in sizes.rates.iter().filter(|_| depth > 0) {
                large.with_rate(Shape::random(depth, rate).with(k0))?;
            }
        }
    }
    Ok(())
}

impl Large<'_> {
    /// The jobs that are lent no rate.
    fn without_rate(&mut self, shape: Shape) -> Result<(), Difference> {
        for case in [Case::ToCoefficients, Case::ToTable, Case::Evaluate] {
            let call = formed(case.job(), shape, &mut self.rng);
            self.one(case, shape.sizes.depth, call)?;
        }
        Ok(())
    }

    /// The jobs of a code: a message, its codeword, and its opening at one point.
    fn with_rate(&mut self, shape: Shape) -> Result<(), Difference> {
        self.known.clear();
        if self.rng.field() == Field::Second && fills(shape) {
            let call = formed(Job::FillRoots, shape, &mut self.rng);
            self.one(Case::Fill, shape.sizes.depth, call)?;
        }
        let encoded = self.chained(Case::Encode, shape)?;
        self.know(Input::Block, result(&encoded));
        drop(encoded);
        self.chained(Case::Decode, shape)?;
        self.change_last_word(moved);
        self.chained(Case::DecodeChanged, shape)?;
        self.change_last_word(moved_back);
        self.fold(shape)?;
        let written = self.chained(Case::Write, shape)?;
        self.know(Input::Opening, result(&written));
        self.know(Input::Y, vec![written.out.value]);
        drop(written);
        let queries = most_queries(&shape.sizes, &mut self.rng);
        self.know(Input::Queries, queries);
        self.chained(Case::Verify, shape)?;
        let y = self.known[&Input::Y][0];
        self.know(Input::Y, vec![moved(self.rng.field(), y)]);
        self.chained(Case::VerifyAnother, shape)?;
        self.known.clear();
        Ok(())
    }

    fn know(&mut self, input: Input, words: Vec<u32>) {
        self.known.insert(input, words);
    }

    /// Changes the last word of the block.
    fn change_last_word(&mut self, change: fn(Field, u32) -> u32) {
        let field = self.rng.field();
        let block = self.known.get_mut(&Input::Block).expect("encoded before");
        let last = block.last_mut().expect("a block is not empty");
        *last = change(field, *last);
    }

    /// A case whose call reads what is known, and whatever else it reads is known after it.
    fn chained(&mut self, case: Case, shape: Shape) -> Result<Call, Difference> {
        let mut call = formed(case.job(), shape, &mut self.rng);
        for (input, words) in &mut call.lent.words {
            if let Some(known) = self.known.remove(input) {
                *words = known;
            }
        }
        let mut call = self.one(case, shape.sizes.depth, call)?;
        self.known.append(&mut call.lent.words);
        Ok(call)
    }

    /// Folds the codeword by the top level, the only one of the diagonals that folding is lent.
    fn fold(&mut self, shape: Shape) -> Result<(), Difference> {
        let mut call = formed(Job::Fold, shape, &mut self.rng);
        let level = shape.sizes.diagonal(shape.sizes.depth - 1);
        for input in [Input::T, Input::T2] {
            let words = self.known[&input][level.clone()].to_vec();
            call.lent.words.insert(input, words);
        }
        let block = self.known.remove(&Input::Block).expect("encoded before");
        call.lent.words.insert(Input::Block, block);
        let mut call = self.one(Case::Fold, shape.sizes.depth, call)?;
        let block = call.lent.words.remove(&Input::Block).expect("lent");
        self.know(Input::Block, block);
        Ok(())
    }

    /// Compares a call, measures it, and gives it back as the left side left it.
    fn one(&mut self, case: Case, depth: usize, mut call: Call) -> Result<Call, Difference> {
        call.add_note(case.name());
        let answer = self.comparison.check(&call)?;
        assert_eq!(answer, case.answer(depth), "agreed, but not due: {call}");
        // The left side changes nothing that it only reads, as was just seen: no copy of that.
        let lent = call.out.clone();
        let again = |call: &mut Call| call.out = lent.clone();
        let left = self.left;
        let time = timed(|| {
            again(&mut call);
            let start = Instant::now();
            let found = left(&mut call);
            let time = start.elapsed();
            assert_eq!(found, answer, "another answer to the same call");
            time
        });
        again(&mut call);
        let touched = stack::touched(&mut || {
            left(&mut call);
        });
        let line = Line {
            field: call.lent.field,
            case,
            depth,
            rate: case
                .job()
                .judges_rate()
                .then_some(call.lent.rate() as usize),
            k0: call.lent.k0() as usize,
            answer,
            time,
            lent: call.bytes(),
            stack: touched.map(|bytes| bytes.saturating_sub(self.idle)),
        };
        (self.tell)(&line);
        Ok(call)
    }
}

/// Whether its code can be filled, over the second field.
fn fills(shape: Shape) -> bool {
    shape.sizes.k0 == 1 && shape.sizes.rate.is_power_of_two()
}

/// The stack of reading one word: what it takes to call.
fn idle(left: Runner) -> usize {
    let mut call = formed(
        Job::ReadClearance,
        Shape::random(0, 2),
        &mut Rng::new(Field::First, 0),
    );
    let touched = stack::touched(&mut || {
        left(&mut call);
    });
    touched.unwrap_or(0)
}

/// What a call wrote.
fn result(call: &Call) -> Vec<u32> {
    let result = call.out.result.as_ref().expect("a job with a result");
    result.lent().to_vec()
}

/// Several times, or one if it is long.
fn timed(mut time: impl FnMut() -> Duration) -> Time {
    let mut times = vec![time()];
    if times[0] <= LONG {
        let more = ENOUGH.as_nanos() / times[0].as_nanos().max(1);
        times.extend((0..more.clamp(2, 100)).map(|_| time()));
        times.sort();
    }
    Time {
        median: times[times.len() / 2],
        least: times[0],
    }
}

#[cfg(test)]
mod tests {
    use super::*;
    use crate::run::any;
    use tvarchula_reference::{Answer, Reference};

    const REFERENCE: Runner = any::<Reference>;

    fn lines(left: Runner, variables: &[usize], rates: &[usize]) -> Result<Vec<Line>, Difference> {
        let mut lines = Vec::new();
        let mut tell = |line: &Line| lines.push(*line);
        let sizes = Sizes {
            variables: variables.to_vec(),
            rates: rates.to_vec(),
            k0s: vec![1, 4],
        };
        for field in Field::ALL {
            run([left, REFERENCE], field, &sizes, &mut tell)?;
        }
        Ok(lines)
    }

    #[test]
    fn every_case_once_for_each_rate_that_it_has() {
        let lines = lines(REFERENCE, &[3, 5], &[2, 3]).expect("one implementation");
        for case in Case::ALL {
            for field in Field::ALL {
                let of_case = lines
                    .iter()
                    .filter(|line| (line.field, line.case) == (field, case));
                let found: Vec<_> = of_case
                    .map(|line| (line.depth, line.k0, line.rate))
                    .collect();
                let all = [(3, 1), (1, 4), (5, 1), (3, 4)];
                let due = match case.job() {
                    Job::FillRoots if field == Field::First => vec![],
                    Job::FillRoots => vec![(3, 1, Some(2)), (5, 1, Some(2))],
                    job if job < Job::Encode => all.map(|(depth, k0)| (depth, k0, None)).to_vec(),
                    _ => all
                        .map(|(depth, k0)| [2, 3].map(|rate| (depth, k0, Some(rate))))
                        .concat(),
                };
                assert_eq!(found, due, "{field:?} {case:?}");
            }
        }
        // By the lengths of the order: g, T, T', message and block.
        let encode = lines.iter().filter(|line| line.case == Case::Encode);
        let lent: Vec<usize> = encode.map(|line| line.lent).collect();
        assert_eq!(lent[0], 4 * (2 + 14 + 14 + 8 + 16));
        // One level over four rows of eight words.
        assert_eq!(lent[2], 4 * (32 + 8 + 8 + 8 + 16));
    }

    #[test]
    fn a_wrong_writer_and_a_wrong_verifier_are_found() {
        fn wrong_last(call: &mut Call) -> Answer {
            let answer = REFERENCE(call);
            if let Some(last) = call.out.parts().result.last_mut() {
                *last ^= u32::from(call.job == Job::WriteOpening);
            }
            answer
        }
        fn accepts_any(call: &mut Call) -> Answer {
            match call.job {
                Job::VerifyOpening => Answer::DONE,
                _ => REFERENCE(call),
            }
        }
        for (wrong, job) in [
            (wrong_last as Runner, Job::WriteOpening),
            (accepts_any, Job::VerifyOpening),
        ] {
            let difference = lines(wrong, &[5], &[2]).expect_err("a wrong side");
            assert_eq!(difference.call.job, job);
        }
    }

    #[test]
    fn no_query_twice() {
        for (depth, rate, due) in [(0, 2, 0), (1, 2, 2), (5, 3, 48), (9, 16, 256)] {
            let sizes = Shape::random(depth, rate).sizes;
            let queries = most_queries(&sizes, &mut Rng::new(Field::First, 1));
            let different: std::collections::BTreeSet<_> = queries.iter().collect();
            assert_eq!((queries.len(), different.len()), (due, due));
        }
    }
}
