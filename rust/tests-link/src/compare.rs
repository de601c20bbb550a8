//! Runs one call on two implementations and compares everything.

use crate::buffer::Buffer;
use crate::call::Call;
use crate::out::Out;
use crate::place;
use crate::tally::Tally;
use std::fmt;
use tvarchula_reference::Answer;

/// An implementation of the jobs of one group.
pub type Runner = fn(&mut Call) -> Answer;

/// Two implementations, and the count of calls on which they agree.
#[derive(Clone, Debug)]
pub struct Comparison {
    left: Runner,
    right: Runner,
    /// The calls compared so far.
    pub tally: Tally,
}

/// A call on which the two implementations differ, or both do what no job may do.
#[derive(Clone, Debug)]
pub struct Difference {
    /// The call as lent.
    pub call: Box<Call>,
    /// What differs.
    pub what: String,
}

impl fmt::Display for Difference {
    fn fmt(&self, f: &mut fmt::Formatter) -> fmt::Result {
        write!(f, "{}\n  {}", self.call, self.what)
    }
}

impl Comparison {
    /// A comparison of two implementations.
    pub fn new(left: Runner, right: Runner) -> Comparison {
        Comparison {
            left,
            right,
            tally: Tally::default(),
        }
    }

    /// Runs a call on both. The call itself is not changed.
    pub fn check(&mut self, call: &Call) -> Result<Answer, Difference> {
        let (left, right) = (Ran::of(self.left, call), Ran::of(self.right, call));
        let fault = difference(&left, &right)
            .or_else(|| fault(call, &left))
            .map(|what| Difference {
                call: Box::new(call.clone()),
                what,
            });
        if let Some(fault) = fault {
            return Err(fault);
        }
        self.tally.count(call.job, left.answer);
        Ok(left.answer)
    }
}

/// What one implementation made of a call.
struct Ran {
    answer: Answer,
    /// Whether what is only read was left as it was. Its copy is not kept: it may be large.
    unchanged: bool,
    out: Out,
}

impl Ran {
    fn of(runner: Runner, call: &Call) -> Ran {
        let mut copy = call.clone();
        let answer = runner(&mut copy);
        Ran {
            answer,
            unchanged: copy.lent == call.lent,
            out: copy.out,
        }
    }
}

/// Where two implementations differ, or one changed what is only read.
fn difference(left: &Ran, right: &Ran) -> Option<String> {
    if left.answer != right.answer {
        return Some(format!("answers {} and {}", left.answer, right.answer));
    }
    if !(left.unchanged && right.unchanged) {
        return Some("a slice that is only read was changed".to_string());
    }
    let (a, b) = (&left.out, &right.out);
    if a.value != b.value {
        return Some(format!("values {} and {}", a.value, b.value));
    }
    if a.reading != b.reading {
        return Some(format!("readings {:?} and {:?}", a.reading, b.reading));
    }
    buffers("result", &a.result, &b.result)
        .or_else(|| buffers("table", &a.table, &b.table))
        .or_else(|| rows(&a.rows, &b.rows))
        .or_else(|| buffers("work", &a.work, &b.work))
}

fn rows(a: &Option<[Buffer<u32>; 3]>, b: &Option<[Buffer<u32>; 3]>) -> Option<String> {
    let pairs = a.as_ref()?.iter().zip(b.as_ref()?);
    let mut named = pairs.zip(["g", "T", "T'"]);
    named.find_map(|((a, b), name)| differs(name, a, b))
}

fn buffers<T>(name: &str, a: &Option<Buffer<T>>, b: &Option<Buffer<T>>) -> Option<String>
where
    T: Copy + PartialEq,
{
    differs(name, a.as_ref()?, b.as_ref()?)
}

fn differs<T: Copy + PartialEq>(name: &str, a: &Buffer<T>, b: &Buffer<T>) -> Option<String> {
    let place = a.first_difference(b)?;
    let length = a.lent().len();
    Some(format!("{name} differs first at {place} of {length}"))
}

/// What no job may do, whatever the two sides agree on: a number that is not the job's, a place
/// where none is named or that is not the first which offends, a changed result after a refusal, a
/// reading of a refused word, a wrong work buffer.
fn fault(before: &Call, after: &Ran) -> Option<String> {
    let answer = after.answer;
    let number = answer.number;
    let places = match number {
        4..=6 | 23 => true,
        20 | 22 => answer.second == 0,
        _ => answer.first == 0 && answer.second == 0,
    };
    let first = !(4..=6).contains(&number) || place::is_first(&before.lent, answer);
    let results = before.out.same_results(&after.out);
    let unread = after.out.reading == (0, 0);
    let work = match &after.out.work {
        Some(work) if number == 0 || number == 8 => work.lent().iter().all(|&word| word == 0),
        _ => before.out.work == after.out.work,
    };
    let rules = [
        (before.job.numbers().contains(&number), "a foreign number"),
        (places, "a place where none is named"),
        (first, "a place that is not the first which offends"),
        (number == 0 || results, "a changed result after a refusal"),
        (number == 0 || unread, "a reading of a refused word"),
        (work, "a wrong work buffer"),
    ];
    let broken = rules.iter().find(|(holds, _)| !holds)?;
    Some(format!("both answer {answer}, but: {}", broken.1))
}

#[cfg(test)]
mod tests {
    use super::*;
    use crate::call::Input;
    use crate::good::{formed, Shape};
    use crate::job::Job;
    use crate::run;
    use tvarchula_reference::sample::Rng;
    use tvarchula_reference::{Field, Reference};

    #[test]
    fn a_changed_input_is_a_difference_even_if_both_change_it() {
        fn changes(call: &mut Call) -> Answer {
            let answer = run::any::<Reference>(call);
            call.lent.words_mut(Input::Z)[0] ^= 1;
            answer
        }
        let call = formed(
            Job::Evaluate,
            Shape::random(3, 2),
            &mut Rng::new(Field::First, 1),
        );
        for sides in [
            [run::any::<Reference>, changes as Runner],
            [changes, run::any::<Reference>],
            [changes, changes],
        ] {
            let found = Comparison::new(sides[0], sides[1]).check(&call);
            let what = found.expect_err("an input was changed").what;
            assert_eq!(what, "a slice that is only read was changed");
        }
    }

    /// Both sides name the same place, and it is wrong.
    #[test]
    fn a_wrong_place_is_a_fault_even_if_both_name_it() {
        fn second_word(call: &mut Call) -> Answer {
            let answer = run::any::<Reference>(call);
            let first = answer.first + u32::from(answer.number == 4);
            Answer { first, ..answer }
        }
        let mut call = formed(
            Job::Evaluate,
            Shape::random(3, 2),
            &mut Rng::new(Field::First, 1),
        );
        call.lent.words_mut(Input::Z)[1..].fill(u32::MAX);
        let found = Comparison::new(second_word, second_word).check(&call);
        let what = found.expect_err("a wrong place").what;
        let due = "both answer 4 (2, 5), but: a place that is not the first which offends";
        assert_eq!(what, due);
        let reference = run::any::<Reference>;
        let found = Comparison::new(reference, reference).check(&call);
        assert!(found.is_ok_and(|answer| (answer.first, answer.second) == (1, 5)));
    }

    #[test]
    fn a_reading_of_a_refused_word_is_a_fault_even_if_both_give_it() {
        fn reads(call: &mut Call) -> Answer {
            let answer = run::any::<Reference>(call);
            call.out.reading = (1, 7);
            answer
        }
        let mut call = formed(
            Job::ReadClearance,
            Shape::random(0, 2),
            &mut Rng::new(Field::First, 1),
        );
        call.lent.words_mut(Input::Word)[0] = u32::MAX;
        let found = Comparison::new(reads, reads).check(&call);
        let what = found.expect_err("a reading").what;
        assert_eq!(
            what,
            "both answer 4 (0, 4), but: a reading of a refused word"
        );
    }
}
