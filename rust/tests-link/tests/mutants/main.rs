//! Deliberately wrong jobs: the comparison must find every one of them.
//!
//! Each mutant is the reference with one mistake, most of them mistakes that the order warns of.

mod blocks;
mod code;
mod field;
mod fill;
mod ground;
mod opening;
mod places;
mod queries;
mod repeats;
mod verifier;

use std::io::Write;
use tvarchula_compare::sweep::Swept;
use tvarchula_compare::{Call, Comparison, Input, Runner};
use tvarchula_reference::{Answer, Field};

type Sweep = fn(&mut Comparison, Field) -> Swept;

/// A wrong job that is over a modulus, as one over the field of each call.
#[macro_export]
macro_rules! of_its_field {
    ($job:ident) => {
        |call| tvarchula_reference::over!(call.lent.field, P => $job::<P>(call))
    };
}

/// Shows that every mutant is found in each field, and prints what found it.
fn all_found<S>(reference: Runner, mutants: &[(&str, Runner)], sweeps: &[S])
where
    S: Fn(&mut Comparison, Field) -> Swept,
{
    for field in Field::ALL {
        found_over(field, reference, mutants, sweeps);
    }
}

/// Shows that every mutant is found in the sweeps of a field.
fn found_over<S>(field: Field, reference: Runner, mutants: &[(&str, Runner)], sweeps: &[S])
where
    S: Fn(&mut Comparison, Field) -> Swept,
{
    let mut unseen = Vec::new();
    for &(name, mutant) in mutants {
        let mut comparison = Comparison::new(mutant, reference);
        let mut sweeps = sweeps.iter();
        let swept = sweeps.try_for_each(|sweep| sweep(&mut comparison, field));
        let shown = match swept {
            Ok(()) => {
                unseen.push(name);
                format!("NOT FOUND: {name}, {field:?} field\n")
            }
            Err(difference) => {
                let calls = comparison.tally.total() + 1;
                let Call { job, note, .. } = &*difference.call;
                let what = &difference.what;
                format!("found: {name}: {field:?} field, call {calls}, {job:?} ({note}): {what}\n")
            }
        };
        std::io::stderr()
            .write_all(shown.as_bytes())
            .expect("stderr");
    }
    assert_eq!(unseen, Vec::<&str>::new(), "of {} mutants", mutants.len());
}

/// Runs a job on a changed copy of a call and keeps what it wrote.
fn on_changed(call: &mut Call, job: Runner, change: impl FnOnce(&mut Call)) -> Answer {
    let mut other = call.clone();
    change(&mut other);
    let answer = job(&mut other);
    call.out = other.out;
    answer
}

/// What a job answers, without keeping what it writes.
fn asked(call: &Call, job: Runner) -> Answer {
    job(&mut call.clone())
}

/// Runs a job and then changes what it wrote, if it answered one of these numbers.
fn afterwards(
    call: &mut Call,
    job: Runner,
    numbers: &[u32],
    change: impl FnOnce(&Call, &mut Call),
) -> Answer {
    let before = call.clone();
    let answer = job(call);
    if numbers.contains(&answer.number) {
        change(&before, call);
    }
    answer
}

/// Answers `instead` where a job answers `number` and a second fault is there too.
fn prefers(
    call: &mut Call,
    job: Runner,
    number: u32,
    instead: u32,
    also: impl Fn(&Call) -> bool,
) -> Answer {
    let answer = asked(call, job);
    if answer.number == number && also(call) {
        return Answer::plain(instead);
    }
    job(call)
}

/// A word of p or more is read.
fn has_large_word(call: &Call) -> bool {
    let p = call.lent.field.modulus();
    let inputs = call.lent.words.iter();
    let mut judged = inputs.filter(|(&input, _)| input != Input::Queries);
    judged.any(|(_, words)| words.iter().any(|&word| word >= p))
}

/// Reduces every word instead of refusing it.
fn reduce_words(call: &mut Call) {
    let p = call.lent.field.modulus();
    for (_, words) in call
        .lent
        .words
        .iter_mut()
        .filter(|(&i, _)| i != Input::Queries)
    {
        words.iter_mut().for_each(|word| *word %= p);
    }
}

/// The same words with the places' bits in reverse order.
fn bits_reversed<T: Copy>(words: &[T]) -> Vec<T> {
    let depth = words.len().trailing_zeros() as usize;
    let reversed = |b: usize| (0..depth).fold(0, |r, i| r << 1 | (b >> i & 1));
    (0..words.len()).map(|b| words[reversed(b)]).collect()
}
