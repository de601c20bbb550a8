//! Jobs that name a wrong place with 4, 5 or 6.

use crate::all_found;
use tvarchula_compare::{run, sweep, Call, Comparison, Input, Job, Runner};
use tvarchula_reference::sample::Rng;
use tvarchula_reference::{Answer, Field, Reference};

const REFERENCE: Runner = run::any::<Reference>;

/// The jobs that name a place. Of these, from front to back: those that are lent slices, more than one
/// input, diagonals, a whole code.
const ALL: &[Job] = &[
    Job::ReadClearance,
    Job::CoefficientsToTable,
    Job::Evaluate,
    Job::Fold,
    Job::Encode,
    Job::Decode,
    Job::WriteOpening,
    Job::VerifyOpening,
];
const SLICES: &[Job] = ALL.split_at(1).1;
const SEVERAL: &[Job] = ALL.split_at(2).1;
const DIAGONALS: &[Job] = ALL.split_at(3).1;
const CODES: &[Job] = ALL.split_at(4).1;

/// Another place where one of these numbers is answered.
fn renames(call: &mut Call, numbers: &[u32], rename: impl Fn(&Call, &mut Answer)) -> Answer {
    let mut answer = REFERENCE(call);
    if numbers.contains(&answer.number) {
        rename(call, &mut answer);
    }
    answer
}

/// The words of an input that the job is lent, by its number.
fn words(call: &Call, number: u32) -> &[u32] {
    let mut lent = call.lent.words.iter();
    let found = lent.find(|(input, _)| input.number() == Some(number));
    found.map_or(&[], |(_, words)| words)
}

/// Which words of a call are high.
fn is_high(call: &Call) -> impl Fn(&u32) -> bool {
    let p = call.lent.field.modulus();
    move |word| *word >= p
}

fn names_the_last_word(call: &mut Call) -> Answer {
    renames(call, &[4], |call, answer| {
        let last = words(call, answer.second).iter().rposition(is_high(call));
        answer.first = last.expect("the named one") as u32;
    })
}

/// Names the first word of another input where that has one.
fn renames_to(call: &Call, answer: &mut Answer, input: u32) {
    if let Some(index) = words(call, input).iter().position(is_high(call)) {
        (answer.first, answer.second) = (index as u32, input);
    }
}

fn names_the_last_input(call: &mut Call) -> Answer {
    renames(call, &[4], |call, answer| {
        (answer.second..=8).for_each(|input| renames_to(call, answer, input));
    })
}

/// Judges an input before one that comes first.
fn sooner(call: &mut Call, input: u32, than: u32) -> Answer {
    renames(call, &[4], |call, answer| {
        if answer.second == than {
            renames_to(call, answer, input);
        }
    })
}

/// Names an input by the number of another.
fn takes_for(call: &mut Call, input: u32, instead: u32) -> Answer {
    renames(call, &[4], |_, answer| {
        if answer.second == input {
            answer.second = instead;
        }
    })
}

/// Counts from the start of the level, of one input (none for 6).
fn counts_within_the_level(call: &mut Call, number: u32, input: u32) -> Answer {
    renames(call, &[number], |call, answer| {
        let (sizes, index) = (call.lent.layout(), answer.first as usize);
        let mut levels = (0..sizes.depth).map(|level| sizes.diagonal(level));
        if answer.second == input {
            let level = levels.find(|level| level.contains(&index));
            answer.first -= level.expect("a level").start as u32;
        }
    })
}

/// Counts as if a fold were lent all levels.
fn counts_from_the_lowest_level(call: &mut Call, number: u32) -> Answer {
    renames(call, &[number], |call, answer| {
        let sizes = call.lent.layout();
        if matches!(answer.second, 0 | 2 | 3) {
            answer.first += sizes.diagonal(sizes.depth - 1).start as u32;
        }
    })
}

fn swaps_index_and_input(call: &mut Call) -> Answer {
    renames(call, &[4], |_, answer| {
        (answer.first, answer.second) = (answer.second, answer.first);
    })
}

fn names_the_last_zero(call: &mut Call) -> Answer {
    renames(call, &[5], |call, answer| {
        if call.lent.k0() == 1 {
            let mut g = call.lent.words(Input::G).iter();
            let last = g.rposition(|&word| word == 0);
            answer.first = last.expect("the named one") as u32;
        }
    })
}

fn names_the_last_pair(call: &mut Call) -> Answer {
    renames(call, &[6], |call, answer| {
        let (t, t2) = (call.lent.words(Input::T), call.lent.words(Input::T2));
        let last = (0..t.len()).rfind(|&j| t[j] == t2[j]);
        answer.first = last.expect("the named one") as u32;
    })
}

fn names_index_0(call: &mut Call, number: u32) -> Answer {
    renames(call, &[number], |_, answer| answer.first = 0)
}

fn names_no_place(call: &mut Call) -> Answer {
    renames(call, &[4], |_, answer| *answer = Answer::plain(4))
}

fn counts_from_1(call: &mut Call) -> Answer {
    renames(call, &[4, 5, 6], |_, answer| answer.first += 1)
}

/// Tests four words at a time and names the first of them.
fn names_a_group_of_four(call: &mut Call) -> Answer {
    renames(call, &[4, 5, 6], |_, answer| answer.first &= !3)
}

/// Names an input where there is only one.
fn adds_the_input(call: &mut Call, number: u32, input: u32) -> Answer {
    renames(call, &[number], |_, answer| answer.second = input)
}

#[test]
fn places() {
    let evaluating: &[Job] = &[Job::Evaluate, Job::WriteOpening, Job::VerifyOpening];
    let opening: &[Job] = &[Job::WriteOpening, Job::VerifyOpening];
    let mutants: [(&str, Runner, &[Job]); 31] = [
        ("the last large word", names_the_last_word, SLICES),
        ("the last input", names_the_last_input, SEVERAL),
        ("T before g", |call| sooner(call, 2, 1), CODES),
        ("T' before T", |call| sooner(call, 3, 2), DIAGONALS),
        ("the block before T'", |call| sooner(call, 4, 3), DIAGONALS),
        ("z before the block", |call| sooner(call, 5, 4), evaluating),
        ("r before z", |call| sooner(call, 7, 5), opening),
        ("y before z", |call| sooner(call, 6, 5), &opening[1..]),
        ("r before y", |call| sooner(call, 7, 6), &opening[1..]),
        (
            "the opening before r",
            |call| sooner(call, 8, 7),
            &opening[1..],
        ),
        (
            "the challenge before the block",
            |call| sooner(call, 7, 4),
            &[Job::Fold],
        ),
        ("T' for T", |call| takes_for(call, 2, 3), DIAGONALS),
        ("T for T'", |call| takes_for(call, 3, 2), DIAGONALS),
        ("z for y", |call| takes_for(call, 6, 5), &opening[1..]),
        (
            "the block for the challenge",
            |call| takes_for(call, 7, 4),
            &[Job::Fold],
        ),
        (
            "4 within a level of T",
            |call| counts_within_the_level(call, 4, 2),
            CODES,
        ),
        (
            "4 within a level of T'",
            |call| counts_within_the_level(call, 4, 3),
            CODES,
        ),
        (
            "6 within a level",
            |call| counts_within_the_level(call, 6, 0),
            CODES,
        ),
        (
            "4 of a fold over all levels",
            |call| counts_from_the_lowest_level(call, 4),
            &[Job::Fold],
        ),
        (
            "6 of a fold over all levels",
            |call| counts_from_the_lowest_level(call, 6),
            &[Job::Fold],
        ),
        ("index and input swapped", swaps_index_and_input, ALL),
        ("the last zero", names_the_last_zero, CODES),
        ("the last pair", names_the_last_pair, DIAGONALS),
        ("4 at 0 always", |call| names_index_0(call, 4), SLICES),
        ("5 at 0 always", |call| names_index_0(call, 5), CODES),
        ("6 at 0 always", |call| names_index_0(call, 6), DIAGONALS),
        ("no place", names_no_place, ALL),
        ("counts from 1", counts_from_1, ALL),
        (
            "the first of a group of four",
            names_a_group_of_four,
            SLICES,
        ),
        ("5 names g", |call| adds_the_input(call, 5, 1), CODES),
        ("6 names T", |call| adds_the_input(call, 6, 2), DIAGONALS),
    ];
    for &job in ALL {
        let wrong = mutants.iter().filter(|(_, _, jobs)| jobs.contains(&job));
        let wrong: Vec<_> = wrong.map(|&(name, mutant, _)| (name, mutant)).collect();
        let sweep =
            |c: &mut Comparison, field: Field| sweep::places::run(c, job, &mut Rng::new(field, 1));
        all_found(REFERENCE, &wrong, &[sweep]);
    }
}
