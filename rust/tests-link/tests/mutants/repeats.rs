//! Verifiers that are wrong about repeated queries.

use crate::verifier::{judged, with_queries, REFERENCE};
use crate::{all_found, asked, prefers, Sweep};
use tvarchula_compare::{sweep, Call, Input, Job, Runner};
use tvarchula_reference::{over, Answer};

fn queries(call: &Call) -> &[u32] {
    call.lent.words(Input::Queries)
}

fn repeats(queries: &[u32]) -> bool {
    let mut sorted = queries.to_vec();
    sorted.sort();
    sorted.windows(2).any(|pair| pair[0] == pair[1])
}

/// The verdict on all queries, repeated or not, where none of 1 to 7 and 13 is due.
fn unrefused(call: &Call) -> Option<Answer> {
    if call.job != Job::VerifyOpening || matches!(asked(call, REFERENCE).number, 1..=7 | 13) {
        return None;
    }
    let list: Vec<usize> = queries(call).iter().map(|&place| place as usize).collect();
    let mut first = call.clone();
    first.lent.words_mut(Input::Queries).truncate(1);
    let verdict = over!(call.lent.field, P => {
        let (code, claim) = judged::<P>(&first).expect("one query repeats none");
        with_queries(&code, &claim, &list)
    });
    Some(verdict.into())
}

/// A verifier that refuses with 11 by another test of the list.
fn refuses_by(call: &mut Call, test: impl Fn(&[u32]) -> bool) -> Answer {
    match unrefused(call) {
        Some(_) if test(queries(call)) => Answer::plain(11),
        Some(verdict) => verdict,
        None => REFERENCE(call),
    }
}

fn accepts_repeats(call: &mut Call) -> Answer {
    refuses_by(call, |_| false)
}

fn compares_neighbours(call: &mut Call) -> Answer {
    refuses_by(call, |list| list.windows(2).any(|pair| pair[0] == pair[1]))
}

fn leaves_out_the_last(call: &mut Call) -> Answer {
    refuses_by(call, |list| repeats(&list[..list.len().saturating_sub(1)]))
}

fn leaves_out_the_first(call: &mut Call) -> Answer {
    refuses_by(call, |list| repeats(list.get(1..).unwrap_or(&[])))
}

fn compares_with_the_first(call: &mut Call) -> Answer {
    refuses_by(call, |list| {
        let (first, others) = list.split_first().unwrap_or((&0, &[]));
        others.contains(first)
    })
}

fn compares_with_the_last(call: &mut Call) -> Answer {
    refuses_by(call, |list| {
        let (last, others) = list.split_last().unwrap_or((&0, &[]));
        others.contains(last)
    })
}

/// Takes two queries at a time to compare with those behind them, but not with each other.
fn compares_no_two_of_a_pair(call: &mut Call) -> Answer {
    refuses_by(call, |list| {
        let behind = |k: usize| list[k / 2 * 2..].iter().skip(2).any(|q| *q == list[k]);
        (0..list.len()).any(behind)
    })
}

/// Takes two queries at a time, and only the first of them is compared with those behind.
fn compares_every_other(call: &mut Call) -> Answer {
    refuses_by(call, |list| {
        let mut first = (0..list.len()).step_by(2);
        first.any(|k| list[k + 1..].contains(&list[k]))
    })
}

/// Stops at the last whole group of four.
fn compares_whole_groups(call: &mut Call) -> Answer {
    refuses_by(call, |list| repeats(&list[..list.len() / 4 * 4]))
}

fn compares_remainders(call: &mut Call, by: u32) -> Answer {
    refuses_by(call, |list| {
        let low: Vec<u32> = list.iter().map(|place| place % by).collect();
        repeats(&low)
    })
}

fn compares_with_itself(call: &mut Call) -> Answer {
    refuses_by(call, |list| list.iter().any(|place| list.contains(place)))
}

fn refuses_two_or_more(call: &mut Call) -> Answer {
    refuses_by(call, |list| list.len() > 1)
}

fn looks_at_short_lists_only(call: &mut Call) -> Answer {
    refuses_by(call, |list| list.len() < 256 && repeats(list))
}

/// Answers 11 where another refusal comes first.
fn sooner(call: &mut Call, than: u32) -> Answer {
    if call.job != Job::VerifyOpening {
        return REFERENCE(call);
    }
    prefers(call, REFERENCE, than, 11, |call| repeats(queries(call)))
}

/// Names a failed check of this number where a repeat is to be refused.
fn later(call: &mut Call, than: u32) -> Answer {
    match unrefused(call) {
        Some(verdict) if verdict.number == than => verdict,
        _ => REFERENCE(call),
    }
}

fn another_answer(call: &mut Call, instead: impl Fn(&[u32]) -> Answer) -> Answer {
    match REFERENCE(call) {
        Answer { number: 11, .. } => instead(queries(call)),
        answer => answer,
    }
}

fn names_the_position(call: &mut Call) -> Answer {
    another_answer(call, |list| {
        let first = (0..list.len()).find(|&k| list[..k].contains(&list[k]));
        Answer {
            first: first.expect("a repeat") as u32,
            ..Answer::plain(11)
        }
    })
}

#[test]
fn repeated_queries() {
    let mutants: [(&str, Runner); 25] = [
        ("accepts repeats", accepts_repeats),
        ("compares neighbours only", compares_neighbours),
        ("leaves out the last query", leaves_out_the_last),
        ("leaves out the first query", leaves_out_the_first),
        ("compares with the first only", compares_with_the_first),
        ("compares with the last only", compares_with_the_last),
        ("compares no two of a pair", compares_no_two_of_a_pair),
        ("compares every other query", compares_every_other),
        ("compares whole groups of four", compares_whole_groups),
        ("compares low bytes", |call| compares_remainders(call, 256)),
        ("compares remainders", |call| {
            compares_remainders(call, 1024)
        }),
        ("compares a query with itself", compares_with_itself),
        ("refuses two queries or more", refuses_two_or_more),
        ("looks at short lists only", looks_at_short_lists_only),
        ("11 before 3", |call| sooner(call, 3)),
        ("11 before 4", |call| sooner(call, 4)),
        ("11 before 5", |call| sooner(call, 5)),
        ("11 before 6", |call| sooner(call, 6)),
        ("11 before 7", |call| sooner(call, 7)),
        ("11 after 20", |call| later(call, 20)),
        ("11 after 21", |call| later(call, 21)),
        ("11 after 22", |call| later(call, 22)),
        ("11 after 23", |call| later(call, 23)),
        ("7 for a repeat", |call| {
            another_answer(call, |_| Answer::plain(7))
        }),
        ("names the position of a repeat", names_the_position),
    ];
    let sweeps: [Sweep; 1] = [sweep::repeats::run];
    all_found(REFERENCE, &mutants, &sweeps);
}
