//! Verifiers that are wrong about which query lists 7 refuses.

use crate::verifier::REFERENCE;
use crate::{all_found, asked, has_large_word, on_changed, prefers, Sweep};
use tvarchula_compare::{sweep, Call, Input, Job, Runner};
use tvarchula_reference::Answer;

/// Takes queries that are refused, as if they were others.
fn takes_queries(call: &mut Call, change: impl Fn(&mut Vec<u32>, u32)) -> Answer {
    if call.job == Job::VerifyOpening && asked(call, REFERENCE).number == 7 {
        return on_changed(call, REFERENCE, |call| {
            let below = match call.lent.depth() {
                0 => 0,
                depth => (call.lent.rate() * call.lent.k0()) << (depth - 1),
            };
            change(call.lent.words_mut(Input::Queries), below);
        });
    }
    REFERENCE(call)
}

fn takes_257_queries(call: &mut Call) -> Answer {
    takes_queries(call, |queries, _| {
        if queries.len() == 257 {
            queries.pop();
        }
    })
}

fn takes_no_queries(call: &mut Call) -> Answer {
    takes_queries(call, |queries, below| {
        if queries.is_empty() && below > 0 {
            queries.push(0);
        }
    })
}

fn takes_queries_at_depth_0(call: &mut Call) -> Answer {
    takes_queries(call, |queries, below| {
        if below == 0 {
            queries.clear();
        }
    })
}

fn takes_the_place_after_the_last(call: &mut Call) -> Answer {
    takes_queries(call, |queries, below| {
        queries
            .iter_mut()
            .filter(|q| **q == below && below > 0)
            .for_each(|q| *q = 0);
    })
}

fn judges_query_words_by_4(call: &mut Call) -> Answer {
    let p = call.lent.field.modulus();
    prefers(call, REFERENCE, 7, 4, |call| {
        call.lent
            .words(Input::Queries)
            .iter()
            .any(|&word| word >= p)
    })
}

fn judges_query_counts_by_3(call: &mut Call) -> Answer {
    prefers(call, REFERENCE, 7, 3, |call| {
        call.lent.words(Input::Queries).len() > 256
    })
}

fn judges_queries_before_words(call: &mut Call) -> Answer {
    prefers(call, REFERENCE, 4, 7, |call| {
        let large = call.lent.words(Input::Queries).contains(&u32::MAX);
        large && has_large_word(call)
    })
}

#[test]
fn query_lists() {
    let mutants: [(&str, Runner); 7] = [
        ("takes 257 queries", takes_257_queries),
        ("takes no queries", takes_no_queries),
        ("takes queries at depth 0", takes_queries_at_depth_0),
        (
            "takes the place after the last",
            takes_the_place_after_the_last,
        ),
        ("4 for a large query", judges_query_words_by_4),
        ("3 for a long query list", judges_query_counts_by_3),
        ("7 before 4", judges_queries_before_words),
    ];
    let sweeps: [Sweep; 1] = [|c, field| sweep::opening::verifying(c, field, 1)];
    all_found(REFERENCE, &mutants, &sweeps);
}
