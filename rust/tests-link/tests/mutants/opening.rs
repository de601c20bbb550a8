//! Wrong writers of openings.

use crate::{afterwards, all_found, has_large_word, on_changed, prefers, reduce_words, Sweep};
use tvarchula_compare::{run, sweep, Call, Input, Job, Runner};
use tvarchula_reference::{Answer, Layout, Reference};

const REFERENCE: Runner = run::opening::<Reference>;

/// Changes a written opening.
fn rewrites(call: &mut Call, change: impl Fn(&Layout, &mut [u32])) -> Answer {
    afterwards(call, REFERENCE, &[0], |_, call| {
        if call.job == Job::WriteOpening {
            change(&call.lent.layout(), call.out.parts().result);
        }
    })
}

/// Writes an opening of other inputs.
fn writes_of(call: &mut Call, change: impl Fn(&mut Call)) -> Answer {
    on_changed(call, REFERENCE, |call| {
        if call.job == Job::WriteOpening {
            change(call);
        }
    })
}

fn writes_rounds_upward(call: &mut Call) -> Answer {
    rewrites(call, |sizes, opening| {
        let rounds: Vec<_> = opening[..sizes.final_value()].chunks(3).collect();
        let upward: Vec<u32> = rounds.into_iter().rev().flatten().copied().collect();
        opening[..upward.len()].copy_from_slice(&upward);
    })
}

fn writes_blocks_upward(call: &mut Call) -> Answer {
    rewrites(call, |sizes, opening| {
        let levels = 0..sizes.depth;
        let upward = levels.flat_map(|i| opening[sizes.opening_block(i)].to_vec());
        let upward: Vec<u32> = upward.collect();
        opening[sizes.final_words().end..].copy_from_slice(&upward);
    })
}

fn writes_no_value_at_2(call: &mut Call) -> Answer {
    rewrites(call, |sizes, opening| {
        if sizes.depth > 0 {
            opening[sizes.round(1).start + 2] = 0;
        }
    })
}

fn writes_no_last_word(call: &mut Call) -> Answer {
    rewrites(call, |_, opening| {
        if let Some(last) = opening.last_mut() {
            *last = 77;
        }
    })
}

fn swaps_z_and_r(call: &mut Call) -> Answer {
    writes_of(call, |call| {
        let z = call.lent.words(Input::Z).to_vec();
        let r = call.lent.words.insert(Input::R, z);
        call.lent.words.insert(Input::Z, r.expect("lent"));
    })
}

fn folds_with_reversed_challenges(call: &mut Call) -> Answer {
    writes_of(call, |call| call.lent.words_mut(Input::R).reverse())
}

fn takes_z_for_r(call: &mut Call) -> Answer {
    writes_of(call, |call| {
        let z = call.lent.words(Input::Z).to_vec();
        if z.len() == call.lent.words(Input::R).len() {
            call.lent.words.insert(Input::R, z);
        }
    })
}

fn returns_the_final_value(call: &mut Call) -> Answer {
    afterwards(call, REFERENCE, &[0], |_, call| {
        if call.job == Job::WriteOpening {
            let v = 3 * call.lent.depth() as usize;
            call.out.value = call.out.parts().result[v];
        }
    })
}

fn returns_no_value(call: &mut Call) -> Answer {
    afterwards(call, REFERENCE, &[0], |before, call| {
        call.out.value = before.out.value;
    })
}

fn leaves_work(call: &mut Call) -> Answer {
    afterwards(call, REFERENCE, &[0], |before, call| {
        call.out.work = before.out.work.clone();
    })
}

fn asks_for_half_the_work(call: &mut Call) -> Answer {
    let written = call.job == Job::WriteOpening;
    prefers(call, REFERENCE, 0, 3, |_| written)
}

fn reduces_words(call: &mut Call) -> Answer {
    writes_of(call, reduce_words)
}

fn judges_words_before_lengths(call: &mut Call) -> Answer {
    prefers(call, REFERENCE, 3, 4, has_large_word)
}

fn writes_after_a_refusal(call: &mut Call) -> Answer {
    afterwards(call, REFERENCE, &[5], |_, call| {
        call.out.parts().result.fill(0)
    })
}

#[test]
fn writers() {
    let mutants: [(&str, Runner); 14] = [
        ("rounds upward", writes_rounds_upward),
        ("blocks upward", writes_blocks_upward),
        ("no value at 2 in round 1", writes_no_value_at_2),
        ("a wrong last word", writes_no_last_word),
        ("z and r swapped", swaps_z_and_r),
        ("challenges reversed", folds_with_reversed_challenges),
        ("z for r", takes_z_for_r),
        ("returns f(r)", returns_the_final_value),
        ("returns no value", returns_no_value),
        ("leaves work", leaves_work),
        ("refuses the exact work", asks_for_half_the_work),
        ("reduces words", reduces_words),
        ("4 before 3", judges_words_before_lengths),
        ("writes after 5", writes_after_a_refusal),
    ];
    let sweeps: [Sweep; 1] = [|c, field| sweep::opening::writing(c, field, 1)];
    all_found(REFERENCE, &mutants, &sweeps);
}
