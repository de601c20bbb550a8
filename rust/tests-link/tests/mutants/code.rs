//! Wrong encoders, decoders and folds.

use crate::{
    afterwards, all_found, asked, has_large_word, of_its_field, on_changed, prefers, reduce_words,
    Sweep,
};
use tvarchula_compare::{run, sweep, Call, Input, Job, Runner};
use tvarchula_reference::{Answer, Reference, Residue};

const REFERENCE: Runner = run::code::<Reference>;

fn swap_halves(words: &mut [u32]) {
    let half = words.len() / 2;
    words.rotate_left(half);
}

fn encodes_with_halves_swapped(call: &mut Call) -> Answer {
    on_changed(call, REFERENCE, |call| {
        if call.job == Job::Encode {
            swap_halves(call.lent.words_mut(Input::Message));
        }
    })
}

fn encodes_with_diagonals_swapped(call: &mut Call) -> Answer {
    on_changed(call, REFERENCE, |call| {
        if call.job == Job::Encode {
            let t = call.lent.words(Input::T).to_vec();
            let t2 = call.lent.words.insert(Input::T2, t);
            call.lent.words.insert(Input::T, t2.expect("lent"));
        }
    })
}

/// Takes -T for T', which is only a special case: in legal calls, and where T has no zero.
fn ignores_t2(call: &mut Call, job: Job) -> Answer {
    let other = |call: &mut Call| {
        let p = call.lent.field.modulus();
        let t = call.lent.words(Input::T).iter();
        let negated = t.map(|&t| (p - t) % p);
        let negated = negated.collect();
        call.lent.words.insert(Input::T2, negated);
    };
    let legal = call.job == job && asked(call, REFERENCE) == Answer::DONE;
    if legal && !call.lent.words(Input::T).contains(&0) {
        return on_changed(call, REFERENCE, other);
    }
    REFERENCE(call)
}

fn encodes_without_t2(call: &mut Call) -> Answer {
    ignores_t2(call, Job::Encode)
}

fn folds_without_t2(call: &mut Call) -> Answer {
    ignores_t2(call, Job::Fold)
}

fn writes_no_fold(call: &mut Call) -> Answer {
    afterwards(call, REFERENCE, &[0], |before, call| {
        if call.job == Job::Fold {
            call.out = before.out.clone();
        }
    })
}

/// Puts the last word right before decoding, where that is easy to see.
fn decodes_without_the_last_word<const P: u32>(call: &mut Call) -> Answer {
    on_changed(call, REFERENCE, |call| {
        let well = call.job == Job::Decode && (call.lent.depth(), call.lent.k0()) == (0, 1);
        if well && asked(call, REFERENCE).number == 8 {
            let residue = |input, j: usize| {
                let words: &[u32] = call.lent.words(input);
                Residue::<P>::new(words[j]).unwrap()
            };
            let last = call.lent.words(Input::Block).len() - 1;
            let m = residue(Input::Block, 0) * residue(Input::G, 0).inverse().unwrap();
            let word = m * residue(Input::G, last);
            call.lent.words_mut(Input::Block)[last] = word.word();
        }
    })
}

fn leaves_work_after_8(call: &mut Call) -> Answer {
    afterwards(call, REFERENCE, &[8], |before, call| {
        call.out.work = before.out.work.clone();
    })
}

fn leaves_work_after_success(call: &mut Call) -> Answer {
    afterwards(call, REFERENCE, &[0], |_, call| {
        if let Some(last) = call.out.parts().work.last_mut() {
            *last = 1;
        }
    })
}

fn clears_work_after_6(call: &mut Call) -> Answer {
    afterwards(call, REFERENCE, &[6], |_, call| {
        call.out.parts().work.fill(0)
    })
}

fn writes_a_message_after_8(call: &mut Call) -> Answer {
    afterwards(call, REFERENCE, &[8], |_, call| {
        call.out.parts().result[0] = 0
    })
}

fn writes_a_block_after_6(call: &mut Call) -> Answer {
    afterwards(call, REFERENCE, &[6], |_, call| {
        call.out.parts().result.fill(0)
    })
}

fn has_equal_pair(call: &Call) -> bool {
    let (t, t2) = (call.lent.words(Input::T), call.lent.words(Input::T2));
    t.iter().zip(t2).any(|(a, b)| a == b)
}

fn judges_pairs_before_the_row(call: &mut Call) -> Answer {
    prefers(call, REFERENCE, 5, 6, has_equal_pair)
}

fn judges_the_row_before_words(call: &mut Call) -> Answer {
    let zero = |call: &Call| {
        call.lent
            .words
            .get(&Input::G)
            .is_some_and(|g| g.contains(&0))
    };
    prefers(call, REFERENCE, 4, 5, zero)
}

fn judges_words_before_lengths(call: &mut Call) -> Answer {
    prefers(call, REFERENCE, 3, 4, has_large_word)
}

fn judges_the_rate_first(call: &mut Call) -> Answer {
    let illegal = |call: &Call| !(2..=16).contains(&call.lent.rate());
    prefers(call, REFERENCE, 1, 2, illegal)
}

fn answers_instead(call: &mut Call, number: u32, when: impl Fn(&Call) -> bool) -> Answer {
    if asked(call, REFERENCE) == Answer::DONE && when(call) {
        return Answer::plain(number);
    }
    REFERENCE(call)
}

fn refuses_zeros_in_t(call: &mut Call) -> Answer {
    answers_instead(call, 6, |call| call.lent.words(Input::T).contains(&0))
}

fn refuses_challenges_on_t(call: &mut Call) -> Answer {
    answers_instead(call, 6, |call| {
        call.job == Job::Fold
            && call
                .lent
                .words(Input::T)
                .contains(&call.lent.single(Input::Challenge))
    })
}

fn refuses_odd_rates(call: &mut Call) -> Answer {
    answers_instead(call, 2, |call| !call.lent.rate().is_power_of_two())
}

fn refuses_depth_20(call: &mut Call) -> Answer {
    answers_instead(call, 1, |call| call.lent.depth() == 20)
}

fn takes_depth_21(call: &mut Call) -> Answer {
    prefers(call, REFERENCE, 1, 3, |call| call.lent.depth() == 21)
}

fn refuses_words_of_p_minus_1(call: &mut Call) -> Answer {
    answers_instead(call, 4, |call| {
        let last = call.lent.field.modulus() - 1;
        let mut words = call.lent.words.values().flatten();
        words.any(|&word| word == last)
    })
}

fn folds_level_0_with_3(call: &mut Call) -> Answer {
    let level_0 = |call: &Call| call.job == Job::Fold && call.lent.depth() == 0;
    prefers(call, REFERENCE, 1, 3, level_0)
}

fn reduces_words(call: &mut Call) -> Answer {
    on_changed(call, REFERENCE, reduce_words)
}

fn reduces_the_challenge(call: &mut Call) -> Answer {
    let p = call.lent.field.modulus();
    on_changed(call, REFERENCE, |call| {
        if let Some(challenge) = call.lent.words.get_mut(&Input::Challenge) {
            challenge[0] %= p;
        }
    })
}

/// Does not see an equal pair in the last place.
fn overlooks_the_last_pair(call: &mut Call) -> Answer {
    if asked(call, REFERENCE).number == 6 {
        let (t, t2) = (call.lent.words(Input::T), call.lent.words(Input::T2));
        let first = t.iter().zip(t2).position(|(a, b)| a == b);
        if first == Some(t.len() - 1) {
            return Answer::DONE;
        }
    }
    REFERENCE(call)
}

#[test]
fn code() {
    let mutants: [(&str, Runner); 27] = [
        ("encodes with halves swapped", encodes_with_halves_swapped),
        (
            "encodes with T and T' swapped",
            encodes_with_diagonals_swapped,
        ),
        ("encodes with -T for T'", encodes_without_t2),
        ("folds with -T for T'", folds_without_t2),
        ("writes no fold", writes_no_fold),
        (
            "decodes without the last word",
            of_its_field!(decodes_without_the_last_word),
        ),
        ("leaves work after 8", leaves_work_after_8),
        ("leaves work after success", leaves_work_after_success),
        ("clears work after 6", clears_work_after_6),
        ("writes a message after 8", writes_a_message_after_8),
        ("writes a block after 6", writes_a_block_after_6),
        ("6 before 5", judges_pairs_before_the_row),
        ("5 before 4", judges_the_row_before_words),
        ("4 before 3", judges_words_before_lengths),
        ("2 before 1", judges_the_rate_first),
        ("refuses zeros in T", refuses_zeros_in_t),
        ("refuses challenges on T", refuses_challenges_on_t),
        ("refuses odd rates", refuses_odd_rates),
        ("refuses depth 20", refuses_depth_20),
        ("takes depth 21", takes_depth_21),
        ("refuses p - 1", refuses_words_of_p_minus_1),
        ("3 for folding level 0", folds_level_0_with_3),
        ("reduces words", reduces_words),
        ("reduces the challenge", reduces_the_challenge),
        ("overlooks the last pair", overlooks_the_last_pair),
        ("no codeword is a codeword", |call| match REFERENCE(call) {
            answer if answer.number == 8 => Answer::DONE,
            answer => answer,
        }),
        ("refuses all", |_| Answer::plain(1)),
    ];
    let sweeps: [Sweep; 2] = [
        |c, field| sweep::code::run(c, field, 1),
        sweep::code::sixteen,
    ];
    all_found(REFERENCE, &mutants, &sweeps);
}
