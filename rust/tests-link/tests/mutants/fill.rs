//! Wrong fillings.

use crate::{afterwards, found_over, prefers, Sweep};
use tvarchula_compare::{run, sweep, Call, Job, Runner};
use tvarchula_reference::field::SECOND;
use tvarchula_reference::fill::root;
use tvarchula_reference::{Answer, Field, Reference, Residue};

const REFERENCE: Runner = run::code::<Reference>;

/// Fills T with other words, of a level with so many and at an index of it, and T' with their negatives.
fn fills(call: &mut Call, word: impl Fn(usize, usize) -> Residue<SECOND>) -> Answer {
    afterwards(call, REFERENCE, &[0], |_, call| {
        let sizes = call.lent.layout();
        let [_, t, t2] = call.out.parts().rows;
        for level in 0..sizes.depth {
            let range = sizes.diagonal(level);
            for (k, j) in range.enumerate() {
                let word = word(sizes.block(level), k);
                (t[j], t2[j]) = (word.word(), (-word).word());
            }
        }
    })
}

fn powers(order: usize, k: usize) -> Residue<SECOND> {
    root(order).power(k as u32)
}

fn takes_the_root_of_order_n(call: &mut Call) -> Answer {
    fills(call, powers)
}

fn takes_the_root_before_a_square(call: &mut Call) -> Answer {
    fills(call, |n, k| powers(4 * n, k))
}

fn takes_the_inverse_root(call: &mut Call) -> Answer {
    fills(call, |n, k| powers(2 * n, k).inverse().expect("a root"))
}

/// Its roots have the same orders.
fn takes_the_third_power(call: &mut Call) -> Answer {
    fills(call, |n, k| powers(2 * n, 3 * k))
}

/// 137 has the order 2^27 too.
fn takes_roots_of_another_generator(call: &mut Call) -> Answer {
    fills(call, |n, k| {
        let generator = Residue::new(137).expect("a residue");
        generator.power((1 << 27) / (2 * n as u32)).power(k as u32)
    })
}

fn counts_powers_from_1(call: &mut Call) -> Answer {
    fills(call, |n, k| powers(2 * n, k + 1))
}

fn takes_one_root_for_all_levels(call: &mut Call) -> Answer {
    let top = match (call.lent.depth(), call.lent.rate()) {
        (depth @ 1..=20, rate) => (rate as usize) << depth,
        _ => 2,
    };
    fills(call, |_, k| powers(top, k))
}

/// The powers in the order of reversed bits.
fn reverses_the_bits(call: &mut Call) -> Answer {
    fills(call, |n, k| {
        let bits = n.trailing_zeros();
        let reversed = (0..bits).fold(0, |reversed, i| 2 * reversed + (k >> i) % 2);
        powers(2 * n, reversed)
    })
}

/// Changes what was filled.
fn rewrites(call: &mut Call, change: impl Fn([&mut [u32]; 3])) -> Answer {
    afterwards(call, REFERENCE, &[0], |_, call| {
        change(call.out.parts().rows)
    })
}

fn writes_t_twice(call: &mut Call) -> Answer {
    rewrites(call, |[_, t, t2]| t2.copy_from_slice(t))
}

fn swaps_t_and_t2(call: &mut Call) -> Answer {
    rewrites(call, |[_, t, t2]| t.swap_with_slice(t2))
}

fn leaves_the_row(call: &mut Call) -> Answer {
    afterwards(call, REFERENCE, &[0], |before, call| {
        if let (Some(rows), Some(old)) = (&mut call.out.rows, &before.out.rows) {
            rows[0] = old[0].clone();
        }
    })
}

fn writes_zeros_in_the_row(call: &mut Call) -> Answer {
    rewrites(call, |[g, _, _]| g.fill(0))
}

fn leaves_the_last_word(call: &mut Call) -> Answer {
    rewrites(call, |[_, _, t2]| {
        if let Some(last) = t2.last_mut() {
            *last = 0;
        }
    })
}

fn writes_ones_after(call: &mut Call, number: u32) -> Answer {
    afterwards(call, REFERENCE, &[number], |_, call| {
        call.out.parts().rows[0].fill(1)
    })
}

/// Whether the rate is legal for every other job, and no power of two.
fn is_between_powers(call: &Call) -> bool {
    let rate = call.lent.rate();
    (2..=16).contains(&rate) && !rate.is_power_of_two()
}

fn judges_powers_before_lengths(call: &mut Call) -> Answer {
    prefers(call, REFERENCE, 3, 12, is_between_powers)
}

fn judges_powers_before_the_depth(call: &mut Call) -> Answer {
    prefers(call, REFERENCE, 1, 12, is_between_powers)
}

fn judges_the_rate_before_the_depth(call: &mut Call) -> Answer {
    let illegal = |call: &Call| !(2..=16).contains(&call.lent.rate());
    prefers(call, REFERENCE, 1, 2, illegal)
}

fn judges_lengths_before_the_rate(call: &mut Call) -> Answer {
    let fits_none = |call: &Call| call.out.rows.as_ref().unwrap()[0].lent().is_empty();
    prefers(call, REFERENCE, 2, 3, fits_none)
}

/// Fills as for the next lower power of two, as far as that goes.
fn fills_a_rate_of_3(call: &mut Call) -> Answer {
    let answer = REFERENCE(call);
    if answer.number == 12 && call.lent.rate() == 3 {
        call.out
            .parts()
            .rows
            .into_iter()
            .for_each(|row| row.fill(1));
        return Answer::DONE;
    }
    answer
}

fn answers(call: &mut Call, when: impl Fn(&Call) -> bool, number: u32) -> Answer {
    if call.job == Job::FillRoots && when(call) {
        return Answer::plain(number);
    }
    REFERENCE(call)
}

#[test]
fn filling() {
    let mutants: [(&str, Runner); 26] = [
        ("roots of order n", takes_the_root_of_order_n),
        ("roots of order 4 n", takes_the_root_before_a_square),
        ("inverse roots", takes_the_inverse_root),
        ("third powers", takes_the_third_power),
        ("another generator", takes_roots_of_another_generator),
        ("powers from 1 on", counts_powers_from_1),
        ("one root for all levels", takes_one_root_for_all_levels),
        ("powers by reversed bits", reverses_the_bits),
        ("T for T'", writes_t_twice),
        ("T and T' swapped", swaps_t_and_t2),
        ("no row", leaves_the_row),
        ("zeros in the row", writes_zeros_in_the_row),
        ("a wrong last word", leaves_the_last_word),
        ("ones after 1", |call| writes_ones_after(call, 1)),
        ("ones after 2", |call| writes_ones_after(call, 2)),
        ("ones after 3", |call| writes_ones_after(call, 3)),
        ("ones after 12", |call| writes_ones_after(call, 12)),
        ("12 before 3", judges_powers_before_lengths),
        ("12 before 1", judges_powers_before_the_depth),
        ("2 before 1", judges_the_rate_before_the_depth),
        ("3 before 2", judges_lengths_before_the_rate),
        ("fills a rate of 3", fills_a_rate_of_3),
        ("2 for 12", |call| match REFERENCE(call) {
            answer if answer.number == 12 => Answer::plain(2),
            answer => answer,
        }),
        ("12 for a rate of 1", |call| {
            prefers(call, REFERENCE, 2, 12, |call| call.lent.rate() == 1)
        }),
        ("refuses depth 0", |call| {
            answers(call, |call| call.lent.depth() == 0, 1)
        }),
        ("takes depth 21", |call| {
            prefers(call, REFERENCE, 1, 3, |call| call.lent.depth() == 21)
        }),
    ];
    let sweeps: [Sweep; 1] = [|c, _| sweep::fill::run(c, 1)];
    found_over(Field::Second, REFERENCE, &mutants, &sweeps);
}
