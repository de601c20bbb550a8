//! Wrong readings, tables and evaluations.

use crate::{afterwards, all_found, asked, bits_reversed, has_large_word, on_changed, prefers};
use crate::{reduce_words, Sweep};
use tvarchula_compare::{run, sweep, Call, Input, Job, Runner};
use tvarchula_reference::table::coefficients_by_variables;
use tvarchula_reference::{over, Answer, Reference, Residue};

const REFERENCE: Runner = run::ground::<Reference>;

fn reading(call: &mut Call, word: u32, as_if: u32) -> Answer {
    if call.job == Job::ReadClearance && call.lent.single(Input::Word) == word {
        return on_changed(call, REFERENCE, |call| {
            call.lent.words.insert(Input::Word, vec![as_if]);
        });
    }
    REFERENCE(call)
}

fn p(call: &Call) -> u32 {
    call.lent.field.modulus()
}

fn max(call: &Call) -> i32 {
    call.lent.field.max_clearance()
}

fn reads_p_as_zero(call: &mut Call) -> Answer {
    reading(call, p(call), 0)
}

fn reads_as(call: &mut Call, word: u32, kind: u32, amount: u32) -> Answer {
    let answer = REFERENCE(call);
    if call.job == Job::ReadClearance && call.lent.single(Input::Word) == word {
        call.out.reading = (kind, amount);
    }
    answer
}

fn reads_zero_as_free(call: &mut Call) -> Answer {
    reads_as(call, 0, 1, 0)
}

fn reads_zero_as_overlap(call: &mut Call) -> Answer {
    reads_as(call, 0, 2, 0)
}

fn reads_one_as_contact(call: &mut Call) -> Answer {
    reads_as(call, 1, 3, 0)
}

fn reads_minus_one_as_contact(call: &mut Call) -> Answer {
    reads_as(call, p(call) - 1, 3, 0)
}

fn reads_the_half_as_free(call: &mut Call) -> Answer {
    let half = p(call) / 2 + 1;
    reads_as(call, half, 1, half)
}

fn reads_p_as_contact_too(call: &mut Call) -> Answer {
    reads_as(call, p(call), 3, 0)
}

fn changes_clearances(call: &mut Call, from: i32, to: i32) -> Answer {
    on_changed(call, REFERENCE, |call| {
        let table = call.lent.table.iter_mut().flatten();
        table.filter(|x| **x == from).for_each(|x| *x = to);
    })
}

fn takes_a_clearance_too_large(call: &mut Call) -> Answer {
    changes_clearances(call, max(call) + 1, -max(call))
}

fn takes_a_clearance_too_small(call: &mut Call) -> Answer {
    changes_clearances(call, -max(call) - 1, max(call))
}

fn refuses_the_largest_clearance(call: &mut Call) -> Answer {
    changes_clearances(call, max(call), max(call) + 1)
}

fn reverses_the_variables_of_a_table(call: &mut Call) -> Answer {
    on_changed(call, REFERENCE, |call| {
        if let Some(table) = &mut call.lent.table {
            if table.len().is_power_of_two() {
                *table = bits_reversed(table);
            }
        }
    })
}

fn reverses_the_variables_on_the_way_back(call: &mut Call) -> Answer {
    let back = call.job == Job::CoefficientsToTable;
    afterwards(call, REFERENCE, &[0], |_, call| {
        if back {
            let table = call.out.parts().table;
            let reversed = bits_reversed(table);
            table.copy_from_slice(&reversed);
        }
    })
}

fn leaves_work_on_the_way_back(call: &mut Call) -> Answer {
    afterwards(call, REFERENCE, &[0], |before, call| {
        call.out.work = before.out.work.clone();
    })
}

fn clears_work_after_a_refusal(call: &mut Call) -> Answer {
    afterwards(call, REFERENCE, &[4], |_, call| {
        call.out.parts().work.fill(0)
    })
}

fn takes_a_table_of_2097152(call: &mut Call) -> Answer {
    let long = call.lent.table.as_ref().map_or(0, Vec::len) == 2_097_152;
    if long && call.out.parts().result.len() == 2_097_152 {
        return Answer::DONE;
    }
    REFERENCE(call)
}

fn refuses_a_table_of_1048576(call: &mut Call) -> Answer {
    let long = call.lent.table.as_ref().map_or(0, Vec::len) == 1_048_576;
    if long {
        return Answer::plain(1);
    }
    REFERENCE(call)
}

fn evaluates_table_values(call: &mut Call) -> Answer {
    if call.job == Job::Evaluate && asked(call, REFERENCE) == Answer::DONE {
        return on_changed(call, REFERENCE, |call| {
            let words = call.lent.words(Input::Message).iter();
            let message = over!(call.lent.field, P => {
                let table: Vec<_> = words.map(|&w| Residue::<P>::new(w).unwrap()).collect();
                let message = coefficients_by_variables(&table);
                message.iter().map(|word| word.word()).collect()
            });
            call.lent.words.insert(Input::Message, message);
        });
    }
    REFERENCE(call)
}

fn reverses_the_point(call: &mut Call) -> Answer {
    on_changed(call, REFERENCE, |call| {
        if call.job == Job::Evaluate {
            call.lent.words_mut(Input::Z).reverse();
        }
    })
}

fn writes_a_value_after_a_refusal(call: &mut Call) -> Answer {
    afterwards(call, REFERENCE, &[4], |_, call| {
        if call.job == Job::Evaluate {
            call.out.value = 0;
        }
    })
}

fn reduces_words(call: &mut Call) -> Answer {
    if call.job == Job::Evaluate {
        return on_changed(call, REFERENCE, reduce_words);
    }
    REFERENCE(call)
}

fn judges_words_before_lengths(call: &mut Call) -> Answer {
    prefers(call, REFERENCE, 3, 4, has_large_word)
}

fn judges_lengths_before_the_depth(call: &mut Call) -> Answer {
    let is_evaluation = call.job == Job::Evaluate;
    prefers(call, REFERENCE, 1, 3, |_| is_evaluation)
}

#[test]
fn ground() {
    let mutants: [(&str, Runner); 22] = [
        ("reads p as zero", reads_p_as_zero),
        ("reads zero as free", reads_zero_as_free),
        ("reads zero as overlap", reads_zero_as_overlap),
        ("reads one as contact", reads_one_as_contact),
        ("reads minus one as contact", reads_minus_one_as_contact),
        ("reads the half as free", reads_the_half_as_free),
        ("answers 4 and reads on", reads_p_as_contact_too),
        ("takes a clearance too large", takes_a_clearance_too_large),
        ("takes a clearance too small", takes_a_clearance_too_small),
        (
            "refuses the largest clearance",
            refuses_the_largest_clearance,
        ),
        (
            "reverses the variables of a table",
            reverses_the_variables_of_a_table,
        ),
        (
            "reverses them on the way back",
            reverses_the_variables_on_the_way_back,
        ),
        ("leaves the work buffer", leaves_work_on_the_way_back),
        (
            "clears the work buffer after 4",
            clears_work_after_a_refusal,
        ),
        ("takes a table of 2097152", takes_a_table_of_2097152),
        ("refuses a table of 1048576", refuses_a_table_of_1048576),
        ("evaluates table values", evaluates_table_values),
        ("reverses the point", reverses_the_point),
        ("writes a value after 4", writes_a_value_after_a_refusal),
        ("reduces words", reduces_words),
        ("4 before 3", judges_words_before_lengths),
        ("3 for a wrong depth", judges_lengths_before_the_depth),
    ];
    let sweeps: [Sweep; 2] = [
        |c, field| sweep::ground::run(c, field, 1),
        sweep::ground::sixteen,
    ];
    all_found(REFERENCE, &mutants, &sweeps);
}
