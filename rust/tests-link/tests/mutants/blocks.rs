//! Jobs that are wrong about the record, or about base messages of several words.

use crate::verifier::another;
use crate::{afterwards, all_found, asked, found_over, of_its_field, on_changed, prefers};
use tvarchula_compare::{run, sweep, Call, Comparison, Input, Job, Runner};
use tvarchula_reference::encode::by_matrix;
use tvarchula_reference::linear::{inverse, row_times};
use tvarchula_reference::polynomial::value_by_monomials;
use tvarchula_reference::sample::Rng;
use tvarchula_reference::sumcheck::{eq, quadratic_at};
use tvarchula_reference::verify::{Claim, Verdict};
use tvarchula_reference::{Answer, Field, Reference, Residue};

const REFERENCE: Runner = run::any::<Reference>;

const ROWS: &[Job] = &[
    Job::Encode,
    Job::Decode,
    Job::WriteOpening,
    Job::VerifyOpening,
];
const DEPTHS: &[Job] = &[
    Job::Evaluate,
    Job::Fold,
    Job::Encode,
    Job::Decode,
    Job::WriteOpening,
    Job::VerifyOpening,
];
const RATES: &[Job] = DEPTHS.split_at(1).1;
const POINTS: &[Job] = &[Job::Evaluate, Job::WriteOpening, Job::VerifyOpening];
const TABLES: &[Job] = &[Job::TableToCoefficients, Job::CoefficientsToTable];

/// The calls of one job that every job has.
fn of_job(c: &mut Comparison, job: Job, field: Field) -> sweep::Swept {
    sweep::blocks::run(c, job, &mut Rng::new(field, 1))
}

/// Whether base messages have several words, as many as are legal.
fn several(call: &Call) -> bool {
    [2, 4].contains(&call.lent.k0())
}

fn illegal(call: &Call) -> bool {
    ![1, 2, 4].contains(&call.lent.k0())
}

/// Runs on another call where base messages have several words.
fn with_several(call: &mut Call, change: impl FnOnce(&mut Call)) -> Answer {
    on_changed(call, REFERENCE, |call| {
        if several(call) {
            change(call);
        }
    })
}

/// What is not there is not added.
fn leaves_out_the_second_row(call: &mut Call) -> Answer {
    with_several(call, |call| {
        let k0 = call.lent.k0() as usize;
        if let Some(message) = call.lent.words.get_mut(&Input::Message) {
            message.iter_mut().skip(1).step_by(k0).for_each(|w| *w = 0);
        }
    })
}

/// Two of the rows in the other order.
fn swaps_rows(call: &mut Call, [first, second]: [usize; 2]) -> Answer {
    with_several(call, |call| {
        let k0 = call.lent.k0() as usize;
        let g = call.lent.words_mut(Input::G);
        let n = g.len() / k0;
        if second < k0 {
            let (head, tail) = g.split_at_mut(second * n);
            head[first * n..][..n].swap_with_slice(&mut tail[..n]);
        }
    })
}

/// Reads g as columns, one after another.
fn reads_columns(call: &mut Call) -> Answer {
    with_several(call, |call| {
        let k0 = call.lent.k0() as usize;
        let g = call.lent.words_mut(Input::G);
        let n = g.len() / k0;
        let word = |j: usize| g[j % n * k0 + j / n];
        if g.len() == n * k0 {
            *g = (0..g.len()).map(word).collect();
        }
    })
}

/// Takes the last words of z for the low variables.
fn takes_low_variables_last(call: &mut Call) -> Answer {
    with_several(call, |call| {
        let depth = call.lent.depth() as usize;
        let z = call.lent.words_mut(Input::Z);
        let first = depth.min(z.len());
        z.rotate_left(first);
    })
}

fn swaps_low_variables(call: &mut Call) -> Answer {
    with_several(call, |call| {
        if call.lent.k0() == 4 && call.lent.words(Input::Z).len() > 1 {
            call.lent.words_mut(Input::Z).swap(0, 1);
        }
    })
}

/// Refuses rows with 5 by another test of them, where none of 1 to 4 is due.
fn judges_rows_by(call: &mut Call, singular: impl Fn(&Call) -> bool) -> Answer {
    let answer = asked(call, REFERENCE);
    if !several(call) || matches!(answer.number, 1..=4 | 13) {
        return REFERENCE(call);
    }
    match (singular(call), answer.number) {
        (true, _) => Answer::plain(5),
        (false, 5) => Answer::DONE,
        (false, _) => REFERENCE(call),
    }
}

fn accepts_singular_rows(call: &mut Call) -> Answer {
    judges_rows_by(call, |_| false)
}

/// As for one row.
fn refuses_every_zero(call: &mut Call) -> Answer {
    judges_rows_by(call, |call| call.lent.words(Input::G).contains(&0))
}

fn refuses_a_zero_in_the_corner(call: &mut Call) -> Answer {
    let singular = asked(call, REFERENCE).number == 5;
    judges_rows_by(call, |call| singular || call.lent.words(Input::G)[0] == 0)
}

/// Looks for two rows that are the same, or a row of zeros.
fn refuses_plain_cases_only(call: &mut Call) -> Answer {
    judges_rows_by(call, |call| {
        let k0 = call.lent.k0() as usize;
        let g = call.lent.words(Input::G);
        let rows = g.chunks(g.len() / k0).map(|row| &row[..k0]);
        let rows: Vec<&[u32]> = rows.collect();
        let zero = rows.iter().any(|row| row.iter().all(|&word| word == 0));
        zero || (1..k0).any(|b| rows[..b].contains(&rows[b]))
    })
}

/// Judges columns from another one on.
fn judges_other_columns(call: &mut Call) -> Answer {
    fn singular<const P: u32>(call: &Call) -> bool {
        let k0 = call.lent.k0() as usize;
        let g = call.lent.words(Input::G);
        let residues = |row: &[u32]| -> Vec<Residue<P>> {
            let columns = row[k0..2 * k0].iter();
            columns.map(|&word| Residue::new(word).unwrap()).collect()
        };
        let rows: Vec<_> = g.chunks(g.len() / k0).map(residues).collect();
        inverse(&rows).is_none()
    }
    judges_rows_by(
        call,
        |call| tvarchula_reference::over!(call.lent.field, P => singular::<P>(call)),
    )
}

fn names_another_place(call: &mut Call) -> Answer {
    let answer = REFERENCE(call);
    if answer.number == 5 && several(call) {
        return Answer { first: 1, ..answer };
    }
    answer
}

/// What is above the limit with a k0 that is not legal, which should not count.
fn judges_1_by_an_illegal_k0(call: &mut Call) -> Answer {
    prefers(call, REFERENCE, 13, 1, |call| {
        let words = u64::from(call.lent.k0()) << call.lent.depth().min(31);
        illegal(call) && words > 1 << 20
    })
}

/// A table that is shorter than a k0 that is not legal.
fn judges_tables_by_an_illegal_k0(call: &mut Call) -> Answer {
    prefers(call, REFERENCE, 13, 1, |call| {
        let table = call.lent.table.as_ref().map(Vec::len);
        let message = call.lent.words.get(&Input::Message).map(Vec::len);
        let length = table.or(message).expect("one of them");
        illegal(call) && length < call.lent.k0() as usize
    })
}

/// Depth 20 for every k0.
fn judges_1_as_for_one_word(call: &mut Call) -> Answer {
    prefers(call, REFERENCE, 1, 3, |call| {
        several(call) && (1..=20).contains(&call.lent.depth())
    })
}

/// Lengths below k0 are taken.
fn takes_short_tables(call: &mut Call) -> Answer {
    if asked(call, REFERENCE).number == 1 && several(call) {
        return on_changed(call, REFERENCE, |call| call.lent.parameters.k0 = 1);
    }
    REFERENCE(call)
}

fn takes_three_words(call: &mut Call) -> Answer {
    prefers(call, REFERENCE, 13, 3, |call| call.lent.k0() == 3)
}

fn takes_any_k0_for_one(call: &mut Call) -> Answer {
    on_changed(call, REFERENCE, |call| {
        if illegal(call) {
            call.lent.parameters.k0 = 1;
        }
    })
}

fn judges_a_number_that_is_no_matter(call: &mut Call) -> Answer {
    let answer = asked(call, REFERENCE);
    if answer == Answer::DONE && !(2..=16).contains(&call.lent.rate()) {
        return Answer::plain(2);
    }
    REFERENCE(call)
}

fn judges_the_depth_of_tables(call: &mut Call) -> Answer {
    let answer = asked(call, REFERENCE);
    if answer == Answer::DONE && call.lent.depth() > 20 {
        return Answer::plain(1);
    }
    REFERENCE(call)
}

/// Lengths of n_d - n_0 words for the work buffer of decoding.
fn takes_less_work(call: &mut Call) -> Answer {
    if !several(call) || asked(call, REFERENCE).number > 8 {
        return REFERENCE(call);
    }
    prefers(call, REFERENCE, 0, 3, |_| true)
}

/// Does not clear the last base block of the work buffer.
fn leaves_a_base_block_of_work(call: &mut Call) -> Answer {
    afterwards(call, REFERENCE, &[0, 8], |before, call| {
        if several(call) {
            let words = call.lent.layout().block(0);
            let old = before.out.work.as_ref().expect("lent").lent().to_vec();
            let work = call.out.parts().work;
            let from = work.len() - words;
            work[from..].copy_from_slice(&old[from..]);
        }
    })
}

/// Solves with the first word of each base block alone, as for one row.
fn decodes_only_first_words(call: &mut Call) -> Answer {
    afterwards(call, REFERENCE, &[0], |_, call| {
        let k0 = call.lent.k0() as usize;
        let result = call.out.parts().result;
        result.iter_mut().skip(1).step_by(k0).for_each(|w| *w = 0);
    })
}

/// Places up to n_(d-1) of one word.
fn bounds_queries_as_for_one_word(call: &mut Call) -> Answer {
    prefers(call, REFERENCE, 0, 7, |call| {
        let below = call.lent.rate() << call.lent.depth().saturating_sub(1);
        let mut queries = call.lent.words(Input::Queries).iter();
        queries.any(|&place| place >= below)
    })
}

/// A verifier with another last sum and another base check.
fn checks<const P: u32>(
    call: &mut Call,
    last: impl Fn(&Claim<P>, usize) -> Option<Residue<P>>,
    v: impl Fn(&mut [Residue<P>], &[Residue<P>]),
) -> Answer {
    another::<P>(call, |code, claim| {
        let honest = claim.verdict(code);
        let low = code.sizes.low();
        if code.sizes.k0 == 1 || matches!(honest, Verdict::Sum(_)) {
            return honest;
        }
        let mut claimed = claim.y;
        for i in (1..=code.sizes.depth).rev() {
            claimed = quadratic_at(claim.round(code, i), claim.r[i - 1]);
        }
        let words = claim.final_words(code);
        let due = value_by_monomials(words, &claim.z[..low]) * eq(&claim.z[low..], &claim.r);
        if last(claim, low).unwrap_or(due) != claimed {
            return Verdict::Final;
        }
        let block = claim.level_block(code, 0);
        let base = inverse(&code.leading()).expect("a legal base");
        let mut taken = words.to_vec();
        v(&mut taken, &row_times(&block[..code.sizes.k0], &base));
        let due = by_matrix(code, 0, &taken);
        if let Some(j) = (0..due.len()).find(|&j| block[j] != due[j]) {
            return Verdict::Base(j);
        }
        // Folds: with v as block 0 has it nothing else is left to fail.
        let mut other = claim.clone();
        let range = code.sizes.final_words();
        other.opening[range].copy_from_slice(&row_times(&block[..code.sizes.k0], &base));
        match other.verdict(code) {
            Verdict::Fold(query, level) => Verdict::Fold(query, level),
            _ => Verdict::Accepted,
        }
    })
}

/// Compares block 0 with the codeword of v, but takes v's second word from the block.
fn compares_no_second_word<const P: u32>(call: &mut Call) -> Answer {
    checks::<P>(call, |_, _| None, |v, of_block| v[1] = of_block[1])
}

fn compares_only_the_first_word<const P: u32>(call: &mut Call) -> Answer {
    checks::<P>(
        call,
        |_, _| None,
        |v, of_block| v[1..].copy_from_slice(&of_block[1..]),
    )
}

/// The corner 0 of the low variables alone.
fn sums_one_corner<const P: u32>(call: &mut Call) -> Answer {
    let one_corner = |claim: &Claim<P>, low: usize| {
        let whole = [&vec![Residue::ZERO; low][..], &claim.r].concat();
        let v = claim.opening[3 * claim.r.len()];
        Some(v * eq(&claim.z, &whole))
    };
    checks::<P>(call, one_corner, |_, _| ())
}

/// v as a single value, without the low words of z.
fn takes_the_first_coefficient<const P: u32>(call: &mut Call) -> Answer {
    let first = |claim: &Claim<P>, low: usize| {
        let v = claim.opening[3 * claim.r.len()];
        Some(v * eq(&claim.z[low..], &claim.r))
    };
    checks::<P>(call, first, |_, _| ())
}

type Mutant<'a> = (&'a str, Runner, &'a [Job]);

#[test]
fn base_blocks() {
    let mutants: [Mutant; 31] = [
        (
            "second row left out",
            leaves_out_the_second_row,
            &[Job::Encode],
        ),
        ("rows swapped", |call| swaps_rows(call, [0, 1]), ROWS),
        ("last rows swapped", |call| swaps_rows(call, [2, 3]), ROWS),
        ("columns for rows", reads_columns, ROWS),
        ("low variables last", takes_low_variables_last, POINTS),
        ("low variables swapped", swaps_low_variables, POINTS),
        ("singular rows accepted", accepts_singular_rows, ROWS),
        ("plain singular rows only", refuses_plain_cases_only, ROWS),
        ("5 for every zero", refuses_every_zero, ROWS),
        ("5 for a zero corner", refuses_a_zero_in_the_corner, ROWS),
        ("5 by other columns", judges_other_columns, ROWS),
        ("5 at another place", names_another_place, ROWS),
        (
            "13 before 2",
            |call| prefers(call, REFERENCE, 2, 13, illegal),
            RATES,
        ),
        (
            "13 before 1",
            |call| prefers(call, REFERENCE, 1, 13, illegal),
            DEPTHS,
        ),
        (
            "13 before 1, tables",
            |call| prefers(call, REFERENCE, 1, 13, illegal),
            TABLES,
        ),
        (
            "3 before 13",
            |call| {
                prefers(call, REFERENCE, 13, 3, |call| {
                    let mut legal = call.clone();
                    legal.lent.parameters.k0 = 1;
                    asked(&legal, REFERENCE).number == 3
                })
            },
            DEPTHS,
        ),
        ("1 by an illegal k0", judges_1_by_an_illegal_k0, DEPTHS),
        (
            "1 by an illegal k0, tables",
            judges_tables_by_an_illegal_k0,
            TABLES,
        ),
        ("1 as for one word", judges_1_as_for_one_word, DEPTHS),
        ("short tables", takes_short_tables, TABLES),
        ("takes k0 = 3", takes_three_words, DEPTHS),
        ("takes an illegal k0 for 1", takes_any_k0_for_one, TABLES),
        ("takes one for 1", takes_any_k0_for_one, RATES),
        (
            "2 where no rate is judged",
            judges_a_number_that_is_no_matter,
            &[Job::TableToCoefficients, Job::Evaluate],
        ),
        ("1 by a depth of tables", judges_the_depth_of_tables, TABLES),
        ("less work", takes_less_work, &[Job::Decode]),
        (
            "a base block of work",
            leaves_a_base_block_of_work,
            &[Job::Decode],
        ),
        ("first words only", decodes_only_first_words, &[Job::Decode]),
        (
            "queries as for one word",
            bounds_queries_as_for_one_word,
            &[Job::VerifyOpening],
        ),
        (
            "one corner of the low variables",
            of_its_field!(sums_one_corner),
            &[Job::VerifyOpening],
        ),
        (
            "the first coefficient for all",
            of_its_field!(takes_the_first_coefficient),
            &[Job::VerifyOpening],
        ),
    ];
    let jobs = [TABLES, DEPTHS].concat();
    for job in jobs {
        let wrong = mutants.iter().filter(|(_, _, jobs)| jobs.contains(&job));
        let wrong: Vec<_> = wrong.map(|&(name, mutant, _)| (name, mutant)).collect();
        all_found(
            REFERENCE,
            &wrong,
            &[|c: &mut Comparison, field| of_job(c, job, field)],
        );
    }
}

#[test]
fn final_coefficients() {
    let mutants: [(&str, Runner); 2] = [
        (
            "v's second word not compared",
            of_its_field!(compares_no_second_word),
        ),
        (
            "v's first word alone compared",
            of_its_field!(compares_only_the_first_word),
        ),
    ];
    let sweep =
        |c: &mut Comparison, field| sweep::opening::kept_sums(c, 300, &mut Rng::new(field, 1));
    all_found(REFERENCE, &mutants, &[sweep]);
}

/// Filling takes no k0 but 1.
#[test]
fn filling() {
    let mutants: [(&str, Runner); 4] = [
        ("fills two words as one", |call| {
            on_changed(call, REFERENCE, |call| {
                if several(call) {
                    call.lent.parameters.k0 = 1;
                }
            })
        }),
        ("13 after 3", |call| {
            prefers(call, REFERENCE, 13, 3, |call| {
                let mut legal = call.clone();
                legal.lent.parameters.k0 = 1;
                asked(&legal, REFERENCE).number == 3
            })
        }),
        ("12 before 13", |call| {
            prefers(call, REFERENCE, 13, 12, |call| {
                !call.lent.rate().is_power_of_two()
            })
        }),
        ("1 by k0", |call| {
            prefers(call, REFERENCE, 13, 1, |call| {
                several(call) && call.lent.depth() == 20
            })
        }),
    ];
    let sweep = |c: &mut Comparison, _| sweep::fill::run(c, 1);
    found_over(Field::Second, REFERENCE, &mutants, &[sweep]);
}
