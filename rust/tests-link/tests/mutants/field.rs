//! Jobs that mistake one field for the other.

use crate::verifier::judged;
use crate::{afterwards, asked, found_over, of_its_field, on_changed, Sweep};
use tvarchula_compare::{run, sweep, Call, Input, Job, Runner};
use tvarchula_reference::field::{FIRST, SECOND};
use tvarchula_reference::polynomial::value_by_monomials;
use tvarchula_reference::sumcheck::eq;
use tvarchula_reference::verify::Verdict;
use tvarchula_reference::{Answer, Field, Reference, Residue};

const REFERENCE: Runner = run::any::<Reference>;
/// What is a clearance of the first field, and of the second is none or another.
const BETWEEN: std::ops::RangeInclusive<i32> = 1_006_632_961..=1_073_741_823;

/// The calls of a job, with others of its group.
fn sweep_of(job: Job) -> Sweep {
    match job {
        Job::Encode | Job::Decode | Job::Fold => |c, field| sweep::code::run(c, field, 1),
        Job::WriteOpening => |c, field| sweep::opening::writing(c, field, 1),
        Job::VerifyOpening => |c, field| sweep::opening::verifying(c, field, 1),
        _ => |c, field| sweep::ground::run(c, field, 1),
    }
}

/// Takes one field, whichever is lent.
fn always(call: &mut Call, job: Job, field: Field) -> Answer {
    on_changed(call, REFERENCE, |call| {
        if call.job == job {
            call.lent.field = field;
        }
    })
}

/// Judges by its own field, and computes a legal call of the second over the first: what it writes is
/// reduced, so that every word is a residue.
fn computes_over_the_first(call: &mut Call, job: Job) -> Answer {
    if call.job != job || asked(call, REFERENCE) != Answer::DONE {
        return REFERENCE(call);
    }
    let answer = always(call, job, Field::First);
    let out = call.out.parts();
    out.result.iter_mut().for_each(|word| *word %= SECOND);
    if [Job::Evaluate, Job::WriteOpening].contains(&job) {
        *out.value %= SECOND;
    }
    answer
}

/// In the second field takes words up to the first modulus, for the residues that they leave.
fn judges_by_the_first_modulus(call: &mut Call, job: Job) -> Answer {
    let second = call.job == job && call.lent.field == Field::Second;
    on_changed(call, REFERENCE, |call| {
        let inputs = call.lent.words.iter_mut();
        let judged = inputs.filter(|(input, _)| second && input.number().is_some());
        for word in judged.flat_map(|(_, words)| words) {
            if (SECOND..FIRST).contains(word) {
                *word -= SECOND;
            }
        }
    })
}

/// In the first field refuses words from the second modulus on.
fn judges_by_the_second_modulus(call: &mut Call, job: Job) -> Answer {
    if call.job == job && asked(call, REFERENCE) == Answer::DONE {
        let mut other = call.clone();
        other.lent.field = Field::Second;
        let refused = REFERENCE(&mut other);
        if refused.number == 4 {
            return refused;
        }
    }
    REFERENCE(call)
}

/// The nine jobs that are lent a field, each with these mistakes.
macro_rules! of_each_job {
    ($($job:ident)*) => {
        [$((
            Job::$job,
            [
                |call: &mut Call| always(call, Job::$job, Field::First),
                |call: &mut Call| always(call, Job::$job, Field::Second),
                |call: &mut Call| computes_over_the_first(call, Job::$job),
                |call: &mut Call| judges_by_the_first_modulus(call, Job::$job),
                |call: &mut Call| judges_by_the_second_modulus(call, Job::$job),
            ],
        )),*]
    };
}

#[test]
fn chosen_fields() {
    let jobs: [(Job, [Runner; 5]); 9] = of_each_job!(
        ReadClearance TableToCoefficients CoefficientsToTable Evaluate
        Encode Decode Fold WriteOpening VerifyOpening
    );
    for (job, [first, second, computes, by_first, by_second]) in jobs {
        let sweeps = [sweep_of(job)];
        let found = |field, name: &str, wrong| {
            let name = format!("{job:?} {name}");
            found_over(field, REFERENCE, &[(&name, wrong)], &sweeps);
        };
        found(Field::Second, "over the first field always", first);
        found(Field::First, "over the second field always", second);
        found(Field::Second, "computes over the first field", computes);
        // A table has no word that 4 could name.
        if job != Job::TableToCoefficients {
            found(Field::Second, "judges by the first modulus", by_first);
            found(Field::First, "judges by the second modulus", by_second);
        }
    }
}

/// The half of the field that is not lent.
fn other_half<const P: u32>() -> Residue<P> {
    let other = Field::of(P).other().modulus();
    Residue::new(other / 2 + 1).expect("a residue of both fields")
}

/// Multiplies words by a power of twice the half, which should be one.
fn spoil<const P: u32>(words: &mut [u32], power: usize) {
    let factor = (other_half::<P>() + other_half()).power(power as u32);
    for word in words {
        *word = (factor * Residue::new(*word).expect("written")).word();
    }
}

/// Folds over T' = -T are half a sum and half a difference.
fn has_negatives<const P: u32>(call: &Call) -> bool {
    let (t, t2) = (call.lent.words(Input::T), call.lent.words(Input::T2));
    t.iter().zip(t2).all(|(t, t2)| (t + t2) % P == 0)
}

fn folds_with_the_other_half<const P: u32>(call: &mut Call) -> Answer {
    afterwards(call, REFERENCE, &[0], |_, call| {
        if call.job == Job::Fold && has_negatives::<P>(call) {
            spoil::<P>(call.out.parts().result, 1);
        }
    })
}

fn writes_with_the_other_half<const P: u32>(call: &mut Call) -> Answer {
    afterwards(call, REFERENCE, &[0], |_, call| {
        if call.job == Job::WriteOpening && has_negatives::<P>(call) {
            let sizes = call.lent.layout();
            for level in 0..sizes.depth {
                let block = &mut call.out.parts().result[sizes.opening_block(level)];
                spoil::<P>(block, sizes.depth - level);
            }
        }
    })
}

/// A round's value at a challenge is made with the half.
fn verifies_with_the_other_half<const P: u32>(call: &mut Call) -> Answer {
    if call.job != Job::VerifyOpening {
        return REFERENCE(call);
    }
    let (code, claim) = match judged::<P>(call) {
        Err(refusal) => return refusal.into(),
        Ok(judged) => judged,
    };
    let (one, half) = (Residue::ONE, other_half());
    let mut claimed = claim.y;
    for i in (1..=code.sizes.depth).rev() {
        let [h0, h1, h2] = claim.round(&code, i);
        if h0 + h1 != claimed {
            return Verdict::Sum(i).into();
        }
        let x = claim.r[i - 1];
        let (x1, x2) = (x - one, x - one - one);
        claimed = h0 * x1 * x2 * half - h1 * x * x2 + h2 * x * x1 * half;
    }
    let (low, high) = claim.z.split_at(code.sizes.low());
    let left = value_by_monomials(claim.final_words(&code), low);
    if left * eq(high, &claim.r) != claimed {
        return Verdict::Final.into();
    }
    claim.verdict(&code).into()
}

#[test]
fn halves() {
    let mutants: [(Job, &str, Runner); 3] = [
        (
            Job::Fold,
            "folds with the other field's half",
            of_its_field!(folds_with_the_other_half),
        ),
        (
            Job::WriteOpening,
            "writes with the other field's half",
            of_its_field!(writes_with_the_other_half),
        ),
        (
            Job::VerifyOpening,
            "verifies with the other field's half",
            of_its_field!(verifies_with_the_other_half),
        ),
    ];
    for (job, name, mutant) in mutants {
        for field in Field::ALL {
            found_over(field, REFERENCE, &[(name, mutant)], &[sweep_of(job)]);
        }
    }
}

/// Reads what is between the largest clearances by the other field's border.
fn reads_by_the_other_border(call: &mut Call) -> Answer {
    afterwards(call, REFERENCE, &[0], |_, call| {
        let (kind, amount) = call.out.reading;
        let p = call.lent.field.modulus();
        let word = if kind == 1 { amount } else { p - amount };
        if call.job == Job::ReadClearance && BETWEEN.contains(&(word as i32)) {
            call.out.reading = (3 - kind, p - amount);
        }
    })
}

fn writes_tables_by_the_other_border(call: &mut Call) -> Answer {
    afterwards(call, REFERENCE, &[0], |_, call| {
        let p = i64::from(call.lent.field.modulus());
        for entry in call.out.parts().table {
            let word = i64::from(*entry).rem_euclid(p) as i32;
            if BETWEEN.contains(&word) {
                let other = if *entry > 0 { -p } else { p };
                *entry = (i64::from(*entry) + other) as i32;
            }
        }
    })
}

/// Takes what the first field takes, or refuses what the second refuses.
fn judges_clearances_by_the_other_border(call: &mut Call) -> Answer {
    let field = call.lent.field;
    let between = |x: i32| BETWEEN.contains(&x.wrapping_abs());
    on_changed(call, REFERENCE, |call| {
        let table = call.lent.table.iter_mut().flatten();
        for x in table.filter(|x| between(**x)) {
            *x = match field {
                Field::First => i32::MAX,
                Field::Second => *x - x.signum() * SECOND as i32,
            };
        }
    })
}

#[test]
fn borders() {
    let mutants: [(&str, Runner); 3] = [
        ("reads by the other border", reads_by_the_other_border),
        (
            "writes tables by the other border",
            writes_tables_by_the_other_border,
        ),
        (
            "9 by the other border",
            judges_clearances_by_the_other_border,
        ),
    ];
    for field in Field::ALL {
        found_over(field, REFERENCE, &mutants, &[sweep_of(Job::Evaluate)]);
    }
}
