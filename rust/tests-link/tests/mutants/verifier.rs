//! Wrong verifiers.

use crate::{all_found, of_its_field, on_changed, reduce_words, Sweep};
use tvarchula_compare::{run, sweep, Call, Input, Job, Runner};
use tvarchula_reference::code::Code;
use tvarchula_reference::encode::by_matrix;
use tvarchula_reference::fold::line;
use tvarchula_reference::sumcheck::eq;
use tvarchula_reference::verify::{judge_claim, Claim, Verdict};
use tvarchula_reference::{Answer, Reference, Refusal, Residue};

pub const REFERENCE: Runner = run::opening::<Reference>;

/// What a call of verifying lends, if it is well formed.
pub fn judged<const P: u32>(call: &Call) -> Result<(Code<P>, Claim<P>), Refusal> {
    let words = |input| call.lent.words(input);
    judge_claim(
        call.lent.code(),
        words(Input::Block),
        words(Input::Z),
        call.lent.single(Input::Y),
        words(Input::R),
        words(Input::Queries),
        words(Input::Opening),
    )
}

/// A verifier that gives another verdict on a well-formed claim.
pub fn another<const P: u32>(
    call: &mut Call,
    verdict: impl Fn(&Code<P>, &Claim<P>) -> Verdict,
) -> Answer {
    if call.job != Job::VerifyOpening {
        return REFERENCE(call);
    }
    match judged(call) {
        Err(refusal) => refusal.into(),
        Ok((code, claim)) => verdict(&code, &claim).into(),
    }
}

/// The verdict with only these queries.
pub fn with_queries<const P: u32>(code: &Code<P>, claim: &Claim<P>, queries: &[usize]) -> Verdict {
    let mut claim = claim.clone();
    claim.queries = queries.to_vec();
    claim.verdict(code)
}

/// The verdict of each query alone, if it is a failed fold: its position and level.
fn wrong_folds<const P: u32>(code: &Code<P>, claim: &Claim<P>) -> Vec<(usize, usize)> {
    let queries = claim.queries.iter().enumerate();
    let alone = |(position, &query)| match with_queries(code, claim, &[query]) {
        Verdict::Fold(_, level) => Some((position, level)),
        _ => None,
    };
    queries.filter_map(alone).collect()
}

fn checks_only_the_first_query<const P: u32>(call: &mut Call) -> Answer {
    another::<P>(call, |code, claim| {
        let first = claim.queries.len().min(1);
        with_queries(code, claim, &claim.queries[..first])
    })
}

fn checks_no_last_query<const P: u32>(call: &mut Call) -> Answer {
    another::<P>(call, |code, claim| {
        let kept = claim.queries.len().saturating_sub(1).max(1);
        let kept = kept.min(claim.queries.len());
        with_queries(code, claim, &claim.queries[..kept])
    })
}

fn checks_only_the_first_level<const P: u32>(call: &mut Call) -> Answer {
    another::<P>(call, |code, claim| match claim.verdict(code) {
        Verdict::Fold(..) => {
            let wrong = wrong_folds(code, claim);
            let top = wrong
                .iter()
                .find(|(_, level)| level + 1 == code.sizes.depth);
            top.map_or(Verdict::Accepted, |&(q, level)| Verdict::Fold(q, level))
        }
        verdict => verdict,
    })
}

/// Goes through the levels and there through the queries: another first failure.
fn checks_level_by_level<const P: u32>(call: &mut Call) -> Answer {
    another::<P>(call, |code, claim| match claim.verdict(code) {
        Verdict::Fold(..) => {
            let wrong = wrong_folds(code, claim);
            let top = wrong
                .iter()
                .map(|(_, level)| *level)
                .max()
                .expect("one failed");
            let (q, level) = *wrong.iter().find(|(_, level)| *level == top).unwrap();
            Verdict::Fold(q, level)
        }
        verdict => verdict,
    })
}

/// Steps by > where >= is due. A place outside the block is taken modulo its length, so that this
/// mutant does not simply crash.
fn steps_by_greater<const P: u32>(call: &mut Call) -> Answer {
    another::<P>(call, |code, claim| {
        match claim.verdict(code) {
            Verdict::Accepted | Verdict::Fold(..) => (),
            earlier => return earlier,
        }
        for (position, &query) in claim.queries.iter().enumerate() {
            let mut u = query;
            for i in (0..code.sizes.depth).rev() {
                let n = code.sizes.block(i);
                let at = |level| claim.level_block(code, level);
                let j = u % n;
                let w2 = at(i + 1)[(u + n) % (2 * n)];
                let fold = line(
                    code.t(i)[j],
                    at(i + 1)[u % (2 * n)],
                    code.t2(i)[j],
                    w2,
                    claim.r[i],
                );
                if fold != at(i)[j] {
                    return Verdict::Fold(position, i);
                }
                if i > 0 && u > code.sizes.block(i - 1) {
                    u -= code.sizes.block(i - 1);
                }
            }
        }
        Verdict::Accepted
    })
}

fn eq_is_zero<const P: u32>(claim: &Claim<P>) -> bool {
    let low = claim.z.len() - claim.r.len();
    eq(&claim.z[low..], &claim.r) == Residue::ZERO
}

fn divides_by_eq_and_fails<const P: u32>(call: &mut Call) -> Answer {
    another::<P>(call, |code, claim| match claim.verdict(code) {
        Verdict::Sum(i) => Verdict::Sum(i),
        _ if eq_is_zero(claim) => Verdict::Final,
        verdict => verdict,
    })
}

fn divides_by_eq_and_accepts<const P: u32>(call: &mut Call) -> Answer {
    another::<P>(call, |code, claim| match claim.verdict(code) {
        Verdict::Base(_) | Verdict::Fold(..) if eq_is_zero(claim) => Verdict::Accepted,
        verdict => verdict,
    })
}

fn skips<const P: u32>(call: &mut Call, skipped: impl Fn(Verdict, &Code<P>) -> bool) -> Answer {
    another::<P>(call, |code, claim| match claim.verdict(code) {
        verdict if skipped(verdict, code) => Verdict::Accepted,
        verdict => verdict,
    })
}

fn checks_only_the_first_sum<const P: u32>(call: &mut Call) -> Answer {
    skips::<P>(
        call,
        |verdict, code| matches!(verdict, Verdict::Sum(i) if i < code.sizes.depth),
    )
}

fn checks_only_the_first_base_word<const P: u32>(call: &mut Call) -> Answer {
    skips::<P>(
        call,
        |verdict, _| matches!(verdict, Verdict::Base(j) if j > 0),
    )
}

fn checks_no_final<const P: u32>(call: &mut Call) -> Answer {
    skips::<P>(call, |verdict, _| verdict == Verdict::Final)
}

fn names_the_upper_level<const P: u32>(call: &mut Call) -> Answer {
    another::<P>(call, |code, claim| match claim.verdict(code) {
        Verdict::Fold(position, level) => Verdict::Fold(position, level + 1),
        verdict => verdict,
    })
}

fn names_the_place<const P: u32>(call: &mut Call) -> Answer {
    another::<P>(call, |code, claim| match claim.verdict(code) {
        Verdict::Fold(position, level) => Verdict::Fold(claim.queries[position], level),
        verdict => verdict,
    })
}

fn counts_rounds_from_the_start<const P: u32>(call: &mut Call) -> Answer {
    another::<P>(call, |code, claim| match claim.verdict(code) {
        Verdict::Sum(i) => Verdict::Sum(code.sizes.depth + 1 - i),
        verdict => verdict,
    })
}

fn names_the_last_base_word<const P: u32>(call: &mut Call) -> Answer {
    another::<P>(call, |code, claim| match claim.verdict(code) {
        Verdict::Base(_) => {
            let due = by_matrix(code, 0, claim.final_words(code));
            let block = claim.level_block(code, 0);
            let wrong = (0..due.len()).rev().find(|&j| block[j] != due[j]);
            Verdict::Base(wrong.expect("one is wrong"))
        }
        verdict => verdict,
    })
}

fn reduces_words(call: &mut Call) -> Answer {
    on_changed(call, REFERENCE, reduce_words)
}

fn reduces_the_value(call: &mut Call) -> Answer {
    let p = call.lent.field.modulus();
    on_changed(call, REFERENCE, |call| {
        if let Some(y) = call.lent.words.get_mut(&Input::Y) {
            y[0] %= p;
        }
    })
}

#[test]
fn verifiers() {
    let mutants: [(&str, Runner); 18] = [
        (
            "checks only the first query",
            of_its_field!(checks_only_the_first_query),
        ),
        ("checks no last query", of_its_field!(checks_no_last_query)),
        (
            "checks only the first level",
            of_its_field!(checks_only_the_first_level),
        ),
        (
            "checks level by level",
            of_its_field!(checks_level_by_level),
        ),
        ("steps by >", of_its_field!(steps_by_greater)),
        (
            "divides by eq and fails",
            of_its_field!(divides_by_eq_and_fails),
        ),
        (
            "divides by eq and accepts",
            of_its_field!(divides_by_eq_and_accepts),
        ),
        (
            "checks only the first sum",
            of_its_field!(checks_only_the_first_sum),
        ),
        (
            "checks only the first base word",
            of_its_field!(checks_only_the_first_base_word),
        ),
        ("checks no final", of_its_field!(checks_no_final)),
        (
            "names the upper level",
            of_its_field!(names_the_upper_level),
        ),
        ("names the place", of_its_field!(names_the_place)),
        (
            "counts rounds from the start",
            of_its_field!(counts_rounds_from_the_start),
        ),
        (
            "names the last base word",
            of_its_field!(names_the_last_base_word),
        ),
        ("reduces words", reduces_words),
        ("reduces the value", reduces_the_value),
        ("accepts all", |call| match REFERENCE(call) {
            answer if answer.number >= 20 => Answer::DONE,
            answer => answer,
        }),
        ("refuses all", |_| Answer::plain(1)),
    ];
    let sweeps: [Sweep; 1] = [|c, field| sweep::opening::verifying(c, field, 1)];
    all_found(REFERENCE, &mutants, &sweeps);
}
