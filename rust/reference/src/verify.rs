//! Verifying an opening.

use crate::answer::{Answer, Input, Refusal};
use crate::code::Code;
use crate::encode::by_matrix;
use crate::fold::line;
use crate::judge;
use crate::lent::LentCode;
use crate::over;
use crate::polynomial::{corner, value_by_monomials};
use crate::residue::Residue;
use crate::sumcheck::{eq, quadratic_at};

/// The verdict: which check failed first and where.
#[derive(Clone, Copy, PartialEq, Eq, Debug)]
pub enum Verdict {
    /// Every check holds.
    Accepted,
    /// The sum check of round i.
    Sum(usize),
    /// The final check.
    Final,
    /// The base check at place j.
    Base(usize),
    /// The fold check: the query's position in the list, and the lower level of the step.
    Fold(usize, usize),
}

impl From<Verdict> for Answer {
    fn from(verdict: Verdict) -> Answer {
        let (number, first, second) = match verdict {
            Verdict::Accepted => (0, 0, 0),
            Verdict::Sum(i) => (20, i, 0),
            Verdict::Final => (21, 0, 0),
            Verdict::Base(j) => (22, j, 0),
            Verdict::Fold(position, level) => (23, position, level),
        };
        Answer {
            number,
            first: first as u32,
            second: second as u32,
        }
    }
}

/// A well-formed claim: everything a verifier is lent besides the code.
#[derive(Clone, Debug)]
pub struct Claim<const P: u32> {
    /// The level-d block, which lies in the commitment buffer.
    pub block: Vec<Residue<P>>,
    /// The claimed point.
    pub z: Vec<Residue<P>>,
    /// The claimed value.
    pub y: Residue<P>,
    /// The challenges.
    pub r: Vec<Residue<P>>,
    /// The query places.
    pub queries: Vec<usize>,
    /// The opening.
    pub opening: Vec<Residue<P>>,
}

impl<const P: u32> Claim<P> {
    /// The round h_i.
    pub fn round(&self, code: &Code<P>, i: usize) -> [Residue<P>; 3] {
        let words = &self.opening[code.sizes.round(i)];
        [words[0], words[1], words[2]]
    }

    /// The first final coefficient; it is the final value where it is alone.
    pub fn final_value(&self, code: &Code<P>) -> Residue<P> {
        self.opening[code.sizes.final_value()]
    }

    /// The final coefficients v.
    pub fn final_words(&self, code: &Code<P>) -> &[Residue<P>] {
        &self.opening[code.sizes.final_words()]
    }

    /// The block of a level: the commitment at level d, a part of the opening below.
    pub fn level_block(&self, code: &Code<P>, level: usize) -> &[Residue<P>] {
        if level == code.sizes.depth {
            &self.block
        } else {
            &self.opening[code.sizes.opening_block(level)]
        }
    }

    /// The checks in the order's order; the first failure is the verdict.
    pub fn verdict(&self, code: &Code<P>) -> Verdict {
        let checks = [sums_and_final, base, folds];
        let failed = checks.iter().find_map(|check| check(self, code));
        failed.unwrap_or(Verdict::Accepted)
    }
}

/// Checks 1 and 2: each round sums to the claim before it, and what is left of f*eq to the last claim.
fn sums_and_final<const P: u32>(claim: &Claim<P>, code: &Code<P>) -> Option<Verdict> {
    let mut claimed = claim.y;
    for i in (1..=code.sizes.depth).rev() {
        let h = claim.round(code, i);
        if h[0] + h[1] != claimed {
            return Some(Verdict::Sum(i));
        }
        claimed = quadratic_at(h, claim.r[i - 1]);
    }
    (last_sum(claim, code) != claimed).then_some(Verdict::Final)
}

/// The sum of v's polynomial times eq over the corners of the low variables, the higher ones being set
/// to their challenges. With no low variable it is v * eq(z, r).
fn last_sum<const P: u32>(claim: &Claim<P>, code: &Code<P>) -> Residue<P> {
    let v = claim.final_words(code);
    let term = |b| {
        let low = corner(b, code.sizes.low());
        let whole = [&low[..], &claim.r].concat();
        value_by_monomials(v, &low) * eq(&claim.z, &whole)
    };
    (0..code.sizes.k0).map(term).sum()
}

/// Check 3: block 0 holds the codeword of v.
fn base<const P: u32>(claim: &Claim<P>, code: &Code<P>) -> Option<Verdict> {
    let due = by_matrix(code, 0, claim.final_words(code));
    let block = claim.level_block(code, 0);
    let wrong = (0..due.len()).find(|&j| block[j] != due[j]);
    wrong.map(Verdict::Base)
}

/// Check 4, query by query as listed.
fn folds<const P: u32>(claim: &Claim<P>, code: &Code<P>) -> Option<Verdict> {
    let queries = claim.queries.iter().enumerate();
    let failed = |(position, &place)| {
        let level = first_wrong_fold(claim, code, place)?;
        Some(Verdict::Fold(position, level))
    };
    queries.into_iter().find_map(failed)
}

/// The first level, from d-1 down, at which the fold on a query's path is wrong.
fn first_wrong_fold<const P: u32>(claim: &Claim<P>, code: &Code<P>, place: usize) -> Option<usize> {
    let mut u = place;
    for i in (0..code.sizes.depth).rev() {
        let upper = claim.level_block(code, i + 1);
        let (t, t2) = (code.t(i), code.t2(i));
        let w2 = upper[u + code.sizes.block(i)];
        let fold = line(t[u], upper[u], t2[u], w2, claim.r[i]);
        if fold != claim.level_block(code, i)[u] {
            return Some(i);
        }
        // At u = n_(i-1) already the place lies in the second half.
        if i > 0 && u >= code.sizes.block(i - 1) {
            u -= code.sizes.block(i - 1);
        }
    }
    None
}

/// The verifying job. Refusals 1, 2, 13, 3 to 7 and 11, then the verdict.
pub fn verify_opening(
    lent: LentCode,
    block: &[u32],
    z: &[u32],
    y: u32,
    r: &[u32],
    queries: &[u32],
    opening: &[u32],
) -> Answer {
    over!(lent.field, P => {
        match judge_claim::<P>(lent, block, z, y, r, queries, opening) {
            Err(refusal) => refusal.into(),
            Ok((code, claim)) => claim.verdict(&code).into(),
        }
    })
}

/// The refusals of the verifying job.
pub fn judge_claim<const P: u32>(
    lent: LentCode,
    block: &[u32],
    z: &[u32],
    y: u32,
    r: &[u32],
    queries: &[u32],
    opening: &[u32],
) -> Result<(Code<P>, Claim<P>), Refusal> {
    let (code, [block, z, y, r, opening]) = lent.judge(
        |sizes| {
            vec![
                (block.len(), sizes.top_block()),
                (z.len(), sizes.point()),
                (r.len(), sizes.depth),
                (opening.len(), sizes.opening()),
            ]
        },
        [
            (Input::Block, block),
            (Input::Z, z),
            (Input::Y, &[y]),
            (Input::R, r),
            (Input::Opening, opening),
        ],
    )?;
    let queries = judge::queries(queries, &code.sizes)?;
    judge::different(&queries)?;
    let claim = Claim {
        block,
        z,
        y: y[0],
        r,
        queries,
        opening,
    };
    Ok((code, claim))
}
