//! The calls that are compared, group by group, over one field each.

pub mod blocks;
pub mod code;
pub mod fill;
pub mod ground;
pub mod opening;
pub mod places;
pub mod repeats;

use crate::call::Call;
use crate::compare::{Comparison, Difference};
use crate::damage::{self, Damage};
use crate::good::{self, Shape};
use crate::job::Job;
use tvarchula_reference::sample::Rng;
use tvarchula_reference::{Answer, Field};

/// What a sweep returns: the first difference, if any.
pub type Swept = Result<(), Difference>;

/// How deep every run goes once for each job. For what is above it there is [`crate::large`].
const DEEP: usize = 18;

/// Words of base messages, above one.
const SEVERAL: [usize; 2] = [2, 4];

/// A good call of each job at that depth and the smallest rate.
fn once_deep(c: &mut Comparison, jobs: &[Job], rng: &mut Rng) -> Swept {
    for &job in jobs {
        good(c, job, Shape::random(DEEP, 2), rng)?;
    }
    Ok(())
}

/// A good call must be done, whoever runs it.
fn good(c: &mut Comparison, job: Job, shape: Shape, rng: &mut Rng) -> Result<Call, Difference> {
    let call = good::call(job, shape, rng);
    let answer = c.check(&call)?;
    assert_eq!(answer, Answer::DONE, "a good call was refused: {call}");
    Ok(call)
}

/// A good call with these damages.
fn damaged(c: &mut Comparison, call: &Call, damages: &[Damage], rng: &mut Rng) -> Swept {
    let mut call = call.clone();
    for &damage in damages {
        damage::apply(&mut call, damage, rng);
    }
    c.check(&call).map(drop)
}

/// Every damage alone.
fn singles(c: &mut Comparison, job: Job, shape: Shape, rng: &mut Rng) -> Swept {
    let call = good(c, job, shape, rng)?;
    for damage in damage::all(&call) {
        damaged(c, &call, &[damage], rng)?;
    }
    Ok(())
}

/// Every two damages at once, in both orders: which refusal comes first shows here.
fn pairs(c: &mut Comparison, job: Job, shape: Shape, rng: &mut Rng) -> Swept {
    let call = good(c, job, shape, rng)?;
    let damages = damage::all(&call);
    for &first in &damages {
        for &second in &damages {
            damaged(c, &call, &[first, second], rng)?;
        }
    }
    Ok(())
}

/// Good calls of a filled code, and every damage of one. The first field has none.
fn filled(c: &mut Comparison, job: Job, rng: &mut Rng) -> Swept {
    if rng.field() == Field::First {
        return Ok(());
    }
    singles(c, job, Shape::filled(2, 4), rng)?;
    for depth in 1..=8 {
        for rate in [2, 4, 8, 16] {
            good(c, job, Shape::filled(depth, rate), rng)?;
        }
    }
    Ok(())
}

/// Good calls, half of them with one to four damages.
fn random(c: &mut Comparison, job: Job, count: usize, deepest: usize, rng: &mut Rng) -> Swept {
    for _ in 0..count {
        let shape = any_shape(job, deepest, rng);
        let call = good(c, job, shape, rng)?;
        let damages = damage::all(&call);
        let some: Vec<_> = (0..rng.below(5)).map(|_| rng.pick(&damages)).collect();
        damaged(c, &call, &some, rng)?;
    }
    Ok(())
}

/// Any rate and any k0, of which 1 is as frequent as the others, and a depth that is mostly small. Folding has
/// no level 0.
fn any_shape(job: Job, deepest: usize, rng: &mut Rng) -> Shape {
    let bound = if rng.one_in(12) {
        deepest
    } else {
        deepest.min(4)
    };
    let depth = rng.below(bound + 1).max(usize::from(job == Job::Fold));
    let rate = match job {
        Job::FillRoots => 2 << rng.below(4),
        _ => 2 + rng.below(15),
    };
    let k0 = match job {
        Job::FillRoots => 1,
        _ => rng.pick(&[1, 1, 2, 4]),
    };
    // As many words in a message, or nearly so: the limit is theirs.
    let low = (k0 / 2).min(depth - usize::from(job == Job::Fold && depth > 0));
    Shape::any(depth - low, rate, rng).with(k0)
}

/// Calls whose slices fit a depth, rate or k0 that is not legal: only the number itself is wrong. At depth 21
/// the rate is small, since every slice is drawn: the smallest, and one that is not legal either.
fn illegal_sizes(c: &mut Comparison, job: Job, rng: &mut Rng) -> Swept {
    let high = match rng.field() {
        Field::First => 2,
        Field::Second => 1,
    };
    for (depth, rate, k0) in [
        (21, high, 1),
        (2, 0, 1),
        (2, 1, 1),
        (2, 17, 1),
        (3, 20, 1),
        (2, 17, 2),
        (1, 1, 4),
        (2, 2, 3),
        (1, 16, 5),
        (1, 2, 8),
        (3, 3, 16),
        (2, 1, 3),
    ] {
        let call = good::formed(job, Shape::any(depth, rate, rng).with(k0), rng);
        c.check(&call)?;
    }
    Ok(())
}
