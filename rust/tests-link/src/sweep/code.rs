//! Encoding, decoding, folding.

use super::blocks as rows;
use super::{filled, good, illegal_sizes, once_deep, pairs, places, random, singles, Swept};
use crate::call::{Call, Input};
use crate::compare::Comparison;
use crate::damage::{moved, moved_back};
use crate::good::{self as calls, Shape};
use crate::job::Job;
use tvarchula_reference::sample::Rng;
use tvarchula_reference::Field;

const ALL: [Job; 3] = [Job::Encode, Job::Decode, Job::Fold];

/// All calls of the code group to depth 12, and folds from the largest level and above.
pub fn run(c: &mut Comparison, field: Field, scale: usize) -> Swept {
    let mut rng = Rng::new(field, 200);
    // What is small comes first, of every job: a wrong job is found soon.
    for job in ALL {
        for (depth, rate) in [(1, 2), (2, 3), (3, 16)] {
            singles(c, job, Shape::random(depth, rate), &mut rng)?;
            pairs(c, job, Shape::any(depth, rate, &mut rng), &mut rng)?;
        }
        if job != Job::Fold {
            pairs(c, job, Shape::any(0, 2, &mut rng), &mut rng)?;
        }
        places::run(c, job, &mut rng)?;
        rows::run(c, job, &mut rng)?;
        filled(c, job, &mut rng)?;
    }
    blocks(c, 2_000 * scale, &mut rng)?;
    challenges(c, 500 * scale, &mut rng)?;
    fold_levels(c, &mut rng)?;
    for job in ALL {
        illegal_sizes(c, job, &mut rng)?;
        every_size(c, job, &mut rng)?;
        random(c, job, 3_000 * scale, 11, &mut rng)?;
    }
    Ok(())
}

/// Depths 13 and 15 and, at rate 16, 16, once each, a block of that size that is no codeword, and the
/// last place of each input of that size.
pub fn sixteen(c: &mut Comparison, field: Field) -> Swept {
    let mut rng = Rng::new(field, 201);
    for job in ALL {
        for (depth, rate, k0) in [(13, 5, 1), (13, 3, 2), (13, 2, 4), (15, 2, 1)] {
            let shape = Shape::any(depth, rate, &mut rng).with(k0);
            good(c, job, shape, &mut rng)?;
        }
        let mut call = good(c, job, Shape::random(16, 16), &mut rng)?;
        places::last(c, &call, &mut rng)?;
        if job == Job::Decode {
            let last = call.lent.words_mut(Input::Block).last_mut();
            let last = last.expect("a block is not empty");
            *last = moved(field, *last);
            call.add_note("last word moved");
            c.check(&call)?;
        }
    }
    Ok(())
}

/// The deepest calls of every run.
pub fn deep(c: &mut Comparison, field: Field) -> Swept {
    once_deep(c, &ALL, &mut Rng::new(field, 202))?;
    rows::limits(c, &ALL, field)
}

/// All depths 0 to 12 (levels 1 to 12) with all rates, good and with some damage; of the largest blocks
/// one field has those of even rates, the other those of odd ones.
fn every_size(c: &mut Comparison, job: Job, rng: &mut Rng) -> Swept {
    let parity = usize::from(rng.field() == Field::Second);
    for depth in usize::from(job == Job::Fold)..=12 {
        for rate in (2..=16).filter(|rate| depth <= 10 || rate % 2 == parity) {
            good(c, job, Shape::any(depth, rate, rng), rng)?;
            if depth <= 2 {
                singles(c, job, Shape::any(depth, rate, rng), rng)?;
            }
        }
    }
    Ok(())
}

/// Blocks to decode: every single word of a codeword changed, and any blocks.
fn blocks(c: &mut Comparison, count: usize, rng: &mut Rng) -> Swept {
    let field = rng.field();
    for (depth, rate, k0) in [
        (0, 2, 1),
        (0, 16, 1),
        (1, 2, 1),
        (1, 3, 1),
        (2, 2, 1),
        (2, 4, 1),
        (3, 2, 1),
        (3, 5, 1),
        (3, 8, 1),
        (4, 3, 1),
        (5, 4, 1),
        (6, 2, 1),
        (0, 2, 2),
        (0, 3, 2),
        (1, 2, 2),
        (2, 4, 2),
        (3, 3, 2),
        (4, 2, 2),
        (0, 2, 4),
        (0, 16, 4),
        (1, 2, 4),
        (1, 4, 4),
        (2, 3, 4),
        (3, 2, 4),
    ] {
        let shape = Shape::any(depth, rate, rng).with(k0);
        let call = good(c, Job::Decode, shape, rng)?;
        for j in 0..call.lent.words(Input::Block).len() {
            let mut call = call.clone();
            call.add_note(&format!("word {j} moved"));
            let word = call.lent.words(Input::Block)[j];
            for other in [moved(field, word), moved_back(field, word), 0, 1] {
                call.lent.words_mut(Input::Block)[j] = other;
                c.check(&call)?;
            }
        }
    }
    for _ in 0..count {
        let (depth, rate, k0) = (rng.below(4), 2 + rng.below(5), rng.pick(&[1, 1, 2, 4]));
        // Any block: mostly none is a codeword, with small words some are.
        let shape = Shape::any(depth, rate, rng).with(k0);
        let call = calls::formed(Job::Decode, shape, rng);
        c.check(&call)?;
    }
    Ok(())
}

/// Folds by challenges that lie on a diagonal, or at the edges.
fn challenges(c: &mut Comparison, count: usize, rng: &mut Rng) -> Swept {
    let field = rng.field();
    for _ in 0..count {
        let (level, rate, k0) = (1 + rng.below(3), 2 + rng.below(15), rng.pick(&[1, 1, 2, 4]));
        let shape = Shape::any(level, rate, rng).with(k0);
        let mut call: Call = calls::call(Job::Fold, shape, rng);
        let from = rng.pick(&[Input::T, Input::T2]);
        let words = call.lent.words(from);
        let on = words[rng.below(words.len())];
        for challenge in [on, moved(field, on), 0, 1, field.modulus() - 1] {
            call.lent.words.insert(Input::Challenge, vec![challenge]);
            c.check(&call)?;
        }
    }
    Ok(())
}

/// Upper level 0, with slices that would fit it, and levels 16, 17 and 20 at the smallest rate.
fn fold_levels(c: &mut Comparison, rng: &mut Rng) -> Swept {
    singles(c, Job::Fold, Shape::any(16, 2, rng), rng)?;
    for level in [17, 20] {
        good(c, Job::Fold, Shape::any(level, 2, rng), rng)?;
    }
    // A block of level 0 has no halves; with an even rate its length would be two halves' length.
    for k0 in [1, 2, 4, 3] {
        let mut call = calls::formed(Job::Fold, Shape::any(1, 2, rng).with(k0), rng);
        call.lent.parameters.depth = 0;
        for length in (0..=2 * k0).rev() {
            call.lent.words_mut(Input::T).truncate(length);
            call.lent.words_mut(Input::T2).truncate(length);
            c.check(&call)?;
        }
    }
    Ok(())
}
