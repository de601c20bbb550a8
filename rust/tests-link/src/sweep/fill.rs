//! Filling. It has no field, and reads nothing but the record and lengths.

use super::{blocks, damaged, illegal_sizes, pairs, random, singles, Swept};
use crate::call::Call;
use crate::compare::Comparison;
use crate::damage;
use crate::good::{formed, Shape};
use crate::job::Job;
use tvarchula_reference::sample::Rng;
use tvarchula_reference::{Answer, Field, Parameters};

/// The rates that can be filled.
const FILLED: [usize; 4] = [2, 4, 8, 16];

/// All calls to depth 10.
pub fn run(c: &mut Comparison, scale: usize) -> Swept {
    let mut rng = Rng::new(Field::Second, 210);
    for depth in 0..=10 {
        for rate in 2..=16 {
            judged(c, depth, rate, &mut rng)?;
        }
    }
    for (depth, rate) in [(0, 2), (0, 16), (1, 2), (2, 4), (3, 8), (4, 16), (10, 2)] {
        singles(c, Job::FillRoots, Shape::random(depth, rate), &mut rng)?;
        pairs(c, Job::FillRoots, Shape::random(depth, rate), &mut rng)?;
    }
    no_powers_of_two(c, &mut rng)?;
    illegal_sizes(c, Job::FillRoots, &mut rng)?;
    for (depth, rate) in [
        (21, 2),
        (21, 3),
        (22, 2),
        (2, 32),
        (2, 64),
        (1, 24),
        (21, 0),
        (0, 17),
    ] {
        let call = formed(Job::FillRoots, Shape::random(depth, rate), &mut rng);
        c.check(&call)?;
    }
    huge(c, &mut rng)?;
    blocks::run(c, Job::FillRoots, &mut rng)?;
    several_words(c, &mut rng)?;
    random(c, Job::FillRoots, 1_000 * scale, 10, &mut rng)
}

/// Depth 16 with every rate that can be filled and one that cannot, and once depth 18.
pub fn deep(c: &mut Comparison) -> Swept {
    let mut rng = Rng::new(Field::Second, 211);
    for rate in [2, 3, 4, 8, 16] {
        judged(c, 16, rate, &mut rng)?;
    }
    judged(c, 18, 2, &mut rng)
}

/// A well-formed call, of which 12 or nothing is due.
fn judged(c: &mut Comparison, depth: usize, rate: usize, rng: &mut Rng) -> Swept {
    let call = formed(Job::FillRoots, Shape::random(depth, rate), rng);
    let answer = c.check(&call)?;
    let due = Answer::plain(if FILLED.contains(&rate) { 0 } else { 12 });
    assert_eq!(answer, due, "agreed, but not due: {call}");
    Ok(())
}

/// Every damage and every two of a call whose rate is no power of two: 1, 2 and 3 come first.
fn no_powers_of_two(c: &mut Comparison, rng: &mut Rng) -> Swept {
    for (depth, rate) in [(0, 3), (1, 3), (2, 6), (3, 15), (1, 12)] {
        let call: Call = formed(Job::FillRoots, Shape::random(depth, rate), rng);
        let damages = damage::all(&call);
        for &first in &damages {
            damaged(c, &call, &[first], rng)?;
            for &second in &damages {
                damaged(c, &call, &[first, second], rng)?;
            }
        }
    }
    Ok(())
}

/// Base messages of more than one word, with slices that fit those and such as fit one word: 13 either way.
fn several_words(c: &mut Comparison, rng: &mut Rng) -> Swept {
    for k0 in [2, 4, 3, 8] {
        for depth in 0..=3 {
            for rate in [2, 3, 4, 16] {
                let shape = Shape::random(depth, rate).with(k0);
                let mut call = formed(Job::FillRoots, shape, rng);
                refused(c, &call, 13)?;
                call.out = formed(Job::FillRoots, shape.with(1), rng).out;
                refused(c, &call, 13)?;
            }
        }
        // The limit is that of one word.
        let mut call = formed(Job::FillRoots, Shape::random(1, 2).with(k0), rng);
        for (depth, due) in [(19, 13), (20, 13), (21, 1)] {
            call.lent.parameters.depth = depth;
            refused(c, &call, due)?;
        }
    }
    Ok(())
}

fn refused(c: &mut Comparison, call: &Call, due: u32) -> Swept {
    let answer = c.check(call)?;
    assert_eq!(answer, Answer::plain(due), "agreed, but not due: {call}");
    Ok(())
}

/// Numbers whose products and powers are more than a word or an index has.
fn huge(c: &mut Comparison, rng: &mut Rng) -> Swept {
    let mut call = formed(Job::FillRoots, Shape::random(2, 2), rng);
    for depth in [0, 2, 20, 21, 27, 28, 31, 32, 33, 63, 64, 1 << 31, u32::MAX] {
        for rate in [
            0,
            1,
            2,
            3,
            16,
            17,
            1 << 16,
            1 << 27,
            1 << 30,
            1 << 31,
            u32::MAX,
        ] {
            call.lent.parameters = Parameters::one(depth, rate);
            c.check(&call)?;
        }
    }
    Ok(())
}
