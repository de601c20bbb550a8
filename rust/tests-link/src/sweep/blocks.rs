//! The record, and base messages of two and four words: calls of every job. What is particular to a job
//! is with the others of its group.

use super::{good, pairs, singles, Swept, SEVERAL};
use crate::call::{Call, Input};
use crate::compare::Comparison;
use crate::damage::refused_words;
use crate::good::{self as calls, Shape};
use crate::job::Job;
use tvarchula_reference::sample::{Rng, STYLES};
use tvarchula_reference::{Answer, Field, Parameters};

/// Small sizes with every damage and every two, all numbers of the record, and all sizes.
pub fn run(c: &mut Comparison, job: Job, rng: &mut Rng) -> Swept {
    record(c, job, rng)?;
    if job == Job::FillRoots {
        return Ok(());
    }
    ranks(c, job, rng)?;
    permuted(c, job, rng)?;
    for k0 in SEVERAL {
        let lowest = usize::from(job == Job::Fold);
        for (depth, rate) in [(lowest, 2), (1, 3), (2, 2), (1, 16)] {
            singles(c, job, Shape::any(depth, rate, rng).with(k0), rng)?;
        }
        every_size(c, job, k0, rng)?;
    }
    // Who is refused first does not depend on the size.
    let k0 = rng.pick(&SEVERAL);
    pairs(c, job, Shape::any(1, 2, rng).with(k0), rng)
}

/// All rates at depths 0 to 8.
fn every_size(c: &mut Comparison, job: Job, k0: usize, rng: &mut Rng) -> Swept {
    for depth in usize::from(job == Job::Fold)..=8 {
        // Neither tables nor evaluation have a rate.
        for rate in (2..=16).filter(|&rate| rate == 2 || job.judges_rate()) {
            good(c, job, Shape::any(depth, rate, rng).with(k0), rng)?;
        }
    }
    Ok(())
}

/// Numbers of the record around every limit, each with each: slices are those of a small legal call, so
/// that 1, 2, 13 and 3 decide, and for jobs that do not judge a number nothing.
fn record(c: &mut Comparison, job: Job, rng: &mut Rng) -> Swept {
    let k0 = match job {
        Job::FillRoots => 1,
        _ => rng.pick(&[1, 2, 4]),
    };
    let mut call = good(c, job, Shape::any(1, 2, rng).with(k0), rng)?;
    call.add_note("other numbers");
    for depth in [0, 1, 2, 17, 18, 19, 20, 21, 22, 31, 32, 63, 64, u32::MAX] {
        for rate in [0, 1, 2, 3, 16, 17, u32::MAX] {
            for k0 in [0, 1, 2, 3, 4, 5, 6, 7, 8, 16, 1 << 31, u32::MAX] {
                call.lent.parameters = Parameters { depth, rate, k0 };
                c.check(&call)?;
            }
        }
    }
    Ok(())
}

/// Base rows whose first k0 columns have every rank: 5 is due where that is less than k0, unless a word is
/// too large, and before 6.
fn ranks(c: &mut Comparison, job: Job, rng: &mut Rng) -> Swept {
    if !job.has_rows() {
        return Ok(());
    }
    for k0 in SEVERAL {
        for rank in 0..=k0 {
            for rate in 2..=16 {
                let style = rng.pick(&STYLES);
                let shape = Shape::any(rng.below(3), rate, rng).with(k0);
                let g = rng.base_rows(&shape.sizes, rank, style);
                let mut call = calls::formed(job, shape, rng);
                call.lent.words.insert(Input::G, g);
                call.add_note(&format!("rank {rank}"));
                if rank == k0 {
                    calls::complete(&mut call, shape, rng);
                    due(c, &call, Answer::DONE)?;
                    continue;
                }
                due(c, &call, Answer::plain(5))?;
                let t = call.lent.words(Input::T).to_vec();
                call.lent.words.insert(Input::T2, t);
                call.add_note("all pairs equal");
                due(c, &call, Answer::plain(5))?;
                high_word(c, call, rng)?;
            }
        }
    }
    Ok(())
}

/// The same call with a word of p or more anywhere in g, which is 4.
fn high_word(c: &mut Comparison, mut call: Call, rng: &mut Rng) -> Swept {
    let word = rng.pick(&refused_words(rng.field()));
    let g = call.lent.words_mut(Input::G);
    let index = rng.below(g.len());
    g[index] = word;
    call.add_note(&format!("word {index} of g {word}"));
    let four = Answer {
        number: 4,
        first: index as u32,
        second: 1,
    };
    due(c, &call, four)
}

/// Columns with one word in each row and each column, in every order, and zeros else: all of them legal,
/// and most with a zero in the corner.
fn permuted(c: &mut Comparison, job: Job, rng: &mut Rng) -> Swept {
    if !job.has_rows() {
        return Ok(());
    }
    for k0 in SEVERAL {
        for order in orders(k0) {
            let shape = Shape::any(rng.below(3), 2 + rng.below(4), rng).with(k0);
            let mut call = calls::formed(job, shape, rng);
            let one = rng.one_in(2);
            let n = shape.sizes.block(0);
            for (b, &place) in order.iter().enumerate() {
                let word = 1 + rng.below(rng.field().modulus() as usize - 1) as u32;
                let columns = &mut call.lent.words_mut(Input::G)[b * n..][..k0];
                columns.fill(0);
                columns[place] = if one { 1 } else { word };
            }
            calls::complete(&mut call, shape, rng);
            call.add_note(&format!("columns {order:?}"));
            due(c, &call, Answer::DONE)?;
        }
    }
    Ok(())
}

/// All orders of so many places.
fn orders(count: usize) -> Vec<Vec<usize>> {
    let Some(last) = count.checked_sub(1) else {
        return vec![Vec::new()];
    };
    let mut all = Vec::new();
    for order in orders(last) {
        for place in 0..=last {
            let mut order = order.clone();
            order.insert(place, last);
            all.push(order);
        }
    }
    all
}

fn due(c: &mut Comparison, call: &Call, due: Answer) -> Swept {
    let answer = c.check(call)?;
    assert_eq!(answer, due, "agreed, but not due: {call}");
    Ok(())
}

/// The largest messages, k0 * 2^d of 1048576 words, at the smallest rate, and one level more, which is 1. The
/// fields share the k0 between them.
pub fn limits(c: &mut Comparison, jobs: &[Job], field: Field) -> Swept {
    let rng = &mut Rng::new(field, 500);
    let shared: &[usize] = match field {
        Field::First => &[1, 4],
        Field::Second => &[2],
    };
    for &job in jobs {
        for &k0 in shared {
            let depth = 20 - k0 / 2;
            good(c, job, Shape::random(depth, 2).with(k0), rng)?;
            let call = calls::formed(job, Shape::random(depth + 1, 2).with(k0), rng);
            due(c, &call, Answer::plain(1))?;
        }
    }
    Ok(())
}

#[cfg(test)]
mod tests {
    use super::*;

    #[test]
    fn every_order_once() {
        let mut all = orders(4);
        all.sort();
        all.dedup();
        assert_eq!(all.len(), 24);
        for mut order in all {
            order.sort();
            assert_eq!(order, [0, 1, 2, 3]);
        }
    }
}
