//! Writing and verifying openings.

use super::Swept;
use super::{
    blocks, damaged, filled, good, illegal_sizes, once_deep, pairs, places, random, repeats,
    singles,
};
use crate::call::{Call, Input};
use crate::compare::Comparison;
use crate::damage::{moved, moved_back, Damage, Place};
use crate::forge;
use crate::good::{self as calls, Shape};
use crate::job::Job;
use tvarchula_reference::sample::{Rng, STYLES};
use tvarchula_reference::{Field, Layout};

const ALL: [Job; 2] = [Job::WriteOpening, Job::VerifyOpening];
const SMALL: [(usize, usize); 8] = [
    (0, 2),
    (0, 5),
    (1, 2),
    (1, 3),
    (2, 2),
    (2, 3),
    (3, 2),
    (4, 2),
];
/// Depth, rate and k0.
const SMALL_BLOCKS: [(usize, usize, usize); 6] = [
    (0, 2, 2),
    (1, 2, 2),
    (2, 3, 2),
    (0, 2, 4),
    (1, 2, 4),
    (2, 2, 4),
];

/// All calls of the opening group to depth 10.
pub fn run(c: &mut Comparison, field: Field, scale: usize) -> Swept {
    writing(c, field, scale)?;
    verifying(c, field, scale)
}

/// Calls that write an opening.
pub fn writing(c: &mut Comparison, field: Field, scale: usize) -> Swept {
    common(c, Job::WriteOpening, scale, &mut Rng::new(field, 300))
}

/// Calls that verify an opening.
pub fn verifying(c: &mut Comparison, field: Field, scale: usize) -> Swept {
    let mut rng = Rng::new(field, 301);
    for _ in 0..scale {
        every_word(c, &mut rng)?;
    }
    for (depth, rate, k0) in [(10, 2, 1), (9, 3, 1), (7, 16, 1), (8, 2, 2), (6, 5, 4)] {
        let shape = Shape::random(depth, rate).with(k0);
        deep_words(c, shape, 200 * scale, &mut rng)?;
    }
    query_lists(c, &mut rng)?;
    repeats::run(c, field)?;
    several_words(c, 2_000 * scale, &mut rng)?;
    zero_eq(c, 300 * scale, &mut rng)?;
    kept_sums(c, 300 * scale, &mut rng)?;
    forged(c, 1_500 * scale, &mut rng)?;
    common(c, Job::VerifyOpening, scale, &mut rng)
}

/// Good and damaged calls of all sizes.
fn common(c: &mut Comparison, job: Job, scale: usize, rng: &mut Rng) -> Swept {
    for depth in 0..=10 {
        for rate in 2..=16 {
            good(c, job, Shape::any(depth, rate, rng), rng)?;
        }
    }
    for (depth, rate) in SMALL {
        singles(c, job, Shape::any(depth, rate, rng), rng)?;
    }
    for (depth, rate) in [(0, 2), (1, 2), (2, 3)] {
        pairs(c, job, Shape::any(depth, rate, rng), rng)?;
    }
    illegal_sizes(c, job, rng)?;
    places::run(c, job, rng)?;
    blocks::run(c, job, rng)?;
    filled(c, job, rng)?;
    random(c, job, 2_000 * scale, 10, rng)
}

/// Depths 11 to 16 and rate 16 at the last, once each, and wrong claims of that size.
pub fn sixteen(c: &mut Comparison, field: Field) -> Swept {
    let mut rng = Rng::new(field, 302);
    for (depth, rate, k0) in [
        (11, 7, 1),
        (12, 2, 1),
        (12, 3, 2),
        (12, 2, 4),
        (14, 2, 1),
        (15, 2, 1),
    ] {
        let shape = Shape::any(depth, rate, &mut rng).with(k0);
        for job in ALL {
            good(c, job, shape, &mut rng)?;
        }
    }
    let call = good(c, Job::WriteOpening, Shape::random(16, 16), &mut rng)?;
    places::last(c, &call, &mut rng)?;
    let call = good(c, Job::VerifyOpening, Shape::random(16, 16), &mut rng)?;
    places::last(c, &call, &mut rng)?;
    let damages = [
        Damage::Moved(Input::Y, Place::First),
        Damage::Moved(Input::Opening, Place::First),
        Damage::Moved(Input::Opening, Place::Last),
        Damage::Moved(Input::Opening, Place::Any),
        Damage::Moved(Input::Block, Place::Any),
        Damage::QueryFilled(256),
        Damage::QueryRepeated,
    ];
    for damage in damages {
        damaged(c, &call, &[damage], &mut rng)?;
    }
    // Different places that are alike in their low 16 bits.
    queried(c, &call, (0..8).map(|k| k << 16 | 1).collect())?;
    let call = forge::claim(Shape::random(16, 16), 7, true, &mut rng);
    c.check(&call).map(drop)
}

/// The deepest calls of every run.
pub fn deep(c: &mut Comparison, field: Field) -> Swept {
    once_deep(c, &ALL, &mut Rng::new(field, 303))?;
    blocks::limits(c, &ALL, field)
}

/// At small sizes every word of every input moved either way, alone: the same verdict and place.
fn every_word(c: &mut Comparison, rng: &mut Rng) -> Swept {
    let field = rng.field();
    let one = SMALL.map(|(depth, rate)| (depth, rate, 1));
    for (depth, rate, k0) in one.into_iter().chain(SMALL_BLOCKS) {
        for style in STYLES {
            let shape = Shape {
                words: style,
                ..Shape::any(depth, rate, rng).with(k0)
            };
            let call = good(c, Job::VerifyOpening, shape, rng)?;
            let inputs = call.lent.words.iter();
            let places: Vec<_> = inputs
                .flat_map(|(&input, words)| (0..words.len()).map(move |j| (input, j)))
                .collect();
            for (input, j) in places {
                let word = call.lent.words(input)[j];
                let others = match input {
                    Input::Queries => [word + 1, word.wrapping_sub(1)],
                    _ => [moved(field, word), moved_back(field, word)],
                };
                for other in others {
                    let mut call = call.clone();
                    call.lent.words_mut(input)[j] = other;
                    call.add_note(&format!("{input:?} {j}: {word} to {other}"));
                    c.check(&call)?;
                }
            }
        }
    }
    Ok(())
}

/// At larger depths every word of the rounds, v and block 0 moved, and any words of the rest.
fn deep_words(c: &mut Comparison, shape: Shape, count: usize, rng: &mut Rng) -> Swept {
    let mut honest = good(c, Job::VerifyOpening, shape, rng)?;
    let sizes = shape.sizes;
    let queries = rng.places(256, sizes.block(sizes.depth - 1));
    honest.lent.words.insert(Input::Queries, queries);
    let opening = (0..sizes.final_words().end).chain(sizes.opening_block(0));
    let mut places: Vec<_> = opening.map(|j| (Input::Opening, j)).collect();
    for _ in 0..count {
        places.push((Input::Opening, rng.below(sizes.opening())));
        places.push((Input::Block, rng.below(sizes.top_block())));
    }
    for (input, j) in places {
        let mut call = honest.clone();
        let word = call.lent.words(input)[j];
        call.lent.words_mut(input)[j] = moved(rng.field(), word);
        call.add_note(&format!("{input:?} {j} moved"));
        c.check(&call)?;
    }
    Ok(())
}

/// Several words wrong at once: the first failure in the order's order must be the one named.
fn several_words(c: &mut Comparison, count: usize, rng: &mut Rng) -> Swept {
    for _ in 0..count {
        let shape = any_small(rng);
        let mut call = calls::call(Job::VerifyOpening, shape, rng);
        let sizes = shape.sizes;
        let v = sizes.final_words();
        // Mostly only blocks: a wrong round would hide what comes after it.
        let from = rng.pick(&[0, v.start, v.end, v.end]);
        for _ in 0..2 + rng.below(3) {
            let (input, j) = if rng.one_in(4) {
                (Input::Block, rng.below(sizes.top_block()))
            } else {
                (Input::Opening, from + rng.below(sizes.opening() - from))
            };
            let word = call.lent.words(input)[j];
            call.lent.words_mut(input)[j] = moved(rng.field(), word);
            call.add_note(&format!("{input:?} {j} moved"));
        }
        c.check(&call)?;
    }
    Ok(())
}

/// Depths 1 to 4, there with base messages of one word, and small rates.
fn any_small(rng: &mut Rng) -> Shape {
    let (depth, rate) = (1 + rng.below(4), 2 + rng.below(4));
    let k0 = match depth {
        4 => 1,
        _ => rng.pick(&[1, 1, 2, 4]),
    };
    Shape::any(depth, rate, rng).with(k0)
}

/// Every place alone, beside 0, beside itself, and behind all others; places too large; and lists of
/// lengths around the edges, longer than there are places too; for honest claims and for ones with a
/// wrong word in each block.
fn query_lists(c: &mut Comparison, rng: &mut Rng) -> Swept {
    for (depth, rate, k0) in [
        (1, 2, 1),
        (2, 2, 1),
        (2, 3, 1),
        (3, 2, 1),
        (3, 3, 1),
        (4, 2, 1),
        (5, 2, 1),
        (2, 16, 1),
        (1, 2, 2),
        (2, 3, 2),
        (1, 2, 4),
        (2, 2, 4),
    ] {
        let shape = Shape::random(depth, rate).with(k0);
        let honest = good(c, Job::VerifyOpening, shape, rng)?;
        let sizes = shape.sizes;
        let mut claims = vec![honest.clone()];
        for level in 1..=depth {
            let (input, start, length) = if level == depth {
                (Input::Block, 0, sizes.top_block())
            } else {
                let range = sizes.opening_block(level);
                (Input::Opening, range.start, range.len())
            };
            let mut call = honest.clone();
            let j = start + rng.below(length);
            let word = call.lent.words(input)[j];
            call.lent.words_mut(input)[j] = moved(rng.field(), word);
            call.add_note(&format!("{input:?} {j} moved"));
            claims.push(call);
        }
        let below = sizes.block(depth - 1) as u32;
        for claim in &claims {
            for place in (0..below + 2).chain([u32::MAX]) {
                queried(c, claim, vec![place])?;
                queried(c, claim, vec![0, place])?;
                queried(c, claim, vec![place; 2])?;
                let others = (0..below).filter(|&other| other != place);
                queried(c, claim, others.chain([place]).collect())?;
            }
            for count in [0, 1, 2, below - 1, below, below + 1, 255, 256, 257, 1000] {
                queried(c, claim, (0..count).map(|k| k % below).collect())?;
            }
            let mut last = vec![0; 256];
            last[255] = below;
            queried(c, claim, last)?;
        }
    }
    for (rate, k0) in [(2, 1), (7, 1), (2, 2), (3, 4)] {
        let claim = good(c, Job::VerifyOpening, Shape::random(0, rate).with(k0), rng)?;
        for count in 0..3 {
            queried(c, &claim, vec![0; count])?;
        }
        queried(c, &claim, vec![u32::MAX])?;
    }
    Ok(())
}

fn queried(c: &mut Comparison, claim: &Call, queries: Vec<u32>) -> Swept {
    let mut call = claim.clone();
    call.lent.words.insert(Input::Queries, queries);
    c.check(&call).map(drop)
}

/// Claims where eq is 0 (a challenge is 1 less the word of z for its variable, a bit): the final check says
/// nothing about v, which must not decide by itself; with v and block 0 moved together the folds still do.
fn zero_eq(c: &mut Comparison, count: usize, rng: &mut Rng) -> Swept {
    for _ in 0..count {
        let shape = any_small(rng);
        let sizes = shape.sizes;
        let mut writing = calls::formed(Job::WriteOpening, shape, rng);
        let (i, bit) = (rng.below(sizes.depth), rng.below(2) as u32);
        writing.lent.words_mut(Input::Z)[sizes.low() + i] = bit;
        writing.lent.words_mut(Input::R)[i] = 1 - bit;
        c.check(&writing)?;
        let mut call = calls::honest(&writing, shape, rng);
        call.add_note("eq is 0");
        c.check(&call)?;
        let place = sizes.final_value() + rng.below(sizes.k0);
        let word = &mut call.lent.words_mut(Input::Opening)[place];
        *word = moved(rng.field(), *word);
        c.check(&call)?;
        encode_final(&mut call, &sizes);
        call.add_note("v and block 0 moved");
        c.check(&call)?;
    }
    Ok(())
}

/// Block 0 as the codeword of v.
fn encode_final(call: &mut Call, sizes: &Layout) {
    let p = u64::from(call.lent.field.modulus());
    let v = call.lent.words(Input::Opening)[sizes.final_words()].to_vec();
    let rows: Vec<_> = call.lent.words(Input::G).chunks(sizes.block(0)).collect();
    let word = |j: usize| {
        let terms = v.iter().zip(&rows);
        let sum = terms.fold(0, |sum, (&v, row)| {
            (sum + u64::from(v) * u64::from(row[j])) % p
        });
        sum as u32
    };
    let base: Vec<u32> = (0..sizes.block(0)).map(word).collect();
    call.lent.words_mut(Input::Opening)[sizes.opening_block(0)].copy_from_slice(&base);
}

/// Of several final coefficients two moved so that the last sum stays: the base check has to find them, and
/// with block 0 moved too the folds. Some of these have a low word of z that is 0, so that one coefficient is
/// moved alone.
pub fn kept_sums(c: &mut Comparison, count: usize, rng: &mut Rng) -> Swept {
    let p = u64::from(rng.field().modulus());
    for _ in 0..count {
        let k0 = rng.pick(&[2, 4]);
        let (depth, rate) = (rng.below(3), 2 + rng.below(3));
        let shape = Shape::any(depth, rate, rng).with(k0);
        let sizes = shape.sizes;
        let mut writing = calls::formed(Job::WriteOpening, shape, rng);
        if rng.one_in(3) {
            let i = rng.below(sizes.low());
            writing.lent.words_mut(Input::Z)[i] = 0;
        }
        let mut call = calls::honest(&writing, shape, rng);
        let b = 1 + rng.below(k0 - 1);
        let z = call.lent.words(Input::Z)[..sizes.low()].iter().enumerate();
        let set = z.filter(|(i, _)| b >> i & 1 == 1);
        let weight = set.fold(1, |weight, (_, &word)| weight * u64::from(word) % p);
        let v = &mut call.lent.words_mut(Input::Opening)[sizes.final_words()];
        v[b] = (v[b] + 1) % p as u32;
        v[0] = ((u64::from(v[0]) + p - weight) % p) as u32;
        call.add_note(&format!("v moved in 0 and {b}"));
        let answer = c.check(&call)?;
        assert_eq!(answer.number, 22, "agreed, but not due: {call}");
        if depth > 0 {
            encode_final(&mut call, &sizes);
            call.add_note("and block 0");
            c.check(&call)?;
        }
    }
    Ok(())
}

/// Forged claims at every level.
fn forged(c: &mut Comparison, count: usize, rng: &mut Rng) -> Swept {
    for _ in 0..count {
        let deepest = if rng.one_in(20) { 8 } else { 5 };
        let k0 = rng.pick(&[1, 1, 2, 4]);
        let (depth, rate) = (1 + rng.below(deepest - k0 / 2), 2 + rng.below(15));
        let shape = Shape::any(depth, rate, rng).with(k0);
        let (level, whole) = (rng.below(depth), !rng.one_in(4));
        let call = forge::claim(shape, level, whole, rng);
        c.check(&call)?;
    }
    Ok(())
}
