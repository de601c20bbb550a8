//! Query lists in which a place repeats: 11, unless a place is too large or the list too long. Each is
//! lent with a claim that every check accepts and with one that some check rejects. The same claims
//! with different places are not refused, so it is the repeat that is judged, and before every check.

use super::{damaged, good, Swept};
use crate::call::{Call, Input};
use crate::compare::{Comparison, Difference};
use crate::damage::{self, moved};
use crate::good::Shape;
use crate::job::Job;
use tvarchula_reference::sample::Rng;
use tvarchula_reference::sizes::MAX_QUERIES;
use tvarchula_reference::Field;

/// Up to this length a place repeats at every two positions.
const SHORT: usize = 20;

/// All of them.
pub fn run(c: &mut Comparison, field: Field) -> Swept {
    let rng = &mut Rng::new(field, 304);
    beside_damages(c, rng)?;
    short(c, rng)?;
    long(c, rng)?;
    // More places than a list may have.
    let mut claims = Claims::new(c, Shape::random(8, 3), MAX_QUERIES + 1, rng)?;
    longest(c, &mut claims, rng)?;
    too_large(c, &mut claims)?;
    more_than_places(c, rng)?;
    alike(c, rng)
}

/// Claims that differ in one word, and a list of different places.
struct Claims {
    /// The first is accepted; the others fail first in a sum, in the final check, in a base check, and
    /// in the fold of the list's first place.
    calls: Vec<Call>,
    list: Vec<u32>,
    /// The least place that is too large.
    above: u32,
    /// The failing claim that was lent last.
    turn: usize,
}

/// What is due of these claims where nothing is refused.
const VERDICTS: [u32; 5] = [0, 20, 21, 22, 23];

impl Claims {
    fn new(
        c: &mut Comparison,
        shape: Shape,
        count: usize,
        rng: &mut Rng,
    ) -> Result<Claims, Difference> {
        let sizes = shape.sizes;
        let places = sizes.block(sizes.depth - 1);
        let list = rng.places(count, places);
        let honest = good(c, Job::VerifyOpening, shape, rng)?;
        let wrong = [
            (Input::Y, 0),
            (Input::Opening, sizes.final_value()),
            (Input::Opening, sizes.opening() - 1),
            (Input::Block, list[0] as usize),
        ];
        let mut calls = vec![honest.clone()];
        calls.extend(wrong.map(|(input, j)| {
            let mut call = honest.clone();
            let word = &mut call.lent.words_mut(input)[j];
            *word = moved(honest.lent.field, *word);
            call.add_note(&format!("{input:?} {j} moved"));
            call
        }));
        Ok(Claims {
            calls,
            list,
            above: places as u32,
            turn: 0,
        })
    }

    fn ask(&self, c: &mut Comparison, claim: usize, queries: &[u32], due: u32) -> Swept {
        let mut call = self.calls[claim].clone();
        call.lent.words.insert(Input::Queries, queries.to_vec());
        let answer = c.check(&call)?;
        assert_eq!(answer.number, due, "agreed, but not due: {call}");
        Ok(())
    }

    /// Every claim with so many different places, the first of the list among them.
    fn judged(&self, c: &mut Comparison, count: usize) -> Swept {
        for (claim, due) in VERDICTS.into_iter().enumerate() {
            self.ask(c, claim, &self.list[..count], due)?;
        }
        Ok(())
    }

    /// The accepted claim, and one of the others in turn.
    fn refused(&mut self, c: &mut Comparison, queries: &[u32], due: u32) -> Swept {
        self.turn = self.turn % 4 + 1;
        self.ask(c, 0, queries, due)?;
        self.ask(c, self.turn, queries, due)
    }

    /// So many places, that at position k like that at j.
    fn repeated(&self, count: usize, j: usize, k: usize) -> Vec<u32> {
        let mut queries = self.list[..count].to_vec();
        queries[k] = queries[j];
        queries
    }
}

/// A repeat beside every other damage: 1 to 7 come first.
fn beside_damages(c: &mut Comparison, rng: &mut Rng) -> Swept {
    for shape in [Shape::random(2, 4), Shape::random(1, 3).with(2)] {
        let claims = Claims::new(c, shape, 5, rng)?;
        let mut call = claims.calls[0].clone();
        let queries = claims.repeated(5, 1, 3);
        call.lent.words.insert(Input::Queries, queries);
        for damage in damage::all(&call) {
            damaged(c, &call, &[damage], rng)?;
        }
    }
    Ok(())
}

/// Short lists, with a repeat at every two positions.
fn short(c: &mut Comparison, rng: &mut Rng) -> Swept {
    let mut claims = Claims::new(c, Shape::random(3, 6), SHORT, rng)?;
    for count in 1..=SHORT {
        claims.judged(c, count)?;
        for k in 1..count {
            for j in 0..k {
                let queries = claims.repeated(count, j, k);
                claims.refused(c, &queries, 11)?;
            }
        }
    }
    Ok(())
}

/// All longer lists, with a repeat at the ends and anywhere. There are as many places as the longest
/// list has.
fn long(c: &mut Comparison, rng: &mut Rng) -> Swept {
    let mut claims = Claims::new(c, Shape::random(7, 4), MAX_QUERIES, rng)?;
    claims.judged(c, MAX_QUERIES)?;
    for count in SHORT + 1..=MAX_QUERIES {
        claims.ask(c, 0, &claims.list[..count], 0)?;
        let last = count - 1;
        let k = 1 + rng.below(last);
        for (j, k) in [(0, 1), (0, last), (last - 1, last), (rng.below(k), k)] {
            let queries = claims.repeated(count, j, k);
            claims.refused(c, &queries, 11)?;
        }
    }
    Ok(())
}

/// Lists of the largest length and one more.
fn longest(c: &mut Comparison, claims: &mut Claims, rng: &mut Rng) -> Swept {
    claims.judged(c, MAX_QUERIES)?;
    for _ in 0..100 {
        let k = 1 + rng.below(MAX_QUERIES - 1);
        let queries = claims.repeated(MAX_QUERIES, rng.below(k), k);
        claims.refused(c, &queries, 11)?;
    }
    claims.refused(c, &claims.list.clone(), 7)?;
    let queries = claims.repeated(MAX_QUERIES + 1, 0, MAX_QUERIES);
    claims.refused(c, &queries, 7)?;
    for place in [0, claims.above - 1] {
        claims.refused(c, &[place; MAX_QUERIES], 11)?;
        claims.refused(c, &[place; MAX_QUERIES + 1], 7)?;
    }
    Ok(())
}

/// A place too large before, between, behind and in the repeat.
fn too_large(c: &mut Comparison, claims: &mut Claims) -> Swept {
    for count in 3..=6 {
        for k in 1..count {
            for j in 0..k {
                for i in (0..count).filter(|i| ![j, k].contains(i)) {
                    let mut queries = claims.repeated(count, j, k);
                    queries[i] = if i % 2 == 0 { claims.above } else { u32::MAX };
                    claims.refused(c, &queries, 7)?;
                }
            }
        }
    }
    let last = MAX_QUERIES - 1;
    for [i, j, k] in [[0, 1, 2], [0, last - 1, last], [9, 0, last], [last, 0, 1]] {
        let mut queries = claims.repeated(MAX_QUERIES, j, k);
        queries[i] = claims.above;
        claims.refused(c, &queries, 7)?;
    }
    for count in [2, 3, MAX_QUERIES] {
        claims.refused(c, &vec![claims.above; count], 7)?;
    }
    Ok(())
}

/// Lists that are longer than there are places, all of which are legal.
fn more_than_places(c: &mut Comparison, rng: &mut Rng) -> Swept {
    for (shape, places) in [
        (Shape::random(2, 3), 6),
        (Shape::random(1, 3).with(2), 6),
        (Shape::random(1, 2).with(4), 8),
    ] {
        let mut claims = Claims::new(c, shape, places, rng)?;
        claims.judged(c, places)?;
        for count in places + 1..=MAX_QUERIES {
            let queries: Vec<u32> = claims.list.iter().copied().cycle().take(count).collect();
            claims.refused(c, &queries, 11)?;
        }
    }
    Ok(())
}

/// Different places that are alike in their low bits, from 4 to 256 of them.
fn alike(c: &mut Comparison, rng: &mut Rng) -> Swept {
    let mut claims = Claims::new(c, Shape::random(12, 2), 1, rng)?;
    for step in [1024, 256, 64, 16] {
        let mut queries: Vec<u32> = (0..claims.above).step_by(step).collect();
        claims.ask(c, 0, &queries, 0)?;
        queries[1] = queries[queries.len() - 1];
        claims.refused(c, &queries, 11)?;
    }
    Ok(())
}
