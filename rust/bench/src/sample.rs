//! Seeded inputs: a run repeats exactly.

use crate::call::{call, Job};
use crate::jobs::{Jobs, Plain};
use crate::lent::{Buffers, Inputs};
use crate::plain::Reduce;
use crate::sizes::Sizes;
use std::cell::Cell;

/// A small generator (splitmix64).
struct Rng(u64);

impl Rng {
    fn below(&mut self, bound: usize) -> usize {
        self.0 = self.0.wrapping_add(0x9e37_79b9_7f4a_7c15);
        let mut z = self.0;
        z = (z ^ (z >> 30)).wrapping_mul(0xbf58_476d_1ce4_e5b9);
        z = (z ^ (z >> 27)).wrapping_mul(0x94d0_49bb_1331_11eb);
        ((z ^ (z >> 31)) % bound as u64) as usize
    }

    fn word<R: Reduce>(&mut self) -> u32 {
        self.below(R::P as usize) as u32
    }

    fn words<R: Reduce>(&mut self, count: usize) -> Vec<u32> {
        (0..count).map(|_| self.word::<R>()).collect()
    }

    /// So many different places of all.
    fn places(&mut self, count: usize, all: usize) -> Vec<u32> {
        let mut drawn = Vec::new();
        while drawn.len() < count {
            let place = self.below(all) as u32;
            if !drawn.contains(&place) {
                drawn.push(place);
            }
        }
        drawn
    }

    fn clearance<R: Reduce>(&mut self) -> i32 {
        self.word::<R>() as i32 - R::MAX_CLEARANCE
    }
}

impl Inputs {
    /// Legal inputs of all jobs over one field that belong together: a table, its coefficients, their codeword,
    /// and an opening that is accepted. Depth and rate are legal.
    pub fn drawn<R: Reduce>(sizes: Sizes, queries: usize) -> Inputs {
        Inputs::with_words::<R, Plain<R>>(sizes, 1, queries)
    }

    /// The same with base messages of so many words, as this side writes what follows from other words: plain
    /// Rust has base messages of one word only.
    pub fn with_words<R: Reduce, J: Jobs>(sizes: Sizes, k0: usize, queries: usize) -> Inputs {
        let mut inputs = random::<R>(sizes, k0);
        inputs.draw_queries(queries);
        inputs.message = written::<J>(Job::ToCoefficients, &inputs).result;
        inputs.block = vec![0; k0 * sizes.block(sizes.depth)];
        inputs.block = written::<J>(Job::Encode, &inputs).result;
        inputs.opening = vec![0; 3 * sizes.depth + k0 + k0 * sizes.diagonals()];
        let Buffers { result, value, .. } = written::<J>(Job::Write, &inputs);
        (inputs.opening, inputs.y) = (result, value);
        inputs
    }

    /// Another query list, of so many different places, or of all where there are no more.
    pub fn draw_queries(&mut self, count: usize) {
        self.draw_query_lists(1, count);
    }

    /// Several such lists, for calls to take in turns.
    pub fn draw_query_lists(&mut self, lists: usize, count: usize) {
        let places = self.fold_t.len();
        let mut rng = Rng(7);
        let mut lists = (0..lists).map(|_| rng.places(count.min(places), places));
        self.queries = lists.next().unwrap_or_default();
        self.more_queries = lists.collect();
        self.turn = Cell::default();
    }
}

/// What does not follow from something else. A base block has k0 times the words that it has for one word, and so
/// has everything that is made of base blocks. Of several base rows the first columns have an inverse: else
/// encoding would be refused.
fn random<R: Reduce>(sizes: Sizes, k0: usize) -> Inputs {
    let mut rng = Rng((sizes.depth * 100 + sizes.rate) as u64);
    let t = rng.words::<R>(k0 * sizes.diagonals());
    // Never 0 and never p, so the two diagonals differ in every place.
    let step = |t: &u32| (*t + 1 + rng.below(R::P as usize - 1) as u32) % R::P;
    let t2: Vec<u32> = t.iter().map(step).collect();
    let highest = t.len()
        - if sizes.depth == 0 {
            0
        } else {
            k0 * sizes.block(sizes.depth - 1)
        };
    Inputs {
        p: R::P,
        depth: sizes.depth as u32,
        rate: sizes.rate as u32,
        k0: k0 as u32,
        g: rng
            .words::<R>(k0 * k0 * sizes.rate)
            .into_iter()
            .map(|w| w.max(1))
            .collect(),
        fold_t: t[highest..].to_vec(),
        fold_t2: t2[highest..].to_vec(),
        t,
        t2,
        challenge: rng.word::<R>(),
        clearances: (0..k0 * sizes.message())
            .map(|_| rng.clearance::<R>())
            .collect(),
        message: Vec::new(),
        block: Vec::new(),
        // One word more for two words of a base message, two for four.
        z: rng.words::<R>(sizes.depth + k0 / 2),
        y: 0,
        r: rng.words::<R>(sizes.depth),
        queries: Vec::new(),
        more_queries: Vec::new(),
        turn: Cell::default(),
        opening: Vec::new(),
    }
}

/// What a side writes. Of one word plain Rust and the library write the same: the tests compare both.
fn written<J: Jobs>(job: Job, inputs: &Inputs) -> Buffers {
    let mut buffers = Buffers::of(job, inputs);
    let answer = call::<J>(job, inputs, &mut buffers);
    assert_eq!(answer.number, 0, "drawn inputs are legal");
    buffers
}
