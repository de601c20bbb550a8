//! What follows from the order for honest openings and for honest openings with one word moved.
//! The expected verdicts are derived here from the order, not from the verifier's code.

use tvarchula_reference::sample::{Rng, Style, STYLES};
use tvarchula_reference::sumcheck::eq;
use tvarchula_reference::{
    over_both, Answer, CodeJobs, Field, GroundJobs, Layout, LentCode, OpeningJobs, Reference,
    Residue,
};

over_both!(
    honest_openings_are_accepted_and_no_other_value
    every_query_accepts_an_honest_opening
    every_repeat_is_refused
    one_moved_word_of_the_rounds_or_the_final_value
    one_moved_word_of_a_block
    a_moved_final_value_where_eq_is_zero
    a_call_that_opens_a_large_size
);

struct Honest<const P: u32> {
    sizes: Layout,
    code: [Vec<u32>; 3],
    message: Vec<u32>,
    block: Vec<u32>,
    z: Vec<u32>,
    y: u32,
    r: Vec<u32>,
    queries: Vec<u32>,
    opening: Vec<u32>,
}

impl<const P: u32> Honest<P> {
    fn new(rng: &mut Rng, sizes: Layout, style: Style) -> Honest<P> {
        let below = sizes.top_block() / 2;
        let count = if sizes.depth == 0 {
            0
        } else {
            1 + rng.below(below.min(6))
        };
        let mut honest = Honest {
            sizes,
            code: rng.code(&sizes, style),
            message: rng.words(sizes.message(), style),
            block: vec![0; sizes.top_block()],
            z: rng.words(sizes.depth, style),
            y: 0,
            r: rng.words(sizes.depth, style),
            queries: rng.places(count, below),
            opening: vec![0; sizes.opening()],
        };
        let mut block = std::mem::take(&mut honest.block);
        let encoded = Reference::encode(honest.lent(), &honest.message, &mut block);
        assert_eq!(encoded, Answer::DONE);
        honest.block = block;
        let mut opening = std::mem::take(&mut honest.opening);
        let (mut y, mut work) = (0, vec![0; 2 * sizes.message()]);
        let written = Reference::write_opening(
            honest.lent(),
            &honest.message,
            &honest.z,
            &honest.r,
            &mut opening,
            &mut work,
            &mut y,
        );
        assert_eq!(written, Answer::DONE);
        honest.opening = opening;
        honest.y = y;
        honest
    }

    fn lent(&self) -> LentCode<'_> {
        LentCode {
            field: Field::of(P),
            parameters: self.sizes.parameters(),
            g: &self.code[0],
            t: &self.code[1],
            t2: &self.code[2],
        }
    }

    fn verdict(&self) -> (u32, u32, u32) {
        let answer = Reference::verify_opening(
            self.lent(),
            &self.block,
            &self.z,
            self.y,
            &self.r,
            &self.queries,
            &self.opening,
        );
        (answer.number, answer.first, answer.second)
    }

    /// The verdict after the word at `place` of block `level` alone is moved, by the paths of the
    /// queries: query q is at q mod n_i on level i, and the step to level i reads the block above
    /// at that place and n_i after it. No challenge lies on a diagonal in these samples.
    fn after_moved_block_word(&self, level: usize, place: usize) -> (u32, u32, u32) {
        for (position, &query) in self.queries.iter().enumerate() {
            let at = |i: usize| query as usize % self.sizes.block(i);
            if level < self.sizes.depth && at(level) == place {
                return (23, position as u32, level as u32);
            }
            if level > 0 && at(level - 1) == place % self.sizes.block(level - 1) {
                return (23, position as u32, level as u32 - 1);
            }
        }
        (0, 0, 0)
    }

    fn eq_is_zero(&self) -> bool {
        let residues = |words: &[u32]| -> Vec<Residue<P>> {
            words.iter().map(|&w| Residue::new(w).unwrap()).collect()
        };
        eq(&residues(&self.z), &residues(&self.r)) == Residue::ZERO
    }
}

fn moved<const P: u32>(word: &mut u32) {
    *word = (*word + 1) % P;
}

fn honest_openings_are_accepted_and_no_other_value<const P: u32>() {
    let mut rng = Rng::new(Field::of(P), 20);
    for depth in 0..=8 {
        for style in STYLES {
            let rate = 2 + rng.below(15);
            let mut honest = Honest::<P>::new(&mut rng, Layout::one(depth, rate), style);
            let mut value = 0;
            let evaluated = Reference::evaluate(
                Field::of(P),
                honest.sizes.parameters(),
                &honest.message,
                &honest.z,
                &mut value,
            );
            assert_eq!((evaluated, value), (Answer::DONE, honest.y));
            assert_eq!(honest.verdict(), (0, 0, 0));
            moved::<P>(&mut honest.y);
            let expected = if depth == 0 { 21 } else { 20 };
            assert_eq!(honest.verdict(), (expected, depth as u32, 0));
        }
    }
}

fn every_query_accepts_an_honest_opening<const P: u32>() {
    let mut rng = Rng::new(Field::of(P), 21);
    for (depth, rate) in [(1, 2), (2, 2), (3, 3), (4, 2), (2, 16)] {
        let mut honest = Honest::<P>::new(&mut rng, Layout::one(depth, rate), Style::Random);
        for query in 0..honest.sizes.block(depth - 1) as u32 {
            honest.queries = vec![query];
            assert_eq!(honest.verdict(), (0, 0, 0));
        }
    }
}

/// Different places are no reason to refuse, however many; one that stands at any two positions is,
/// for a value that is not shown too.
fn every_repeat_is_refused<const P: u32>() {
    let mut rng = Rng::new(Field::of(P), 26);
    for (depth, rate, count) in [(1, 2, 2), (2, 3, 6), (3, 2, 7), (9, 2, 20), (6, 16, 256)] {
        let mut honest = Honest::<P>::new(&mut rng, Layout::one(depth, rate), Style::Random);
        let places = rng.places(count, honest.sizes.block(depth - 1));
        honest.queries.clone_from(&places);
        assert_eq!(honest.verdict(), (0, 0, 0));
        for k in 1..count {
            for j in (0..k).filter(|j| count < 256 || j % 41 == k % 41) {
                honest.queries.clone_from(&places);
                honest.queries[k] = places[j];
                assert_eq!(honest.verdict(), (11, 0, 0));
                let y = honest.y;
                moved::<P>(&mut honest.y);
                assert_eq!(honest.verdict(), (11, 0, 0));
                honest.y = y;
            }
        }
    }
}

fn one_moved_word_of_the_rounds_or_the_final_value<const P: u32>() {
    let mut rng = Rng::new(Field::of(P), 22);
    for _ in 0..60 {
        let depth = rng.below(6);
        let rate = 2 + rng.below(5);
        let mut honest = Honest::<P>::new(&mut rng, Layout::one(depth, rate), Style::Random);
        let sizes = honest.sizes;
        assert!(!honest.eq_is_zero());
        for i in 1..=depth {
            for k in 0..3 {
                let place = sizes.round(i).start + k;
                let kept = honest.opening[place];
                moved::<P>(&mut honest.opening[place]);
                let expected = match (k, i) {
                    (0 | 1, _) => (20, i as u32, 0),
                    // The value at 2 is not in the sum; the next claim moves with it.
                    (_, 1) => (21, 0, 0),
                    _ => (20, i as u32 - 1, 0),
                };
                assert_eq!(honest.verdict(), expected);
                honest.opening[place] = kept;
            }
        }
        moved::<P>(&mut honest.opening[sizes.final_value()]);
        assert_eq!(honest.verdict(), (21, 0, 0));
    }
}

fn one_moved_word_of_a_block<const P: u32>() {
    let mut rng = Rng::new(Field::of(P), 23);
    for _ in 0..40 {
        let depth = rng.below(6);
        let rate = 2 + rng.below(5);
        let mut honest = Honest::<P>::new(&mut rng, Layout::one(depth, rate), Style::Random);
        let sizes = honest.sizes;
        for level in 0..depth {
            let range = sizes.opening_block(level);
            for place in 0..range.len() {
                let expected = match level {
                    0 => (22, place as u32, 0),
                    _ => honest.after_moved_block_word(level, place),
                };
                let kept = honest.opening[range.start + place];
                moved::<P>(&mut honest.opening[range.start + place]);
                assert_eq!(honest.verdict(), expected);
                honest.opening[range.start + place] = kept;
            }
        }
        for place in 0..sizes.top_block() {
            let expected = match depth {
                0 => (22, place as u32, 0),
                _ => honest.after_moved_block_word(depth, place),
            };
            let kept = honest.block[place];
            moved::<P>(&mut honest.block[place]);
            assert_eq!(honest.verdict(), expected);
            honest.block[place] = kept;
        }
    }
}

/// With eq = 0 the final check says nothing about v; the base check then does.
fn a_moved_final_value_where_eq_is_zero<const P: u32>() {
    let mut rng = Rng::new(Field::of(P), 24);
    let mut seen = 0;
    while seen < 20 {
        let depth = 1 + rng.below(4);
        let mut honest = Honest::<P>::new(&mut rng, Layout::one(depth, 3), Style::Extreme);
        if honest.eq_is_zero() {
            seen += 1;
            assert_eq!(honest.verdict(), (0, 0, 0));
            moved::<P>(&mut honest.opening[3 * depth]);
            assert_eq!(honest.verdict(), (22, 0, 0));
        }
    }
}

fn a_call_that_opens_a_large_size<const P: u32>() {
    let sizes = Layout::one(16, 16);
    let mut honest = Honest::<P>::new(&mut Rng::new(Field::of(P), 25), sizes, Style::Random);
    assert_eq!(honest.verdict(), (0, 0, 0));
    moved::<P>(&mut honest.y);
    assert_eq!(honest.verdict(), (20, 16, 0));
}
