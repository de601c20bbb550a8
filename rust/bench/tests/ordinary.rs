//! Ordinary Rust and the library write the same words over both fields and refuse with the same number, whatever is lent.
//! So does ordinary Rust for the machine at hand, where it is built. At small sizes the reference stands beside them.

#[path = "alike/damage.rs"]
mod damage;

use damage::Damage;
use std::collections::BTreeSet;
#[cfg(native)]
use tvarchula_bench::coding::by_native;
use tvarchula_bench::coding::{by_jobs, by_ordinary, Coding};
use tvarchula_bench::ordinary::{BabyBear, Mersenne31};
use tvarchula_bench::plain::{Barrett, Mersenne};
use tvarchula_bench::{Buffers, Inputs, Job, Library, Sizes, TV_FIELD_1, TV_FIELD_2};
use tvarchula_reference::{CodeJobs, Field, LentCode, LentLevel, Parameters, Reference};

const JOBS: [Job; 2] = [Job::Encode, Job::Fold];

/// A field: legal inputs, the library, and every build of ordinary Rust.
struct Sides {
    drawn: fn(Sizes, usize) -> Inputs,
    library: Coding,
    ordinary: &'static [Coding],
}

const FIELDS: [Sides; 2] = [
    Sides {
        drawn: Inputs::drawn::<Mersenne>,
        library: by_jobs::<Library<TV_FIELD_1>>,
        ordinary: &[
            by_ordinary::<Mersenne31>,
            #[cfg(native)]
            by_native::<TV_FIELD_1>,
        ],
    },
    Sides {
        drawn: Inputs::drawn::<Barrett>,
        library: by_jobs::<Library<TV_FIELD_2>>,
        ordinary: &[
            by_ordinary::<BabyBear>,
            #[cfg(native)]
            by_native::<TV_FIELD_2>,
        ],
    },
];

impl Sides {
    fn inputs(&self, depth: usize, rate: usize) -> Inputs {
        (self.drawn)(Sizes { depth, rate }, 0)
    }

    /// Calls all sides: the library's number, and what it wrote.
    fn compare(&self, job: Job, inputs: &Inputs, buffers: &Buffers) -> (u32, Buffers) {
        let sizes = (inputs.p, inputs.depth, inputs.rate);
        let (number, written) = run(self.library, job, inputs, buffers);
        for &side in self.ordinary {
            let (found, words) = run(side, job, inputs, buffers);
            assert_eq!(found, number, "{job:?} of modulus, depth, rate {sizes:?}");
            let same = words == written;
            assert!(same, "{job:?} of {sizes:?} writes other words");
        }
        assert!(number == 0 || written == *buffers, "refused, but written");
        (number, written)
    }

    /// Both jobs on good inputs.
    fn compare_good(&self, inputs: &Inputs) {
        for job in JOBS {
            let (number, _) = self.compare(job, inputs, &Buffers::of(job, inputs));
            assert_eq!(number, 0);
        }
    }

    /// Both jobs on inputs that are spoiled by each damage, one after the other.
    fn compare_damaged(&self, inputs: &Inputs, damages: &[Damage], numbers: &mut BTreeSet<u32>) {
        for job in JOBS {
            let mut spoiled = inputs.clone();
            let mut buffers = Buffers::of(job, inputs);
            for damage in damages {
                damage(&mut spoiled, &mut buffers);
            }
            numbers.insert(self.compare(job, &spoiled, &buffers).0);
        }
    }
}

fn run(side: Coding, job: Job, inputs: &Inputs, buffers: &Buffers) -> (u32, Buffers) {
    let mut buffers = buffers.clone();
    let number = side(job, inputs, &mut buffers);
    (number, buffers)
}

/// Depth 0 has a codeword, and nothing to fold.
#[test]
fn every_rate_at_small_depths() {
    for sides in FIELDS {
        for rate in 2..=16 {
            let inputs = sides.inputs(0, rate);
            let [coded, folded] =
                JOBS.map(|job| sides.compare(job, &inputs, &Buffers::of(job, &inputs)).0);
            assert_eq!((coded, folded), (0, 1));
            for depth in 1..=12 {
                sides.compare_good(&sides.inputs(depth, rate));
            }
        }
    }
}

#[test]
fn large_depths() {
    for sides in FIELDS {
        for depth in [13, 14, 16, 18] {
            sides.compare_good(&sides.inputs(depth, 8));
        }
    }
}

/// All words of a slice alike, at the ends of what is legal. The tests are built with overflow checks, so that a word
/// that is kept too large for the next product stops them.
#[test]
fn extreme_words() {
    for sides in FIELDS {
        for (depth, rate) in [(1, 2), (2, 3), (5, 7), (6, 8), (11, 8), (10, 16)] {
            let drawn = sides.inputs(depth, rate);
            let last = drawn.p - 1;
            let diagonals = [
                (0, 1),
                (1, 0),
                (0, last),
                (last, 0),
                (last, last - 1),
                (last - 1, last),
            ];
            for (t, t2) in diagonals {
                for word in [0, 1, last] {
                    let mut inputs = drawn.clone();
                    inputs.g.fill(word.max(1));
                    inputs.t.fill(t);
                    inputs.t2.fill(t2);
                    inputs.fold_t.fill(t);
                    inputs.fold_t2.fill(t2);
                    inputs.message.fill(word);
                    fill_halves(&mut inputs.block, word, last - word);
                    for challenge in [0, 1, last] {
                        inputs.challenge = challenge;
                        sides.compare_good(&inputs);
                    }
                }
            }
        }
    }
}

/// Extreme words among drawn ones, and at every place of a short slice.
#[test]
fn some_extreme_words() {
    for sides in FIELDS {
        for (depth, rate) in [(3, 5), (4, 8), (5, 16)] {
            let drawn = sides.inputs(depth, rate);
            let last = drawn.p - 1;
            for step in 1..8 {
                for word in [0, 1, last] {
                    let mut inputs = drawn.clone();
                    let every = |words: &mut Vec<u32>| {
                        words.iter_mut().step_by(step).for_each(|w| *w = word);
                    };
                    every(&mut inputs.message);
                    every(&mut inputs.block);
                    every(&mut inputs.t);
                    every(&mut inputs.fold_t);
                    apart(&inputs.t, &mut inputs.t2, last);
                    apart(&inputs.fold_t, &mut inputs.fold_t2, last);
                    sides.compare_good(&inputs);
                    std::mem::swap(&mut inputs.t, &mut inputs.t2);
                    std::mem::swap(&mut inputs.fold_t, &mut inputs.fold_t2);
                    sides.compare_good(&inputs);
                }
            }
        }
    }
}

fn fill_halves(block: &mut [u32], left: u32, right: u32) {
    let half = block.len() / 2;
    block[..half].fill(left);
    block[half..].fill(right);
}

/// Where the diagonals have become equal the second one takes another word.
fn apart(t: &[u32], t2: &mut [u32], last: u32) {
    for (a, b) in t.iter().zip(t2) {
        if a == b {
            *b = last - *a;
        }
    }
}

#[test]
fn refusals() {
    for sides in FIELDS {
        let mut numbers = BTreeSet::new();
        for (depth, rate) in [(0, 2), (1, 2), (2, 3), (4, 8)] {
            let inputs = sides.inputs(depth, rate);
            for &first in damage::ALL {
                sides.compare_damaged(&inputs, &[first], &mut numbers);
                for &second in damage::ALL {
                    sides.compare_damaged(&inputs, &[first, second], &mut numbers);
                }
            }
        }
        let all = BTreeSet::from([0, 1, 2, 3, 4, 5, 6, 13]);
        assert_eq!(numbers, all, "every number has to come");
    }
}

#[test]
fn refusals_at_bench_sizes() {
    for sides in FIELDS {
        for depth in [10, 14] {
            let inputs = sides.inputs(depth, 8);
            for &damage in damage::ALL {
                sides.compare_damaged(&inputs, &[damage], &mut BTreeSet::new());
            }
        }
    }
}

/// A word of p and more in every place of every input, a zero in every place of the base row, equal diagonals in every place.
#[test]
fn every_place() {
    type Slice = fn(&mut Inputs) -> &mut Vec<u32>;
    let slices: [(Job, u32, Slice); 7] = [
        (Job::Encode, 4, |i| &mut i.g),
        (Job::Encode, 4, |i| &mut i.t),
        (Job::Encode, 4, |i| &mut i.t2),
        (Job::Encode, 4, |i| &mut i.message),
        (Job::Fold, 4, |i| &mut i.fold_t),
        (Job::Fold, 4, |i| &mut i.fold_t2),
        (Job::Fold, 4, |i| &mut i.block),
    ];
    for sides in FIELDS {
        let drawn = sides.inputs(3, 5);
        let number = |job, inputs: &Inputs| {
            let buffers = Buffers::of(job, &drawn);
            sides.compare(job, inputs, &buffers).0
        };
        for (job, due, slice) in slices {
            for place in 0..slice(&mut drawn.clone()).len() {
                for word in [drawn.p, drawn.p + 1, 1 << 31, u32::MAX] {
                    let mut inputs = drawn.clone();
                    slice(&mut inputs)[place] = word;
                    assert_eq!(number(job, &inputs), due);
                }
            }
        }
        for place in 0..drawn.g.len() {
            let mut inputs = drawn.clone();
            inputs.g[place] = 0;
            assert_eq!(number(Job::Encode, &inputs), 5);
        }
        for place in 0..drawn.t.len() {
            let mut inputs = drawn.clone();
            inputs.t2[place] = inputs.t[place];
            assert_eq!(number(Job::Encode, &inputs), 6);
        }
        for place in 0..drawn.fold_t.len() {
            let mut inputs = drawn.clone();
            inputs.fold_t2[place] = inputs.fold_t[place];
            assert_eq!(number(Job::Fold, &inputs), 6);
        }
    }
}

/// The reference is written from the definitions, and its small sizes are the definitions.
#[test]
fn beside_the_reference() {
    for sides in FIELDS {
        for (depth, rate) in (1..=7).flat_map(|depth| (2..=16).map(move |rate| (depth, rate))) {
            let inputs = sides.inputs(depth, rate);
            for job in JOBS {
                let buffers = Buffers::of(job, &inputs);
                let (number, written) = sides.compare(job, &inputs, &buffers);
                let mut expected = buffers.result;
                let answer = by_reference(job, &inputs, &mut expected);
                assert_eq!((answer, number), (0, 0));
                assert!(
                    written.result == expected,
                    "{job:?} of depth {depth}, rate {rate}"
                );
            }
        }
    }
}

fn by_reference(job: Job, inputs: &Inputs, out: &mut [u32]) -> u32 {
    let field = Field::of(inputs.p);
    let parameters = Parameters::one(inputs.depth, inputs.rate);
    let (code, level) = (
        LentCode {
            field,
            parameters,
            g: &inputs.g,
            t: &inputs.t,
            t2: &inputs.t2,
        },
        LentLevel {
            field,
            parameters,
            t: &inputs.fold_t,
            t2: &inputs.fold_t2,
        },
    );
    let answer = match job {
        Job::Encode => Reference::encode(code, &inputs.message, out),
        _ => Reference::fold(level, &inputs.block, inputs.challenge, out),
    };
    answer.number
}
