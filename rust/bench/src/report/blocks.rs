//! Base messages of two and four words beside those of one, at equal lengths.

use super::measure::{measure, median, ratios, Plan, Samples, Side};
use super::table::Table;
use super::times::LISTS;
use super::{micros, ratio};
use std::cell::RefCell;
use std::hint::black_box;
use tvarchula_bench::plain::{Barrett, Mersenne};
use tvarchula_bench::{call, Buffers, Call, Inputs, Job, Library, Sizes, TV_FIELD_1, TV_FIELD_2};

/// What stands above the table.
pub const ABOUT: &str = "\
The library with base messages of 1, 2 and 4 words, at equal lengths of message and block: with 2 and 4 words the depth is one
and two less. Microseconds, medians; a ratio is the median of the samples' ratios with its quartiles. Every k0 has buffers of
its own, which are filled once.";

/// The words of a base message.
const K0S: [usize; 3] = [1, 2, 4];
/// Each of these over the first field, then over the second.
const SIDES: usize = 2 * K0S.len();

/// The jobs, with so many queries.
const CASES: [(&str, Job, usize); 6] = [
    ("encode", Job::Encode, 0),
    ("decode", Job::Decode, 0),
    ("fold", Job::Fold, 0),
    ("write", Job::Write, 0),
    ("verify, 32 queries", Job::Verify, 32),
    ("verify, 256 queries", Job::Verify, 256),
];

/// What was measured at one depth: the inputs of every side, and the samples of each job.
struct AtDepth {
    depth: usize,
    inputs: [Inputs; SIDES],
    samples: [Samples<SIDES>; CASES.len()],
}

/// All depths at which four words leave a level to fold.
pub struct Blocks(Vec<AtDepth>);

impl Blocks {
    /// Draws what is lent.
    pub fn new(all_sizes: &[Sizes]) -> Blocks {
        let deep = all_sizes.iter().filter(|sizes| sizes.depth > 2);
        let drawn = |sizes: &Sizes| AtDepth {
            depth: sizes.depth,
            inputs: std::array::from_fn(|side| drawn(*sizes, side)),
            samples: Default::default(),
        };
        Blocks(deep.map(drawn).collect())
    }

    /// One round.
    pub fn add(&mut self, plan: Plan) {
        for at in &mut self.0 {
            for ((_, job, queries), samples) in CASES.iter().zip(&mut at.samples) {
                for inputs in &mut at.inputs {
                    inputs.draw_query_lists(LISTS, *queries);
                }
                samples.extend(sampled(plan, *job, &at.inputs));
            }
        }
    }

    /// The times, and those of two and four words by those of one.
    pub fn table(&self) -> Table {
        let heads = [
            "job", "field", "depth", "k0 = 1", "2", "4", "2 / 1", "4 / 1",
        ];
        let mut table = Table::new(heads);
        for (case, (name, ..)) in CASES.iter().enumerate() {
            for (field, first) in [("first", 0), ("second", K0S.len())] {
                for at in &self.0 {
                    let samples = &at.samples[case];
                    let start = [name, field].map(str::to_owned);
                    let mut row = start.to_vec();
                    row.push(at.depth.to_string());
                    row.extend((first..first + 3).map(|side| micros(median(samples, side))));
                    row.extend([1, 2].map(|k| ratio(ratios(samples, first + k, first))));
                    table.row(row);
                }
            }
        }
        table
    }
}

/// The inputs of a side, at the depth that gives the lengths of these sizes.
fn drawn(sizes: Sizes, side: usize) -> Inputs {
    let k0 = K0S[side % K0S.len()];
    let sizes = Sizes {
        depth: sizes.depth - k0 / 2,
        ..sizes
    };
    match side / K0S.len() {
        0 => Inputs::with_words::<Mersenne, Library<TV_FIELD_1>>(sizes, k0, 0),
        _ => Inputs::with_words::<Barrett, Library<TV_FIELD_2>>(sizes, k0, 0),
    }
}

/// The library over the field of a side.
fn library(side: usize) -> Call {
    match side / K0S.len() {
        0 => call::<Library<TV_FIELD_1>>,
        _ => call::<Library<TV_FIELD_2>>,
    }
}

fn sampled(plan: Plan, job: Job, inputs: &[Inputs; SIDES]) -> Samples<SIDES> {
    let sides: [_; SIDES] = std::array::from_fn(|side| {
        let (call, inputs) = (library(side), &inputs[side]);
        let buffers = RefCell::new(Buffers::of(job, inputs));
        move |_: &mut Buffers| {
            let answer = call(job, black_box(inputs), &mut buffers.borrow_mut());
            assert_eq!(answer.number, 0, "{job:?} with k0 = {}", inputs.k0);
        }
    });
    let sides = sides.each_ref().map(|side| side as Side<'_>);
    measure(plan, &mut Buffers::default(), sides)
}
