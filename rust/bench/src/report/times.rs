//! The times of all jobs, over both fields.

use super::measure::{measure, Plan, Samples, Side};
use std::hint::black_box;
use tvarchula_bench::plain::{Barrett, Mersenne, OneChain, Remainder, SixteenChains, FIRST};
#[cfg(before)]
use tvarchula_bench::Before;
use tvarchula_bench::{call, Buffers, Call, Inputs, Job, Library, Plain, TV_FIELD_1, TV_FIELD_2};

/// How many sides there are: those below, the last where the build was told of an older library.
pub const SIDES: usize = 5 + cfg!(before) as usize;

/// The library over the first field.
pub const LIBRARY: usize = 0;
/// Plain Rust over the first field.
pub const PLAIN: usize = 1;
/// The same with `%`.
pub const REMAINDER: usize = 2;
/// The library over the second field.
pub const LIBRARY_2: usize = 3;
/// Plain Rust over the second field.
pub const PLAIN_2: usize = 4;
/// An older library, over the first field.
pub const BEFORE: usize = 5;

/// Their names in the table of a field.
pub const NAMES: [&str; 6] = ["library", "plain", "plain %", "library", "plain", "before"];

/// So many lists of queries take turns. Of a list that every call takes the processor learns how each jump
/// that depends on words will go, and there is no such list in use.
pub const LISTS: usize = 64;

/// A job as it is measured.
#[derive(Clone, Copy, Debug)]
pub struct Case {
    /// The name in the tables.
    pub name: &'static str,
    /// The job.
    pub job: Job,
    /// How many queries are lent, or all where there are fewer places.
    pub queries: usize,
    /// Plain Rust: over the first field, there with `%`, over the second field.
    plain: [Call; 3],
}

/// A job beside plain Rust that works in the same way; a fold inverts in sixteen chains.
const fn case(name: &'static str, job: Job, queries: usize) -> Case {
    let plain: [Call; 3] = [
        call::<Plain<Mersenne, SixteenChains>>,
        call::<Plain<Remainder<FIRST>, SixteenChains>>,
        call::<Plain<Barrett, SixteenChains>>,
    ];
    Case {
        name,
        job,
        queries,
        plain,
    }
}

/// The fold once more, beside plain Rust that inverts in one chain, as is usual.
pub const FOLD_ONE_CHAIN: Case = Case {
    plain: [
        call::<Plain<Mersenne, OneChain>>,
        call::<Plain<Remainder<FIRST>, OneChain>>,
        call::<Plain<Barrett, OneChain>>,
    ],
    ..case("fold, one chain", Job::Fold, 0)
};

/// All that is measured.
pub const CASES: [Case; 10] = [
    case("table to coefficients", Job::ToCoefficients, 0),
    case("coefficients to table", Job::ToTable, 0),
    case("evaluate", Job::Evaluate, 0),
    case("encode", Job::Encode, 0),
    case("decode", Job::Decode, 0),
    case("fold", Job::Fold, 0),
    FOLD_ONE_CHAIN,
    case("write", Job::Write, 0),
    case("verify, 32 queries", Job::Verify, 32),
    case("verify, 256 queries", Job::Verify, 256),
];

impl Case {
    /// Whether no words are multiplied, so that the reduction makes no difference.
    pub fn adds_only(&self) -> bool {
        matches!(self.job, Job::ToCoefficients | Job::ToTable)
    }

    /// The sides in their order, each with the inputs of its field.
    fn calls<'a>(&self, [first, second]: [&'a Inputs; 2]) -> [(Call, &'a Inputs); SIDES] {
        let [mersenne, remainder, barrett] = self.plain;
        [
            (call::<Library<TV_FIELD_1>>, first),
            (mersenne, first),
            (remainder, first),
            (call::<Library<TV_FIELD_2>>, second),
            (barrett, second),
            #[cfg(before)]
            (call::<Before>, first),
        ]
    }

    /// The job's main slice: the message where no block is lent, else the block.
    pub fn main_slice<'a>(&self, inputs: &'a Inputs) -> &'a [u32] {
        match self.job {
            Job::ToCoefficients | Job::ToTable | Job::Evaluate => &inputs.message,
            _ => &inputs.block,
        }
    }
}

/// What a case takes on every side.
pub type Times = Samples<SIDES>;

/// Measures a case on inputs of both fields that have its number of queries.
pub fn of_case(plan: Plan, case: &Case, inputs: [&Inputs; 2]) -> Times {
    let calls = case.calls(inputs);
    let job = case.job;
    let mut buffers = Buffers::of(job, inputs[0]);
    alike(job, &buffers, &calls);
    let sides = calls.map(|(call, inputs)| {
        move |buffers: &mut Buffers| {
            black_box(call(job, black_box(inputs), buffers));
        }
    });
    let sides = sides.each_ref().map(|side| side as Side<'_>);
    measure(plan, &mut buffers, sides)
}

/// Stops the program where a side refuses or writes other words than the library over the same field.
fn alike(job: Job, buffers: &Buffers, calls: &[(Call, &Inputs); SIDES]) {
    let written = calls.map(|(call, inputs)| {
        let mut buffers = buffers.clone();
        let answer = call(job, inputs, &mut buffers);
        assert_eq!(answer.number, 0, "{job:?} at depth {}", inputs.depth);
        buffers
    });
    for ((_, inputs), words) in calls.iter().zip(&written) {
        let first = calls.iter().position(|(_, other)| other.p == inputs.p);
        let same = first.is_some_and(|first| written[first] == *words);
        assert!(same, "{job:?} at depth {}: other words", inputs.depth);
    }
}
