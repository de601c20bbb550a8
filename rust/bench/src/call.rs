//! One call of one job, the same for every side.

use crate::answer::{Answer, Code};
use crate::jobs::{Jobs, Outputs};
use crate::lent::{Buffers, Inputs};
use crate::plain::{Folding, Opened};

/// A job.
#[derive(Clone, Copy, PartialEq, Eq, Debug)]
pub enum Job {
    /// Clearances to coefficients.
    ToCoefficients,
    /// Coefficients to clearances.
    ToTable,
    /// The polynomial's value at a point.
    Evaluate,
    /// The codeword of a message.
    Encode,
    /// The message of a codeword.
    Decode,
    /// The fold of a block by one level.
    Fold,
    /// An opening.
    Write,
    /// The checks of an opening.
    Verify,
}

impl Job {
    /// All jobs.
    pub const ALL: [Job; 8] = [
        Job::ToCoefficients,
        Job::ToTable,
        Job::Evaluate,
        Job::Encode,
        Job::Decode,
        Job::Fold,
        Job::Write,
        Job::Verify,
    ];
}

/// A side's call of any job.
pub type Call = fn(Job, &Inputs, &mut Buffers) -> Answer;

/// Calls one job of a side.
pub fn call<J: Jobs>(job: Job, inputs: &Inputs, buffers: &mut Buffers) -> Answer {
    let i = inputs;
    let result = &mut buffers.result;
    let work = &mut buffers.work;
    let value = &mut buffers.value;
    match job {
        Job::ToCoefficients => J::table_to_coefficients(i.k0, &i.clearances, result),
        Job::ToTable => J::coefficients_to_table(i.k0, &i.message, &mut buffers.table, work),
        Job::Evaluate => J::evaluate(i.depth, i.k0, &i.message, &i.z, value),
        Job::Encode => J::encode(&code(i), &i.message, result),
        Job::Decode => J::decode(&code(i), &i.block, result, work),
        Job::Fold => J::fold(&folding(i), result),
        Job::Write => {
            let out = Outputs {
                result,
                work,
                value,
            };
            J::write_opening(&code(i), &i.message, &i.z, &i.r, out)
        }
        Job::Verify => J::verify_opening(&code(i), &opened(i)),
    }
}

fn code(inputs: &Inputs) -> Code<'_> {
    Code {
        depth: inputs.depth,
        rate: inputs.rate,
        k0: inputs.k0,
        g: &inputs.g,
        t: &inputs.t,
        t2: &inputs.t2,
    }
}

fn folding(inputs: &Inputs) -> Folding<'_> {
    Folding {
        level: inputs.depth,
        rate: inputs.rate,
        k0: inputs.k0,
        t: &inputs.fold_t,
        t2: &inputs.fold_t2,
        block: &inputs.block,
        challenge: inputs.challenge,
    }
}

fn opened(inputs: &Inputs) -> Opened<'_> {
    Opened {
        block: &inputs.block,
        z: &inputs.z,
        y: inputs.y,
        r: &inputs.r,
        queries: inputs.next_queries(),
        opening: &inputs.opening,
    }
}
