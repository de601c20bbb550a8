//! One call of encoding or folding, the same for sides that have no other job and name no places.

use crate::call::{call, Job};
use crate::jobs::Jobs;
use crate::lent::{Buffers, Inputs};
#[cfg(native)]
use crate::linked::native;
use crate::ordinary::{encode, fold, Code, Field, Level, Refusal};

/// A side's call of `Job::Encode` or `Job::Fold`, which alone are asked for. Gives the number of the answer.
pub type Coding = fn(Job, &Inputs, &mut Buffers) -> u32;

/// By a side that has all jobs.
pub fn by_jobs<J: Jobs>(job: Job, inputs: &Inputs, buffers: &mut Buffers) -> u32 {
    call::<J>(job, inputs, buffers).number
}

/// By ordinary Rust.
pub fn by_ordinary<F: Field>(job: Job, inputs: &Inputs, buffers: &mut Buffers) -> u32 {
    let out = &mut buffers.result;
    let done = match job {
        Job::Encode => encode::<F>(&code(inputs), &inputs.message, out),
        Job::Fold => fold::<F>(&level(inputs), inputs.challenge, out),
        _ => unreachable!("{job:?} is not asked for"),
    };
    done.map_or_else(Refusal::number, |()| 0)
}

/// By ordinary Rust that was built for the machine at hand, over `TV_FIELD_1` or `TV_FIELD_2`.
#[cfg(native)]
pub fn by_native<const FIELD: bool>(job: Job, inputs: &Inputs, buffers: &mut Buffers) -> u32 {
    let out = &mut buffers.result;
    match job {
        Job::Encode => native::encode(FIELD, &code(inputs), &inputs.message, out),
        Job::Fold => native::fold(FIELD, &level(inputs), inputs.challenge, out),
        _ => unreachable!("{job:?} is not asked for"),
    }
}

/// What no side can be faster than: the words that the job reads, copied one slice after another onto the result.
pub fn by_copy(job: Job, inputs: &Inputs, buffers: &mut Buffers) -> u32 {
    let (left, right) = inputs.block.split_at(inputs.block.len() / 2);
    let read: &[&[u32]] = match job {
        Job::Encode => &[&inputs.t, &inputs.t2, &inputs.message],
        Job::Fold => &[left, right, &inputs.fold_t, &inputs.fold_t2],
        _ => unreachable!("{job:?} is not asked for"),
    };
    for words in read {
        buffers.result[..words.len()].copy_from_slice(words);
        // Else only the last copy would have to be made.
        std::hint::black_box(&mut buffers.result);
    }
    0
}

/// How many products a job makes, by the code's definition: in an encoding one for each word of the base blocks and
/// two for each pair of words that a level joins; in a fold three for an inverse among many and two for a line.
pub fn products(job: Job, inputs: &Inputs) -> usize {
    let block = inputs.block.len();
    match job {
        Job::Encode => block * (1 + inputs.depth as usize),
        Job::Fold => 5 * (block / 2),
        _ => unreachable!("{job:?} is not asked for"),
    }
}

fn code(inputs: &Inputs) -> Code<'_> {
    Code {
        depth: inputs.depth,
        rate: inputs.rate,
        k0: inputs.k0,
        g: &inputs.g,
        t: &inputs.t,
        t2: &inputs.t2,
    }
}

fn level(inputs: &Inputs) -> Level<'_> {
    Level {
        level: inputs.depth,
        rate: inputs.rate,
        k0: inputs.k0,
        t: &inputs.fold_t,
        t2: &inputs.fold_t2,
        block: &inputs.block,
    }
}
