//! What a call is lent: everything that some job reads, and what a job writes.

use crate::call::Job;
use crate::sizes::WORD;
use std::cell::Cell;

/// Everything that some job reads. Each job takes its own part.
#[derive(Clone, Debug)]
pub struct Inputs {
    /// The modulus of the field.
    pub p: u32,
    /// The depth; for folding the upper level.
    pub depth: u32,
    /// The rate.
    pub rate: u32,
    /// The words of a base message.
    pub k0: u32,
    /// The base rows.
    pub g: Vec<u32>,
    /// The first diagonal of every level.
    pub t: Vec<u32>,
    /// The second diagonal of every level.
    pub t2: Vec<u32>,
    /// The first diagonal of the highest level alone, as folding takes it.
    pub fold_t: Vec<u32>,
    /// The second diagonal of the highest level alone.
    pub fold_t2: Vec<u32>,
    /// Where a fold's lines are evaluated.
    pub challenge: u32,
    /// A table.
    pub clearances: Vec<i32>,
    /// The coefficients of that table.
    pub message: Vec<u32>,
    /// The codeword of the message.
    pub block: Vec<u32>,
    /// A point.
    pub z: Vec<u32>,
    /// The value at the point.
    pub y: u32,
    /// The challenges of an opening.
    pub r: Vec<u32>,
    /// The places that a verifier looks at.
    pub queries: Vec<u32>,
    /// More such lists. Calls take all of them in turns.
    pub more_queries: Vec<Vec<u32>>,
    /// How many calls have taken a list.
    pub turn: Cell<usize>,
    /// An opening of the message at the point under the challenges.
    pub opening: Vec<u32>,
}

impl Inputs {
    /// The list whose turn it is.
    pub fn next_queries(&self) -> &[u32] {
        let turn = self.turn.get();
        self.turn.set(turn.wrapping_add(1));
        match turn % (1 + self.more_queries.len()) {
            0 => &self.queries,
            more => &self.more_queries[more - 1],
        }
    }

    /// Bytes of all slices that a job reads. Single words are not counted.
    pub fn bytes(&self, job: Job) -> usize {
        let code = self.g.len() + self.t.len() + self.t2.len();
        let point = self.z.len();
        let words = match job {
            Job::ToCoefficients => self.clearances.len(),
            Job::ToTable => self.message.len(),
            Job::Evaluate => self.message.len() + point,
            Job::Encode => code + self.message.len(),
            Job::Decode => code + self.block.len(),
            Job::Fold => self.fold_t.len() + self.fold_t2.len() + self.block.len(),
            Job::Write => code + self.message.len() + point + self.r.len(),
            Job::Verify => {
                let opened = self.block.len() + self.opening.len() + self.queries.len();
                code + point + self.r.len() + opened
            }
        };
        WORD * words
    }
}

/// Everything that a job writes. What a job does not have is empty.
#[derive(Clone, PartialEq, Eq, Debug, Default)]
pub struct Buffers {
    /// The result, where it is a slice of words.
    pub result: Vec<u32>,
    /// The result of the way back to a table.
    pub table: Vec<i32>,
    /// The work buffer.
    pub work: Vec<u32>,
    /// The single word of a value.
    pub value: u32,
}

impl Buffers {
    /// The buffers that a job is lent, of exact lengths and refilled.
    pub fn of(job: Job, inputs: &Inputs) -> Buffers {
        let (message, block) = (inputs.message.len(), inputs.block.len());
        let (result, table, work) = match job {
            Job::ToCoefficients => (inputs.clearances.len(), 0, 0),
            Job::ToTable => (0, message, message),
            Job::Evaluate | Job::Verify => (0, 0, 0),
            Job::Encode => (block, 0, 0),
            Job::Decode => (message, 0, block),
            Job::Fold => (block / 2, 0, 0),
            Job::Write => (inputs.opening.len(), 0, 2 * message),
        };
        let mut buffers = Buffers {
            result: vec![0; result],
            table: vec![0; table],
            work: vec![0; work],
            value: 0,
        };
        buffers.refill();
        buffers
    }

    /// Words that mean nothing, everywhere.
    pub fn refill(&mut self) {
        self.result.fill(0xfeed_beef);
        self.table.fill(i32::MIN);
        self.work.fill(0xdead_c0de);
        self.value = 0xabad_cafe;
    }

    /// Bytes of the result slices. The single word of a value is not counted.
    pub fn bytes_result(&self) -> usize {
        WORD * (self.result.len() + self.table.len())
    }

    /// Bytes of the work buffer.
    pub fn bytes_work(&self) -> usize {
        WORD * self.work.len()
    }
}
