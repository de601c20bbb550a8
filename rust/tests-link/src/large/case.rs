//! What is called at a large size, and what is due.

use crate::job::Job;
use tvarchula_reference::Answer;

/// One of the calls.
#[derive(Clone, Copy, PartialEq, Eq, PartialOrd, Ord, Debug)]
pub enum Case {
    /// A table to coefficients.
    ToCoefficients,
    /// Coefficients to a table.
    ToTable,
    /// The value at a point.
    Evaluate,
    /// A code with roots of unity, over the second field where the rate is a power of two.
    Fill,
    /// A message to its codeword.
    Encode,
    /// A codeword to its message.
    Decode,
    /// A codeword with another last word. No word of the message hangs on that one, so that only
    /// encoding it again shows the change.
    DecodeChanged,
    /// A codeword folded by its top level.
    Fold,
    /// An opening written.
    Write,
    /// That opening verified, with as many different queries as are legal.
    Verify,
    /// The same opening for another value.
    VerifyAnother,
}

impl Case {
    /// All of them, in the order in which they are called.
    pub const ALL: [Case; 11] = [
        Case::ToCoefficients,
        Case::ToTable,
        Case::Evaluate,
        Case::Fill,
        Case::Encode,
        Case::Decode,
        Case::DecodeChanged,
        Case::Fold,
        Case::Write,
        Case::Verify,
        Case::VerifyAnother,
    ];

    /// The job.
    pub fn job(self) -> Job {
        match self {
            Case::ToCoefficients => Job::TableToCoefficients,
            Case::ToTable => Job::CoefficientsToTable,
            Case::Evaluate => Job::Evaluate,
            Case::Fill => Job::FillRoots,
            Case::Encode => Job::Encode,
            Case::Decode | Case::DecodeChanged => Job::Decode,
            Case::Fold => Job::Fold,
            Case::Write => Job::WriteOpening,
            Case::Verify | Case::VerifyAnother => Job::VerifyOpening,
        }
    }

    /// The name in the lines.
    pub fn name(self) -> &'static str {
        match self {
            Case::ToCoefficients => "table to coefficients",
            Case::ToTable => "coefficients to table",
            Case::Evaluate => "evaluate",
            Case::Fill => "fill",
            Case::Encode => "encode",
            Case::Decode => "decode",
            Case::DecodeChanged => "decode, last word wrong",
            Case::Fold => "fold",
            Case::Write => "write",
            Case::Verify => "verify",
            Case::VerifyAnother => "verify, another value",
        }
    }

    /// What is due: another value fails in the first round that is read, that of the top variable.
    pub fn answer(self, depth: usize) -> Answer {
        match self {
            Case::DecodeChanged => Answer::plain(8),
            Case::VerifyAnother => Answer {
                number: 20,
                first: depth as u32,
                second: 0,
            },
            _ => Answer::DONE,
        }
    }

    /// Whether the job makes a pass for each level, so that n words take n log n.
    pub fn passes(self) -> bool {
        let one = [
            Case::Evaluate,
            Case::Fill,
            Case::Fold,
            Case::Verify,
            Case::VerifyAnother,
        ];
        !one.contains(&self)
    }
}
