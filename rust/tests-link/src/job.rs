//! The jobs, and what each can answer.

/// The jobs.
#[derive(Clone, Copy, PartialEq, Eq, PartialOrd, Ord, Debug)]
pub enum Job {
    /// Reading a word as a clearance.
    ReadClearance,
    /// Clearance table to coefficients.
    TableToCoefficients,
    /// Coefficients to clearance table.
    CoefficientsToTable,
    /// Evaluation.
    Evaluate,
    /// Encoding.
    Encode,
    /// Decoding.
    Decode,
    /// Folding.
    Fold,
    /// Writing an opening.
    WriteOpening,
    /// Verifying an opening.
    VerifyOpening,
    /// Filling a code with roots of unity.
    FillRoots,
}

impl Job {
    /// All of them.
    pub const ALL: [Job; 10] = [
        Job::ReadClearance,
        Job::TableToCoefficients,
        Job::CoefficientsToTable,
        Job::Evaluate,
        Job::Encode,
        Job::Decode,
        Job::Fold,
        Job::WriteOpening,
        Job::VerifyOpening,
        Job::FillRoots,
    ];

    /// The numbers this job can answer.
    pub fn numbers(self) -> &'static [u32] {
        match self {
            Job::ReadClearance => &[0, 4],
            Job::TableToCoefficients => &[0, 1, 3, 9, 13],
            Job::CoefficientsToTable | Job::Evaluate => &[0, 1, 3, 4, 13],
            Job::Encode | Job::WriteOpening => &[0, 1, 2, 3, 4, 5, 6, 13],
            Job::Decode => &[0, 1, 2, 3, 4, 5, 6, 8, 13],
            Job::Fold => &[0, 1, 2, 3, 4, 6, 13],
            Job::VerifyOpening => &[0, 1, 2, 3, 4, 5, 6, 7, 11, 13, 20, 21, 22, 23],
            Job::FillRoots => &[0, 1, 2, 3, 12, 13],
        }
    }

    /// Whether it is lent the record, of which it then judges k0.
    pub fn has_record(self) -> bool {
        self > Job::ReadClearance
    }

    /// Whether it judges the depth there.
    pub fn judges_depth(self) -> bool {
        self >= Job::Evaluate
    }

    /// Whether it judges the rate there.
    pub fn judges_rate(self) -> bool {
        self >= Job::Encode
    }

    /// Whether it is lent base rows.
    pub fn has_rows(self) -> bool {
        matches!(
            self,
            Job::Encode | Job::Decode | Job::WriteOpening | Job::VerifyOpening
        )
    }

    /// The inputs that 4 can name of this job, by the order's numbers.
    pub fn named(self) -> &'static [u32] {
        match self {
            Job::TableToCoefficients | Job::FillRoots => &[],
            Job::ReadClearance | Job::CoefficientsToTable => &[4],
            Job::Evaluate => &[4, 5],
            Job::Encode | Job::Decode => &[1, 2, 3, 4],
            Job::Fold => &[2, 3, 4, 7],
            Job::WriteOpening => &[1, 2, 3, 4, 5, 7],
            Job::VerifyOpening => &[1, 2, 3, 4, 5, 6, 7, 8],
        }
    }
}
