//! What is told of a call.

use super::Case;
use std::fmt;
use std::time::Duration;
use tvarchula_reference::{Answer, Field};

/// Of the times of one call. Where others share the machine the least one says more.
#[derive(Clone, Copy, Debug)]
pub struct Time {
    /// The median.
    pub median: Duration,
    /// The least.
    pub least: Duration,
}

/// What one call took.
#[derive(Clone, Copy, Debug)]
pub struct Line {
    /// Over which field.
    pub field: Field,
    /// What was called.
    pub case: Case,
    /// At which depth; for folding the upper level.
    pub depth: usize,
    /// With how many words of a base message.
    pub k0: usize,
    /// At which rate, where the job has one.
    pub rate: Option<usize>,
    /// What both sides answered.
    pub answer: Answer,
    /// The time of the left side's call.
    pub time: Time,
    /// Bytes of all lent slices.
    pub lent: usize,
    /// Bytes of stack that the left side's call touched beyond those of reading a clearance, where this
    /// is known.
    pub stack: Option<usize>,
}

/// The heads of the lines.
pub const HEADS: &str =
    "field depth k0 rate job                       answer  median ms  least ms  lent bytes  stack bytes";

impl fmt::Display for Line {
    fn fmt(&self, f: &mut fmt::Formatter) -> fmt::Result {
        let known = |number: Option<usize>| number.map_or("-".to_string(), |n| n.to_string());
        let answer = match self.answer {
            Answer { number, first, .. } if number >= 20 => format!("{number} ({first})"),
            Answer { number, .. } => number.to_string(),
        };
        let [median, least] = [self.time.median, self.time.least].map(|t| t.as_secs_f64() * 1e3);
        write!(
            f,
            "{:>5} {:>5} {:>2} {:>4} {:<24} {answer:>7} {median:>10.3} {least:>9.3} {:>11} {:>12}",
            field_number(self.field),
            self.depth,
            self.k0,
            known(self.rate),
            self.case.name(),
            self.lent,
            known(self.stack),
        )
    }
}

/// The field's number, for people.
pub fn field_number(field: Field) -> u32 {
    match field {
        Field::First => 1,
        Field::Second => 2,
    }
}
