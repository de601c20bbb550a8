//! How times grow from one depth to the next.

use super::line::field_number;
use super::{Case, Line};
use std::fmt;
use tvarchula_reference::Field;

/// A case at two depths.
#[derive(Clone, Copy, Debug)]
pub struct Growth {
    field: Field,
    case: Case,
    k0: usize,
    rate: Option<usize>,
    depths: [usize; 2],
    /// The later least time by the earlier.
    measured: f64,
}

impl Growth {
    /// What n log n gives, or n: a depth has 2^depth words and as many passes as levels.
    pub fn due(&self) -> f64 {
        let [from, to] = self.depths.map(|depth| depth as f64);
        let words = (to - from).exp2();
        if self.case.passes() {
            words * to / from
        } else {
            words
        }
    }
}

impl fmt::Display for Growth {
    fn fmt(&self, f: &mut fmt::Formatter) -> fmt::Result {
        let [from, to] = self.depths;
        let rate = self.rate.map_or("-".to_string(), |rate| rate.to_string());
        let law = if self.case.passes() { "n log n" } else { "n" };
        write!(
            f,
            "{:>6} {from:>5} to {to:>2} {:>2} {rate:>4} {:<24} {:>8.2}   {law}: {:.2}",
            field_number(self.field),
            self.k0,
            self.case.name(),
            self.measured,
            self.due()
        )
    }
}

/// The growth of every case, rate and k0 from each depth to the next one that was measured.
pub fn growth(lines: &[Line]) -> Vec<Growth> {
    let next = |(place, line): (usize, &Line)| {
        let of = |line: &Line| (line.field, line.case, line.k0, line.rate);
        let same = |later: &&Line| of(later) == of(line);
        let later = lines[place + 1..].iter().find(same)?;
        Some(Growth {
            field: line.field,
            case: line.case,
            k0: line.k0,
            rate: line.rate,
            depths: [line.depth, later.depth],
            measured: later.time.least.as_secs_f64() / line.time.least.as_secs_f64(),
        })
    };
    lines.iter().enumerate().filter_map(next).collect()
}

#[cfg(test)]
mod tests {
    use super::*;
    use crate::large::Time;
    use std::time::Duration;
    use tvarchula_reference::Answer;

    #[test]
    fn from_each_depth_to_the_next() {
        let line = |case, depth, millis| Line {
            field: Field::First,
            case,
            depth,
            k0: 1,
            rate: Some(8),
            answer: Answer::DONE,
            time: Time {
                median: Duration::from_secs(1),
                least: Duration::from_millis(millis),
            },
            lent: 0,
            stack: None,
        };
        let lines = [
            line(Case::Encode, 10, 1),
            line(Case::Fold, 10, 2),
            line(Case::Encode, 12, 5),
            line(Case::Fold, 12, 8),
        ];
        let found = growth(&lines);
        let shown: Vec<_> = found
            .iter()
            .map(|g| (g.case, g.measured, g.due()))
            .collect();
        assert_eq!(shown, [(Case::Encode, 5.0, 4.8), (Case::Fold, 4.0, 4.0)]);
    }
}
