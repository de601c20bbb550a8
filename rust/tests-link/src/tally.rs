//! How many calls were compared, by job and by the number answered.

use crate::job::Job;
use std::collections::{BTreeMap, BTreeSet};
use std::fmt;
use std::io::Write;
use tvarchula_reference::Answer;

/// The counts of a comparison.
#[derive(Clone, Debug, Default)]
pub struct Tally {
    counts: BTreeMap<Job, BTreeMap<u32, usize>>,
    places: BTreeMap<(Job, u32), BTreeSet<(u32, u32)>>,
}

impl Tally {
    /// Counts one compared call.
    pub fn count(&mut self, job: Job, answer: Answer) {
        let numbers = self.counts.entry(job).or_default();
        *numbers.entry(answer.number).or_default() += 1;
        let places = self.places.entry((job, answer.number)).or_default();
        places.insert((answer.first, answer.second));
    }

    /// All compared calls.
    pub fn total(&self) -> usize {
        self.counts.values().flat_map(BTreeMap::values).sum()
    }

    /// Calls of a job that answered a number.
    pub fn of(&self, job: Job, number: u32) -> usize {
        let numbers = self.counts.get(&job);
        numbers
            .and_then(|numbers| numbers.get(&number))
            .copied()
            .unwrap_or(0)
    }

    /// How many different places a number was given with.
    pub fn places(&self, job: Job, number: u32) -> usize {
        self.places.get(&(job, number)).map_or(0, BTreeSet::len)
    }

    /// The jobs that were called, each with those of its numbers that never came, and with 4 those of
    /// its inputs that never were named. Every other number stands with the input 0.
    pub fn missing(&self) -> Vec<(Job, u32, u32)> {
        let never = |job: Job| {
            let absent = job.numbers().iter().filter(move |&&n| self.of(job, n) == 0);
            let unnamed = job
                .named()
                .iter()
                .filter(move |&&i| !self.has_named(job, i));
            let absent = absent.map(move |&n| (job, n, 0));
            absent.chain(unnamed.map(move |&i| (job, 4, i)))
        };
        self.counts.keys().flat_map(|&job| never(job)).collect()
    }

    /// Whether 4 named some word of an input.
    fn has_named(&self, job: Job, input: u32) -> bool {
        let mut places = self.places.get(&(job, 4)).into_iter().flatten();
        places.any(|&(_, named)| named == input)
    }

    /// Prints the counts, past the test harness that would hide them.
    pub fn print(&self, title: &str) {
        let shown = format!("{title}: {} calls compared\n{self}", self.total());
        std::io::stderr()
            .write_all(shown.as_bytes())
            .expect("stderr");
    }
}

impl fmt::Display for Tally {
    fn fmt(&self, f: &mut fmt::Formatter) -> fmt::Result {
        for (job, numbers) in &self.counts {
            let total: usize = numbers.values().sum();
            write!(f, "  {job:?} {total}:")?;
            for (&number, count) in numbers {
                write!(f, " [{number}] {count}")?;
                if matches!(number, 4..=6 | 20..) {
                    write!(f, " at {} places", self.places(*job, number))?;
                }
            }
            writeln!(f)?;
        }
        Ok(())
    }
}

#[cfg(test)]
mod tests {
    use super::*;

    #[test]
    fn a_number_or_an_input_that_never_came_is_missing() {
        let mut tally = Tally::default();
        let mut count = |number, first, second| {
            let answer = Answer {
                number,
                first,
                second,
            };
            tally.count(Job::Evaluate, answer);
            tally.missing()
        };
        count(0, 0, 0);
        count(3, 0, 0);
        let missing = |missing: &[(u32, u32)]| -> Vec<_> {
            let named = missing.iter();
            named.map(|&(n, input)| (Job::Evaluate, n, input)).collect()
        };
        assert_eq!(count(4, 1, 5), missing(&[(1, 0), (13, 0), (4, 4)]));
        assert_eq!(count(4, 0, 4), missing(&[(1, 0), (13, 0)]));
        assert_eq!(count(1, 0, 0), missing(&[(13, 0)]));
        assert_eq!(count(13, 0, 0), []);
        count(4, 2, 4);
        assert_eq!(tally.places(Job::Evaluate, 4), 3);
        let line = "  Evaluate 7: [0] 1 [1] 1 [3] 1 [4] 3 at 3 places [13] 1\n";
        assert_eq!(tally.to_string(), line);
    }
}
