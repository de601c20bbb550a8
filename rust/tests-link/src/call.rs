//! One call of one job: everything it is lent.

use crate::job::Job;
use crate::out::Out;
use std::collections::BTreeMap;
use std::fmt;
use tvarchula_reference::{Field, Layout, LentCode, LentLevel, Parameters};

/// What a job reads, as words, in the order in which they are judged.
#[derive(Clone, Copy, PartialEq, Eq, PartialOrd, Ord, Debug)]
pub enum Input {
    /// The single word of a reading.
    Word,
    /// Base rows.
    G,
    /// T, for folding only its one level.
    T,
    /// T'.
    T2,
    /// Message.
    Message,
    /// Block.
    Block,
    /// Claimed point.
    Z,
    /// Claimed value, a single word.
    Y,
    /// Challenges.
    R,
    /// The single challenge of folding.
    Challenge,
    /// Query places.
    Queries,
    /// Opening.
    Opening,
}

impl Input {
    /// A single value has no length that could be wrong.
    pub fn is_single(self) -> bool {
        matches!(self, Input::Word | Input::Y | Input::Challenge)
    }

    /// The order's number, by which 4 names it; the query list has none.
    pub fn number(self) -> Option<u32> {
        match self {
            Input::G => Some(1),
            Input::T => Some(2),
            Input::T2 => Some(3),
            Input::Word | Input::Message | Input::Block => Some(4),
            Input::Z => Some(5),
            Input::Y => Some(6),
            Input::R | Input::Challenge => Some(7),
            Input::Opening => Some(8),
            Input::Queries => None,
        }
    }
}

/// One call: what the job reads and what it writes.
#[derive(Clone, PartialEq, Eq, Debug)]
pub struct Call {
    /// The job.
    pub job: Job,
    /// How the call was made.
    pub note: String,
    /// What is read.
    pub lent: Lent,
    /// What is written.
    pub out: Out,
}

/// What a call reads. What the job is not lent is absent.
#[derive(Clone, PartialEq, Eq, Debug, Default)]
pub struct Lent {
    /// Field. Filling is lent none, and is for the second.
    pub field: Field,
    /// The record. Reading is lent none, and has zeros here.
    pub parameters: Parameters,
    /// Words; a single value is one word.
    pub words: BTreeMap<Input, Vec<u32>>,
    /// Clearances.
    pub table: Option<Vec<i32>>,
}

impl Lent {
    /// The words of an input that the job is lent.
    pub fn words(&self, input: Input) -> &[u32] {
        &self.words[&input]
    }

    /// The words of an input, to change.
    pub fn words_mut(&mut self, input: Input) -> &mut Vec<u32> {
        self.words.get_mut(&input).expect("an input of this job")
    }

    /// A single value.
    pub fn single(&self, input: Input) -> u32 {
        self.words(input)[0]
    }

    /// Depth or upper level.
    pub fn depth(&self) -> u32 {
        self.parameters.depth
    }

    /// Rate.
    pub fn rate(&self) -> u32 {
        self.parameters.rate
    }

    /// Words of a base message.
    pub fn k0(&self) -> u32 {
        self.parameters.k0
    }

    /// The sizes of a legal record.
    pub fn layout(&self) -> Layout {
        let Parameters { depth, rate, k0 } = self.parameters;
        let [depth, rate, k0] = [depth, rate, k0].map(|number| number as usize);
        Layout { depth, rate, k0 }
    }

    /// The one level that folding is lent.
    pub fn level(&self) -> LentLevel<'_> {
        LentLevel {
            field: self.field,
            parameters: self.parameters,
            t: self.words(Input::T),
            t2: self.words(Input::T2),
        }
    }

    /// The code.
    pub fn code(&self) -> LentCode<'_> {
        LentCode {
            field: self.field,
            parameters: self.parameters,
            g: self.words(Input::G),
            t: self.words(Input::T),
            t2: self.words(Input::T2),
        }
    }
}

impl Call {
    /// A call of a job over a field that is lent nothing else yet.
    pub fn new(job: Job, field: Field) -> Call {
        Call {
            job,
            note: String::new(),
            lent: Lent {
                field,
                ..Lent::default()
            },
            out: Out::default(),
        }
    }

    /// Adds to the note.
    pub fn add_note(&mut self, note: &str) {
        if !self.note.is_empty() {
            self.note.push_str(", ");
        }
        self.note.push_str(note);
    }

    /// Bytes of all slices that the call is lent. Single words are no slices.
    pub fn bytes(&self) -> usize {
        let read = self.lent.words.iter();
        let slices = read.filter(|(input, _)| !input.is_single());
        let read: usize = slices.map(|(_, words)| size_of_val(&words[..])).sum();
        let table = self.lent.table.as_deref().map_or(0, size_of_val);
        read + table + self.out.bytes()
    }
}

impl fmt::Display for Call {
    fn fmt(&self, f: &mut fmt::Formatter) -> fmt::Result {
        write!(f, "{:?} ({})", self.job, self.note)?;
        write!(f, "\n  field {:?}", self.lent.field)?;
        if self.job.has_record() {
            let Parameters { depth, rate, k0 } = self.lent.parameters;
            write!(f, "\n  depth {depth}, rate {rate}, k0 {k0}")?;
        }
        for (input, words) in &self.lent.words {
            write!(f, "\n  {input:?}: {}", shown(words))?;
        }
        if let Some(table) = &self.lent.table {
            write!(f, "\n  table: {}", shown(table))?;
        }
        for (name, length) in self.out.lengths() {
            write!(f, "\n  {name}: {length} words")?;
        }
        Ok(())
    }
}

/// The length of a slice, and its words when they are few.
fn shown<T: fmt::Debug>(words: &[T]) -> String {
    if words.len() <= 32 {
        format!("{} words {words:?}", words.len())
    } else {
        format!("{} words {:?}...", words.len(), &words[..8])
    }
}

#[cfg(test)]
mod tests {
    use super::*;
    use crate::good::{formed, Shape};
    use tvarchula_reference::sample::Rng;

    #[test]
    fn what_4_can_name_is_what_is_lent() {
        for job in Job::ALL {
            let call = formed(job, Shape::random(2, 3), &mut Rng::new(Field::Second, 1));
            let lent = call.lent.words.keys();
            let numbers: Vec<u32> = lent.filter_map(|input| input.number()).collect();
            assert_eq!(numbers, job.named(), "{job:?}");
        }
    }
}
