//! What a call may write.

use crate::buffer::Buffer;

/// What a call may write. What the job is not lent is absent.
#[derive(Clone, PartialEq, Eq, Debug, Default)]
pub struct Out {
    /// The result.
    pub result: Option<Buffer<u32>>,
    /// The result, if it is a table.
    pub table: Option<Buffer<i32>>,
    /// The results of filling: g, T, T'.
    pub rows: Option<[Buffer<u32>; 3]>,
    /// The work buffer.
    pub work: Option<Buffer<u32>>,
    /// The single result.
    pub value: u32,
    /// Kind and amount of a reading, else zeros.
    pub reading: (u32, u32),
}

/// The lent parts of what a call may write, empty where absent.
#[derive(Debug)]
pub struct Parts<'a> {
    /// The result.
    pub result: &'a mut [u32],
    /// The result, if it is a table.
    pub table: &'a mut [i32],
    /// The results of filling.
    pub rows: [&'a mut [u32]; 3],
    /// The work buffer.
    pub work: &'a mut [u32],
    /// The single result.
    pub value: &'a mut u32,
    /// Kind and amount of a reading.
    pub reading: &'a mut (u32, u32),
}

impl Out {
    /// The lent parts.
    pub fn parts(&mut self) -> Parts<'_> {
        Parts {
            result: self.result.as_mut().map_or(&mut [], Buffer::lent_mut),
            table: self.table.as_mut().map_or(&mut [], Buffer::lent_mut),
            rows: match &mut self.rows {
                Some(rows) => rows.each_mut().map(Buffer::lent_mut),
                None => [&mut [], &mut [], &mut []],
            },
            work: self.work.as_mut().map_or(&mut [], Buffer::lent_mut),
            value: &mut self.value,
            reading: &mut self.reading,
        }
    }
    /// The names of the lent buffers, and how many words each has.
    pub fn lengths(&self) -> Vec<(&'static str, usize)> {
        let mut lengths = Vec::new();
        let words = [("result", &self.result), ("work", &self.work)];
        for (name, buffer) in words {
            lengths.extend(buffer.as_ref().map(|b| (name, b.lent().len())));
        }
        lengths.extend(self.table.as_ref().map(|b| ("table", b.lent().len())));
        let rows = self.rows.iter().flatten().zip(["g", "T", "T'"]);
        lengths.extend(rows.map(|(buffer, name)| (name, buffer.lent().len())));
        lengths
    }

    /// Bytes of all lent buffers: every word has four.
    pub fn bytes(&self) -> usize {
        let words: usize = self.lengths().iter().map(|(_, length)| length).sum();
        4 * words
    }

    /// Whether every result is as it was in another: all but the work buffer and the reading.
    pub fn same_results(&self, other: &Out) -> bool {
        self.result == other.result
            && self.table == other.table
            && self.rows == other.rows
            && self.value == other.value
    }
}
