//! Result and work buffers, with margins that no job may touch.

use tvarchula_reference::sample::Rng;

const MARGIN: usize = 8;

/// A lent buffer inside a larger one. Two buffers are equal when their margins are equal too.
#[derive(Clone, PartialEq, Eq, Debug)]
pub struct Buffer<T> {
    all: Vec<T>,
}

impl<T: Copy + PartialEq> Buffer<T> {
    /// A buffer of a length, filled with garbage; so are its margins.
    pub fn garbage(length: usize, rng: &mut Rng, make: impl Fn(u32) -> T) -> Buffer<T> {
        // No residues: a job that judges or reads a result or work buffer will show it.
        let garbage = |_| make(rng.word() | 0x8000_0000);
        let all = (0..length + 2 * MARGIN).map(garbage).collect();
        Buffer { all }
    }

    /// The lent part.
    pub fn lent(&self) -> &[T] {
        &self.all[MARGIN..self.all.len() - MARGIN]
    }

    /// The lent part, to write.
    pub fn lent_mut(&mut self) -> &mut [T] {
        let end = self.all.len() - MARGIN;
        &mut self.all[MARGIN..end]
    }

    /// Makes the lent part longer by one word.
    pub fn lengthen(&mut self) {
        let last = self.all[self.all.len() - 1];
        self.all.push(last);
    }

    /// Makes the lent part shorter by one word, if it has one.
    pub fn shorten(&mut self) {
        if self.all.len() > 2 * MARGIN {
            self.all.pop();
        }
    }

    /// Makes the lent part empty.
    pub fn empty(&mut self) {
        self.all.truncate(2 * MARGIN);
    }

    /// The first place, counted from the start of the lent part, where two buffers differ.
    pub fn first_difference(&self, other: &Buffer<T>) -> Option<isize> {
        let pairs = self.all.iter().zip(&other.all);
        let place = pairs.into_iter().position(|(a, b)| a != b)?;
        Some(place as isize - MARGIN as isize)
    }
}

#[cfg(test)]
mod tests {
    use super::*;
    use tvarchula_reference::Field;

    #[test]
    fn a_changed_margin_is_a_difference() {
        let mut rng = Rng::new(Field::First, 1);
        let buffer = Buffer::garbage(3, &mut rng, |word| word);
        assert_eq!(buffer.lent().len(), 3);
        for (place, shown) in [(MARGIN - 1, -1), (MARGIN, 0), (MARGIN + 3, 3)] {
            let mut other = buffer.clone();
            other.all[place] ^= 1;
            assert_ne!(buffer, other);
            assert_eq!(buffer.first_difference(&other), Some(shown));
        }
    }
}
