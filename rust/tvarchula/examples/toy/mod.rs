//! What the examples draw. A TOY: anybody who knows the seed foresees every word.
//!
//! In service the cell draws challenges and places from its system's random numbers, each only when
//! the planner has sent what comes before it. A planner that foresees them can cheat. Row and
//! diagonals may be foreseen, but the planner must not choose them.

use tvarchula::{Code, Field};

/// A small seeded generator (splitmix64).
pub struct Toy(pub u64);

/// A row and two diagonals of a field.
pub struct Row {
    field: Field,
    depth: u32,
    rate: u32,
    g: Vec<u32>,
    t: Vec<u32>,
    t2: Vec<u32>,
}

impl Row {
    /// The code, lent to a call.
    pub fn code(&self) -> Code<'_> {
        let (depth, rate) = (self.depth, self.rate);
        Code::new(self.field, depth, rate, &self.g, &self.t, &self.t2)
    }
}

impl Toy {
    /// A number below a bound.
    pub fn below(&mut self, bound: u32) -> u32 {
        self.0 = self.0.wrapping_add(0x9e37_79b9_7f4a_7c15);
        let mut z = self.0;
        z = (z ^ (z >> 30)).wrapping_mul(0xbf58_476d_1ce4_e5b9);
        z = (z ^ (z >> 27)).wrapping_mul(0x94d0_49bb_1331_11eb);
        ((z ^ (z >> 31)) % u64::from(bound)) as u32
    }

    /// Numbers below a bound.
    pub fn list(&mut self, len: usize, bound: u32) -> Vec<u32> {
        (0..len).map(|_| self.below(bound)).collect()
    }

    /// Places below a bound, no two the same: what was drawn before is drawn anew. As many as are asked
    /// for, or all where there are no more.
    pub fn places(&mut self, len: usize, bound: u32) -> Vec<u32> {
        let len = len.min(bound as usize);
        let mut places = Vec::with_capacity(len);
        while places.len() < len {
            let place = self.below(bound);
            if !places.contains(&place) {
                places.push(place);
            }
        }
        places
    }

    /// Row and diagonals as in the paper: random words that are not 0, and T' = -T.
    pub fn row(&mut self, field: Field, depth: u32, rate: u32) -> Row {
        let modulus = field.modulus();
        let mut non_zero = |len: usize| -> Vec<u32> {
            let words = self.list(len, modulus - 1);
            words.into_iter().map(|word| word + 1).collect()
        };
        let g = non_zero(rate as usize);
        let t = non_zero(tvarchula::diagonals_len(depth, rate));
        let t2 = t.iter().map(|word| modulus - word).collect();
        Row {
            field,
            depth,
            rate,
            g,
            t,
            t2,
        }
    }
}

/// The corner of a table's entry: variable i is bit i of the entry's number.
pub fn corner(entry: u32, depth: u32) -> Vec<u32> {
    (0..depth).map(|i| entry >> i & 1).collect()
}
