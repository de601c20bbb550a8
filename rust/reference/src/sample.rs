//! Seeded inputs for tests. No part of any job.

use crate::answer::Answer;
use crate::field::{Field, FIRST, SECOND};
use crate::fill::fill_roots;
use crate::layout::Layout;
use crate::residue::Residue;

mod base;

/// A small seeded generator (splitmix64) of numbers and of residues of one field.
#[derive(Clone, Debug)]
pub struct Rng {
    state: u64,
    field: Field,
}

/// What kind of residues a sample holds.
#[derive(Clone, Copy, PartialEq, Eq, Debug)]
pub enum Style {
    /// Any residue.
    Random,
    /// Zero, one, p - 1, the half, their neighbours, and what is that in the other field.
    Extreme,
    /// Below 8: many coincidences.
    Small,
    /// A code of roots of unity, over the second field at a rate that can be filled. Other words are any.
    Roots,
}

/// All styles of words.
pub const STYLES: [Style; 3] = [Style::Random, Style::Extreme, Style::Small];

impl Rng {
    /// A generator from a seed.
    pub fn new(field: Field, seed: u64) -> Rng {
        Rng { state: seed, field }
    }

    /// The field of its residues.
    pub fn field(&self) -> Field {
        self.field
    }

    /// The next 64 bits.
    pub fn bits(&mut self) -> u64 {
        self.state = self.state.wrapping_add(0x9e37_79b9_7f4a_7c15);
        let mut z = self.state;
        z = (z ^ (z >> 30)).wrapping_mul(0xbf58_476d_1ce4_e5b9);
        z = (z ^ (z >> 27)).wrapping_mul(0x94d0_49bb_1331_11eb);
        z ^ (z >> 31)
    }

    /// Any 32-bit word.
    pub fn word(&mut self) -> u32 {
        (self.bits() >> 32) as u32
    }

    /// A number below `bound`, which is not 0.
    pub fn below(&mut self, bound: usize) -> usize {
        (self.bits() % bound as u64) as usize
    }

    /// True once in `n` times.
    pub fn one_in(&mut self, n: usize) -> bool {
        self.below(n) == 0
    }

    /// One of the items.
    pub fn pick<T: Copy>(&mut self, items: &[T]) -> T {
        items[self.below(items.len())]
    }

    /// Any residue.
    pub fn residue<const P: u32>(&mut self) -> Residue<P> {
        self.styled(Style::Random)
    }

    /// A residue of a style. The modulus is that of the field.
    pub fn styled<const P: u32>(&mut self, style: Style) -> Residue<P> {
        assert_eq!(P, self.field.modulus());
        Residue::new(self.styled_word(style)).expect("a word of the field")
    }

    /// The word of a residue of a style.
    fn styled_word(&mut self, style: Style) -> u32 {
        let p = self.field.modulus();
        match style {
            Style::Random | Style::Roots => (self.bits() % u64::from(p)) as u32,
            Style::Extreme if self.one_in(3) => self.border(),
            Style::Extreme => self.pick(&[0, 1, p - 1]),
            Style::Small => self.below(8) as u32,
        }
    }

    /// A word of the field beside an end or the half of either field.
    fn border(&mut self) -> u32 {
        let borders = [2, FIRST, FIRST / 2 + 1, SECOND, SECOND / 2 + 1];
        let p = self.field.modulus();
        loop {
            let word = self.pick(&borders) - self.below(3) as u32;
            if word < p {
                return word;
            }
        }
    }

    /// Several residues of a style.
    pub fn residues<const P: u32>(&mut self, count: usize, style: Style) -> Vec<Residue<P>> {
        (0..count).map(|_| self.styled(style)).collect()
    }

    /// The words of several residues of a style.
    pub fn words(&mut self, count: usize, style: Style) -> Vec<u32> {
        (0..count).map(|_| self.styled_word(style)).collect()
    }

    /// Different numbers below `bound`, which is at least `count`.
    pub fn places(&mut self, count: usize, bound: usize) -> Vec<u32> {
        assert!(count <= bound);
        let mut places = Vec::with_capacity(count);
        while places.len() < count {
            let place = self.below(bound) as u32;
            if !places.contains(&place) {
                places.push(place);
            }
        }
        places
    }

    /// Legal base rows, T and T' as words.
    pub fn code(&mut self, layout: &Layout, style: Style) -> [Vec<u32>; 3] {
        if style == Style::Roots {
            return self.roots(layout);
        }
        let g = match layout.k0 {
            1 => (0..layout.rate).map(|_| self.non_zero(style)).collect(),
            _ => self.base_rows(layout, layout.k0, style),
        };
        let (t, t2) = self.diagonals(layout.diagonals(), style);
        [g, t, t2]
    }

    fn roots(&self, sizes: &Layout) -> [Vec<u32>; 3] {
        assert_eq!((self.field, sizes.k0), (Field::Second, 1));
        let lengths = [sizes.rate, sizes.diagonals(), sizes.diagonals()];
        let mut rows = lengths.map(|length| vec![0; length]);
        let [g, t, t2] = &mut rows;
        assert_eq!(fill_roots(sizes.parameters(), g, t, t2), Answer::DONE);
        rows
    }

    /// Legal diagonals of a length: differing in every place, in a quarter of the samples T' = -T where
    /// that is legal.
    pub fn diagonals(&mut self, count: usize, style: Style) -> (Vec<u32>, Vec<u32>) {
        let p = self.field.modulus();
        let negated = self.one_in(4);
        let pairs = (0..count).map(|_| {
            let t = self.styled_word(style);
            let mut t2 = if negated {
                (p - t) % p
            } else {
                self.styled_word(style)
            };
            while t2 == t {
                t2 = (t2 + 1) % p;
            }
            (t, t2)
        });
        pairs.unzip()
    }

    fn non_zero(&mut self, style: Style) -> u32 {
        loop {
            let word = self.styled_word(style);
            if word != 0 {
                return word;
            }
        }
    }
}
