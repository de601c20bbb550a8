//! The codeword of a message.

use super::check::{below, diagonals, ensure, sizes, Refusal, MAX_RATE};
use super::field::Field;

/// Sizes, base row and diagonals.
#[derive(Clone, Copy, Debug)]
pub struct Code<'a> {
    /// The message has 2^depth words.
    pub depth: u32,
    /// A base block has so many words.
    pub rate: u32,
    /// The words of a base message, which can only be 1.
    pub k0: u32,
    /// The base row.
    pub g: &'a [u32],
    /// The first diagonal of every level, one after another.
    pub t: &'a [u32],
    /// The second one.
    pub t2: &'a [u32],
}

/// Writes the codeword of the message into the block.
pub fn encode<F: Field>(
    code: &Code<'_>,
    message: &[u32],
    block: &mut [u32],
) -> Result<(), Refusal> {
    check::<F>(code, message, block.len())?;
    let levels = Levels {
        rate: code.g.len(),
        t: code.t,
        t2: code.t2,
    };
    match message {
        [a] => scale::<F>(*a, code.g, block),
        _ => levels.encode::<F>(&First::of::<F>(code), message, block),
    }
    Ok(())
}

fn check<F: Field>(code: &Code<'_>, message: &[u32], block: usize) -> Result<(), Refusal> {
    let Code { g, t, t2, .. } = *code;
    sizes(0, code.depth, code.rate, code.k0)?;
    let (rate, words) = (code.rate as usize, 1 << code.depth);
    let due = [
        rate,
        rate * (words - 1),
        rate * (words - 1),
        words,
        rate * words,
    ];
    let found = [g.len(), t.len(), t2.len(), message.len(), block];
    ensure(found == due, Refusal::Length)?;
    let (all_below, apart) = diagonals::<F>(t, t2);
    ensure(
        below::<F>(g) && all_below && below::<F>(message),
        Refusal::Word,
    )?;
    ensure(!g.contains(&0), Refusal::BaseRow)?;
    ensure(apart, Refusal::Diagonals)
}

/// Depth 0: the one word times the base row.
fn scale<F: Field>(a: u32, g: &[u32], block: &mut [u32]) {
    for (out, &g) in block.iter_mut().zip(g) {
        *out = exact::<F>(a, g);
    }
}

/// a b below p: for the few products of which there is no array.
fn exact<F: Field>(a: u32, b: u32) -> u32 {
    (u64::from(a) * u64::from(b) % u64::from(F::P)) as u32
}

/// The first level together with the base blocks. The messages a and b become a g + b (t g) and a g + b (t2 g):
/// two products for each word and one reduction, where base blocks of their own would take twice of both.
struct First {
    g: [u32; MAX_RATE],
    h: [u32; MAX_RATE],
    h2: [u32; MAX_RATE],
}

impl First {
    /// Multiplied by all that the reductions to come will divide by, one at each level.
    fn of<F: Field>(code: &Code<'_>) -> First {
        let scale = (0..code.depth).fold(1, |scale, _| exact::<F>(scale, F::DIVISOR));
        let mut first = First {
            g: [0; MAX_RATE],
            h: [0; MAX_RATE],
            h2: [0; MAX_RATE],
        };
        for (i, &g) in code.g.iter().enumerate() {
            first.g[i] = exact::<F>(g, scale);
            first.h[i] = exact::<F>(first.g[i], code.t[i]);
            first.h2[i] = exact::<F>(first.g[i], code.t2[i]);
        }
        first
    }

    /// Two base blocks, each of which repeats its word of the message, become the block above them.
    #[inline]
    fn cross<F: Field>(&self, left: &mut [u32], right: &mut [u32]) {
        let row = self.g.iter().zip(&self.h).zip(&self.h2);
        for ((l, r), ((&g, &h), &h2)) in left.iter_mut().zip(right).zip(row) {
            let (a, b) = (*l, *r);
            *l = F::blend(a, g, b, h);
            *r = F::blend(a, g, b, h2);
        }
    }
}

/// So many words of a block, with their diagonals, stay in the nearest cache.
const PART: usize = 4096;

/// The diagonals by levels.
struct Levels<'a> {
    rate: usize,
    t: &'a [u32],
    t2: &'a [u32],
}

impl Levels<'_> {
    /// A message of two words or more. The words stay loose up to the highest level, which leaves them below p.
    fn encode<F: Field>(&self, first: &First, message: &[u32], block: &mut [u32]) {
        if message.len() == 2 {
            self.lift::<F>(first, message, block);
            for word in block {
                *word = F::full(*word);
            }
            return;
        }
        let (left, right) = self.lift_halves::<F>(first, message, block);
        let (t, t2) = self.level(left.len());
        for (((l, r), &t), &t2) in left.iter_mut().zip(right).zip(t).zip(t2) {
            let (first, second) = F::cross(*l, *r, t, t2);
            (*l, *r) = (F::full(first), F::full(second));
        }
    }

    /// By halves down to parts that stay in the cache.
    fn lift<F: Field>(&self, first: &First, message: &[u32], block: &mut [u32]) {
        if block.len() <= PART {
            return self.lift_part::<F>(first, message, block);
        }
        let (left, right) = self.lift_halves::<F>(first, message, block);
        let (t, t2) = self.level(left.len());
        cross::<F>(t, t2, left, right);
    }

    fn lift_halves<'b, F: Field>(
        &self,
        first: &First,
        message: &[u32],
        block: &'b mut [u32],
    ) -> (&'b mut [u32], &'b mut [u32]) {
        let (left, right) = block.split_at_mut(block.len() / 2);
        let (low, high) = message.split_at(message.len() / 2);
        self.lift::<F>(first, low, left);
        self.lift::<F>(first, high, right);
        (left, right)
    }

    /// Level by level.
    fn lift_part<F: Field>(&self, first: &First, message: &[u32], block: &mut [u32]) {
        for (out, &a) in block.chunks_exact_mut(self.rate).zip(message) {
            out.fill(a);
        }
        for out in block.chunks_exact_mut(2 * self.rate) {
            let (left, right) = out.split_at_mut(self.rate);
            first.cross::<F>(left, right);
        }
        let mut half = 2 * self.rate;
        while half < block.len() {
            let (t, t2) = self.level(half);
            for out in block.chunks_exact_mut(2 * half) {
                let (left, right) = out.split_at_mut(half);
                cross::<F>(t, t2, left, right);
            }
            half *= 2;
        }
    }

    /// The diagonals that join blocks of so many words.
    fn level(&self, words: usize) -> (&[u32], &[u32]) {
        let level = words - self.rate..2 * words - self.rate;
        (&self.t[level.clone()], &self.t2[level])
    }
}

/// The halves l and r become l + t r and l + t2 r, loose. Not inlined: of parameters the compiler knows that they do
/// not overlap.
#[inline(never)]
fn cross<F: Field>(t: &[u32], t2: &[u32], left: &mut [u32], right: &mut [u32]) {
    for (((l, r), &t), &t2) in left.iter_mut().zip(right).zip(t).zip(t2) {
        (*l, *r) = F::cross(*l, *r, t, t2);
    }
}
