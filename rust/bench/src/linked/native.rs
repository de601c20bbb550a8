//! Ordinary Rust that was built for the machine at hand: `native/lib.rs`, where the build script could build it.

use crate::ordinary::{Code, Level};

/// A slice that is read, as `native/lib.rs` has it.
#[repr(C)]
struct Read(*const u32, usize);

/// A slice that is written.
#[repr(C)]
struct Written(*mut u32, usize);

/// Depth or level, rate, and words of a base message.
#[repr(C)]
struct Sizes(u32, u32, u32);

#[rustfmt::skip]
extern "C" {
    fn ordinary_native_encode(second: bool, sizes: Sizes, read: &[Read; 4], block: Written) -> u32;
    fn ordinary_native_fold(
        second: bool, sizes: Sizes, read: &[Read; 3], challenge: u32, folded: Written,
    ) -> u32;
}

fn read<const N: usize>(slices: [&[u32]; N]) -> [Read; N] {
    slices.map(|words| Read(words.as_ptr(), words.len()))
}

fn written(words: &mut [u32]) -> Written {
    Written(words.as_mut_ptr(), words.len())
}

/// The codeword of a message: the number of the answer.
pub fn encode(second: bool, code: &Code<'_>, message: &[u32], block: &mut [u32]) -> u32 {
    let sizes = Sizes(code.depth, code.rate, code.k0);
    let read = read([code.g, code.t, code.t2, message]);
    // SAFETY: see the head of `linked`.
    unsafe { ordinary_native_encode(second, sizes, &read, written(block)) }
}

/// The fold of a block by one level.
pub fn fold(second: bool, lent: &Level<'_>, challenge: u32, folded: &mut [u32]) -> u32 {
    let sizes = Sizes(lent.level, lent.rate, lent.k0);
    let read = read([lent.t, lent.t2, lent.block]);
    // SAFETY: see the head of `linked`.
    unsafe { ordinary_native_fold(second, sizes, &read, challenge, written(folded)) }
}
