//! Ordinary Rust once more, as a library of its own, which the build script builds for the machine at hand. Two
//! functions of C, so that both builds can stand in one program.

#[path = "../src/ordinary/mod.rs"]
pub mod ordinary;

use ordinary::{encode, fold, BabyBear, Code, Level, Mersenne31, Refusal};
use std::slice::{from_raw_parts, from_raw_parts_mut};

/// A slice that is read.
#[repr(C)]
#[derive(Clone, Copy)]
pub struct Read(*const u32, usize);

/// A slice that is written.
#[repr(C)]
pub struct Written(*mut u32, usize);

/// Depth or level, rate, and words of a base message.
#[repr(C)]
pub struct Sizes(u32, u32, u32);

/// # Safety
/// Each slice is one for the time of the call, and the one that is written overlaps no other.
#[no_mangle]
pub unsafe extern "C" fn ordinary_native_encode(
    second: bool,
    sizes: Sizes,
    read: &[Read; 4],
    block: Written,
) -> u32 {
    let [g, t, t2, message] = read.map(|Read(words, len)| unsafe { from_raw_parts(words, len) });
    let block = unsafe { from_raw_parts_mut(block.0, block.1) };
    let Sizes(depth, rate, k0) = sizes;
    let code = Code {
        depth,
        rate,
        k0,
        g,
        t,
        t2,
    };
    number(match second {
        false => encode::<Mersenne31>(&code, message, block),
        true => encode::<BabyBear>(&code, message, block),
    })
}

/// # Safety
/// As above.
#[no_mangle]
pub unsafe extern "C" fn ordinary_native_fold(
    second: bool,
    sizes: Sizes,
    read: &[Read; 3],
    challenge: u32,
    folded: Written,
) -> u32 {
    let [t, t2, block] = read.map(|Read(words, len)| unsafe { from_raw_parts(words, len) });
    let folded = unsafe { from_raw_parts_mut(folded.0, folded.1) };
    let Sizes(level, rate, k0) = sizes;
    let lent = Level {
        level,
        rate,
        k0,
        t,
        t2,
        block,
    };
    number(match second {
        false => fold::<Mersenne31>(&lent, challenge, folded),
        true => fold::<BabyBear>(&lent, challenge, folded),
    })
}

fn number(result: Result<(), Refusal>) -> u32 {
    result.map_or_else(Refusal::number, |()| 0)
}
