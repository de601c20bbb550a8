//! Times of several sides, taken in turns, so that what else the machine does meets all of them.

use super::clock;
use crate::lent::Buffers;
use std::hint::black_box;
use std::time::Duration;

/// How much is measured.
#[derive(Clone, Copy, Debug)]
pub struct Plan {
    /// How often everything is measured anew. A machine that others use too is slower for seconds at
    /// a time; rounds meet it in several states.
    pub rounds: usize,
    /// Samples of each side in a round.
    pub samples: usize,
    /// The least time of one sample, reached by repeating the call.
    pub least: Duration,
}

impl Plan {
    /// For numbers that are read.
    pub const FULL: Plan = Plan {
        rounds: 5,
        samples: 11,
        least: Duration::from_millis(1),
    };

    /// To see that everything runs.
    pub const QUICK: Plan = Plan {
        rounds: 1,
        samples: 2,
        least: Duration::ZERO,
    };
}

/// One side's work, given the buffers that it may write.
pub type Side<'a> = &'a dyn Fn(&mut Buffers);

/// The times of N sides in nanoseconds, a sample each, taken one right after the other.
pub type Samples<const N: usize> = Vec<[f64; N]>;

/// Samples of one round. In each sample another side goes first, and every second sample takes the sides in the opposite order:
/// where words fill much of the caches, a side that follows one of the other field is slower than one that finds its words there.
pub fn measure<const N: usize>(
    plan: Plan,
    buffers: &mut Buffers,
    sides: [Side<'_>; N],
) -> Samples<N> {
    let repeats = repeats(plan.least, fastest(buffers, &sides));
    let sample = |sample: usize| {
        let mut times = [0.0; N];
        for turn in 0..N {
            let step = if sample % 2 == 0 { turn } else { N - turn };
            let side = (sample + step) % N;
            let taken = time(repeats, buffers, sides[side]);
            times[side] = taken.as_nanos() as f64 / f64::from(repeats);
        }
        times
    };
    (0..plan.samples).map(sample).collect()
}

/// The median time of a side.
pub fn median<const N: usize>(samples: &Samples<N>, side: usize) -> f64 {
    quartiles(samples.iter().map(|times| times[side]))[1]
}

/// The least time of a side.
pub fn least<const N: usize>(samples: &Samples<N>, side: usize) -> f64 {
    let times = samples.iter().map(|times| times[side]);
    times.fold(f64::INFINITY, f64::min)
}

/// One side's time by another's, in each sample: the quartiles. A sample's sides meet the
/// machine in the same state, so that the ratio tells more than that of two medians.
pub fn ratios<const N: usize>(samples: &Samples<N>, side: usize, other: usize) -> [f64; 3] {
    quartiles(samples.iter().map(|times| times[side] / times[other]))
}

/// A call of the fastest side. The first calls are slower than those that follow.
fn fastest(buffers: &mut Buffers, sides: &[Side<'_>]) -> Duration {
    let first_calls = (0..2).flat_map(|_| sides);
    let fastest = first_calls.map(|side| time(1, buffers, side)).min();
    fastest.unwrap_or_default()
}

/// How often a call is repeated, so that a sample of the fastest side too takes long enough.
fn repeats(least: Duration, fastest: Duration) -> u32 {
    let once = fastest.as_nanos().max(1);
    least.as_nanos().div_ceil(once).max(1) as u32
}

/// So many calls go before those that are timed, or as many as those, where they are fewer.
const UNTIMED: u32 = 4;

/// The thread's time. The buffers are refilled outside it, and there are calls outside it: else the first
/// side of a field would find the words of the other one in the caches. One call does not bring eight megabytes there.
fn time(repeats: u32, buffers: &mut Buffers, side: Side<'_>) -> Duration {
    buffers.refill();
    for _ in 0..repeats.min(UNTIMED) {
        side(black_box(buffers));
    }
    let start = clock::now();
    for _ in 0..repeats {
        side(black_box(buffers));
    }
    clock::now() - start
}

fn quartiles(values: impl Iterator<Item = f64>) -> [f64; 3] {
    let mut values: Vec<f64> = values.collect();
    values.sort_by(f64::total_cmp);
    [1, 2, 3].map(|quarter| values[values.len() * quarter / 4])
}
