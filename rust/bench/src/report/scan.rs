//! The scan for words below p, by a call that does nothing else.

use super::measure::{least, measure, median, ratios, Plan, Samples, Side};
use super::ratio;
use super::table::Table;
use std::hint::black_box;
use tvarchula_bench::plain::{Barrett, Mersenne};
use tvarchula_bench::{call, Buffers, Call, Inputs, Job, Library, Plain, TV_FIELD_1, TV_FIELD_2};

/// What stands above the table.
pub const ABOUT: &str = "\
`tv_verify_opening` with no query where one is due: it tests each word of each slice once, then refuses
with 7. `sum` is plain Rust that adds the same words and tests nothing. Speeds are of the median, and in
brackets of the least time.";

/// Verifying with no query is refused with 7 once every word of every slice has been tested: nothing is
/// computed. A word too large would be looked for once more, for its place.
fn refused(inputs: &Inputs) -> Inputs {
    let mut inputs = inputs.clone();
    inputs.draw_queries(0);
    inputs
}

/// The least that reading the same words takes: their sum.
fn read(inputs: &Inputs) -> u32 {
    let i = inputs;
    let slices = [&i.g, &i.t, &i.t2, &i.block, &i.z, &i.r, &i.opening];
    let sum = |s: &Vec<u32>| s.iter().fold(0, |sum: u32, &w| sum.wrapping_add(w));
    slices.into_iter().map(sum).fold(0, u32::wrapping_add)
}

/// The sides: the library and plain Rust over the first field, both over the second, and the sum alone.
pub type Scans = Samples<5>;

/// One round at all depths.
pub fn add(plan: Plan, lent: &[[Inputs; 2]], scans: &mut [Scans]) {
    for (inputs, scans) in lent.iter().zip(scans) {
        scans.extend(scanned(plan, &inputs.each_ref().map(refused)));
    }
}

/// The scans at all depths.
pub fn table(lent: &[[Inputs; 2]], scans: &[Scans]) -> Table {
    let mut table = Table::new([
        "field",
        "depth",
        "bytes",
        "library, GB/s",
        "plain, GB/s",
        "sum, GB/s",
        "library / plain",
        "library / sum",
        "second / first",
    ]);
    for (field, library) in [("first", 0), ("second", 2)] {
        for (inputs, scans) in lent.iter().zip(scans) {
            let inputs = refused(&inputs[0]);
            let bytes = inputs.bytes(Job::Verify);
            let speed = |nanos: f64| bytes as f64 / nanos;
            let speed = |side: usize| {
                let (median, least) = (median(scans, side), least(scans, side));
                format!("{:.1} ({:.1})", speed(median), speed(least))
            };
            let depth = inputs.depth.to_string();
            let mut row = vec![field.to_owned(), depth, bytes.to_string()];
            row.extend([library, library + 1, 4].map(speed));
            row.extend([library + 1, 4].map(|other| ratio(ratios(scans, library, other))));
            row.push(match library {
                0 => String::new(),
                _ => ratio(ratios(scans, library, 0)),
            });
            table.row(row);
        }
    }
    table
}

fn scanned(plan: Plan, [first, second]: &[Inputs; 2]) -> Scans {
    let scan = |side: Call, inputs| {
        move |buffers: &mut Buffers| {
            let answer = side(Job::Verify, black_box(inputs), buffers);
            assert_eq!(answer.number, 7);
        }
    };
    let sum: Side<'_> = &|_: &mut Buffers| {
        black_box(read(black_box(first)));
    };
    let sides: [Side<'_>; 5] = [
        &scan(call::<Library<TV_FIELD_1>>, first),
        &scan(call::<Plain<Mersenne>>, first),
        &scan(call::<Library<TV_FIELD_2>>, second),
        &scan(call::<Plain<Barrett>>, second),
        sum,
    ];
    measure(plan, &mut Buffers::default(), sides)
}
