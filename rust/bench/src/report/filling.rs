//! Filling base row and diagonals by rule.

use super::measure::{least, measure, median, ratios, Plan, Samples, Side};
use super::table::Table;
use super::{micros, ratio};
use std::hint::black_box;
use tvarchula_bench::plain::{Barrett, Filled};
use tvarchula_bench::{Buffers, Filling, Library, Plain, Sizes, TV_FIELD_2};

/// What stands above the table.
pub const ABOUT: &str = "\
`tv_fill_roots` fills base row and diagonals of the second field. On both sides each level is a running product,
in which every power waits for the one before, and the second diagonal a pass of its own.";

/// The library and plain Rust.
pub type Fillings = Samples<2>;

/// What a side does in a sample.
type Work = fn(Sizes, &mut Buffers);

/// Filling needs a rate that is a power of two.
pub fn fills(rate: usize) -> bool {
    rate.is_power_of_two()
}

/// One round at all depths.
pub fn add(plan: Plan, all_sizes: &[Sizes], fillings: &mut [Fillings]) {
    for (sizes, fillings) in all_sizes.iter().zip(fillings) {
        fillings.extend(filled(plan, *sizes));
    }
}

/// The times at all depths.
pub fn table(all_sizes: &[Sizes], fillings: &[Fillings]) -> Table {
    let mut table = Table::new([
        "job",
        "depth",
        "library",
        "least",
        "plain",
        "least",
        "library / plain",
        "of the least",
    ]);
    for (sizes, t) in all_sizes.iter().zip(fillings) {
        let mut row = vec!["fill".to_owned(), sizes.depth.to_string()];
        for side in [0, 1] {
            row.extend([micros(median(t, side)), micros(least(t, side))]);
        }
        row.push(ratio(ratios(t, 0, 1)));
        row.push(format!("{:.2}", least(t, 0) / least(t, 1)));
        table.row(row);
    }
    table
}

/// The result buffer is base row and diagonals, one after the other.
fn fill<S: Filling>(sizes: Sizes, buffers: &mut Buffers) {
    let (g, rest) = buffers.result.split_at_mut(sizes.rate);
    let (t, t2) = rest.split_at_mut(sizes.diagonals());
    let filled = Filled { g, t, t2 };
    let answer = S::fill_roots(sizes.depth as u32, sizes.rate as u32, filled);
    assert_eq!(answer.number, 0, "depth and rate are legal");
}

fn filled(plan: Plan, sizes: Sizes) -> Fillings {
    let mut buffers = Buffers {
        result: vec![0; sizes.rate + 2 * sizes.diagonals()],
        ..Buffers::default()
    };
    let sides: [Work; 2] = [fill::<Library<TV_FIELD_2>>, fill::<Plain<Barrett>>];
    let words = sides.map(|work| {
        let mut buffers = buffers.clone();
        work(sizes, &mut buffers);
        buffers
    });
    assert!(words[0] == words[1], "filling writes other words");
    let sides = sides.map(|work| move |buffers: &mut Buffers| work(black_box(sizes), buffers));
    let sides = sides.each_ref().map(|side| side as Side<'_>);
    measure(plan, &mut buffers, sides)
}
