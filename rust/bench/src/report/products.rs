//! Products alone: many side by side, and each waiting for the one before.

use super::measure::{least, measure, median, ratios, Plan, Samples, Side};
use super::table::Table;
use super::{micros, ratio};
use std::hint::black_box;
use tvarchula_bench::plain::{Mersenne, Remainder, FIRST};
#[cfg(before)]
use tvarchula_bench::Before;
use tvarchula_bench::{Buffers, Library, Plain, Products, TV_FIELD_1};

/// What stands above the table.
pub const ABOUT: &str = "\
Microseconds for a million products of the first field and nothing else: a thousand rounds over a thousand words, which stay in the
cache. Side by side, each round multiplies each of a thousand values by its factor; one after another, one value by each of a
thousand factors. The median, in brackets the least time.";

/// The sides, all over the first field, in the order in which they are measured.
const NAMES: [&str; 4] = ["library", "plain", "plain %", "before"];
const SIDES: usize = 3 + cfg!(before) as usize;

const WORDS: usize = 1000;
const ROUNDS: u32 = 1000;

/// The times of products side by side, and of products one after another.
#[derive(Debug, Default)]
pub struct Millions {
    apart: Samples<SIDES>,
    chained: Samples<SIDES>,
}

/// What a side does in a sample.
type Work = fn(&[u32], &mut Buffers);

fn apart<S: Products>(factors: &[u32], buffers: &mut Buffers) {
    buffers.result.copy_from_slice(factors);
    let done = S::side_by_side(ROUNDS, factors, &mut buffers.result);
    assert!(done, "the words are below p");
}

fn chained<S: Products>(factors: &[u32], buffers: &mut Buffers) {
    buffers.value = S::in_chain(ROUNDS, factors);
    assert_ne!(buffers.value, FIRST, "the words are below p");
}

/// The same work of every side.
macro_rules! of_all_sides {
    ($work:ident) => {
        [
            $work::<Library<TV_FIELD_1>>,
            $work::<Plain<Mersenne>>,
            $work::<Plain<Remainder<FIRST>>>,
            #[cfg(before)]
            $work::<Before>,
        ]
    };
}

/// One round.
pub fn add(plan: Plan, millions: &mut Millions) {
    millions.apart.extend(of_work(plan, of_all_sides!(apart)));
    let chained = of_work(plan, of_all_sides!(chained));
    millions.chained.extend(chained);
}

fn of_work(plan: Plan, sides: [Work; SIDES]) -> Samples<SIDES> {
    // Any words will do: no time depends on them.
    let factors: Vec<u32> = (0..WORDS as u32).map(|i| FIRST / 2 + 977 * i).collect();
    let mut buffers = Buffers {
        result: vec![0; WORDS],
        ..Buffers::default()
    };
    alike(&factors, &buffers, sides);
    let sides = sides.map(|work| {
        let factors = &factors;
        move |buffers: &mut Buffers| work(black_box(factors), buffers)
    });
    let sides = sides.each_ref().map(|side| side as Side<'_>);
    measure(plan, &mut buffers, sides)
}

/// Stops the program where a side finds other products than the library.
fn alike(factors: &[u32], buffers: &Buffers, sides: [Work; SIDES]) {
    let found = sides.map(|work| {
        let mut buffers = buffers.clone();
        work(factors, &mut buffers);
        buffers
    });
    let same = found.windows(2).all(|pair| pair[0] == pair[1]);
    assert!(same, "other products");
}

/// Both, on all sides.
pub fn table(millions: &Millions) -> Table {
    let names = &NAMES[..SIDES];
    let beside = names[1..].iter().map(|other| format!("library / {other}"));
    let heads = ["products".to_owned()].into_iter();
    let heads = heads.chain(names.iter().map(|&name| name.to_owned()));
    let mut table = Table::new(heads.chain(beside));
    let rows = [
        ("side by side", &millions.apart),
        ("one after another", &millions.chained),
    ];
    for (name, samples) in rows {
        let time = |side| {
            let (median, least) = (median(samples, side), least(samples, side));
            format!("{} ({})", micros(median), micros(least))
        };
        let mut row = vec![name.to_owned()];
        row.extend((0..SIDES).map(time));
        row.extend((1..SIDES).map(|other| ratio(ratios(samples, 0, other))));
        table.row(row);
    }
    table
}
