//! The report: what is measured, and the tables that tell it.

mod blocks;
mod filling;
mod products;
mod scan;
mod times;

use blocks::Blocks;
use filling::Fillings;
use measure::{least, median, ratios, Plan};
use products::Millions;
use scan::Scans;
use table::Table;
use times::{Case, Times, CASES, FOLD_ONE_CHAIN, LISTS, NAMES};
use times::{BEFORE, LIBRARY, LIBRARY_2, PLAIN, PLAIN_2, REMAINDER};
use tvarchula_bench::plain::{Barrett, Mersenne};
use tvarchula_bench::timing::{machine, measure, micros, ratio, table};
use tvarchula_bench::{Buffers, Inputs, Sizes};

/// What stands above each table.
const TIMES: &str = "\
One call of each job, in microseconds of the thread's processor time: the median and the least of all samples. A ratio
is the median of the samples' ratios with its quartiles; behind it stands the ratio of the two least times. Plain Rust works
as the library did before W9: a fold inverts in sixteen chains of products on both sides. `fold, one chain` has plain Rust invert
in one chain, as is usual. Verifying takes another list of queries in each call. Over the first field plain Rust reduces products by the shape of the Mersenne prime.";
const BY_REMAINDER: &str = "\
The same beside plain Rust that reduces products by `%`.";
const BESIDE_BEFORE: &str = "The same beside an older library.";
const SECOND: &str = "\
The same over the second field, where plain Rust too reduces products by one with 2^62 / p. `second / first` is the library
over the second field by the library over the first, in the samples of both tables.";
const GROWTH: &str = "\
Nanoseconds for each word of the block, by the least times; for tables and evaluation, of the message. Encoding, decoding,
writing and the tables make one pass for each level, so that theirs grow with the depth. The first field, then the second.";
const MEMORY: &str = "\
Bytes of the slices lent to one call, over either field. The library allocates nothing.";

/// Everything that was measured.
struct Measured {
    times: [Vec<Times>; CASES.len()],
    scans: Vec<Scans>,
    fillings: Vec<Fillings>,
    millions: Millions,
    blocks: Blocks,
}

/// Measures everything at one rate and prints one document.
pub fn print(plan: Plan, rate: usize, depths: &[usize]) {
    let sizes: Vec<Sizes> = depths.iter().map(|&depth| Sizes { depth, rate }).collect();
    let both = |sizes: &Sizes| {
        [
            Inputs::drawn::<Mersenne>(*sizes, 0),
            Inputs::drawn::<Barrett>(*sizes, 0),
        ]
    };
    let mut lent: Vec<[Inputs; 2]> = sizes.iter().map(both).collect();
    let measured = measured(plan, &sizes, &mut lent);
    let samples = plan.rounds * plan.samples;
    println!(
        "{} Rate {rate}. {samples} samples in {} rounds.\n",
        machine::line("plain Rust"),
        plan.rounds
    );
    print_times(&lent, &measured.times);
    if filling::fills(rate) {
        let table = filling::table(&sizes, &measured.fillings);
        println!("### Filling\n\n{}\n\n{table}", filling::ABOUT);
    }
    println!(
        "### Base messages of two and four words\n\n{}\n\n{}",
        blocks::ABOUT,
        measured.blocks.table()
    );
    println!(
        "### A million products\n\n{}\n\n{}",
        products::ABOUT,
        products::table(&measured.millions)
    );
    let growth = |sides| growth(&lent, &measured.times, sides);
    println!("### Growth\n\n{GROWTH}\n\n{}", growth([LIBRARY, PLAIN]));
    println!("{}", growth([LIBRARY_2, PLAIN_2]));
    println!(
        "### Scan\n\n{}\n\n{}",
        scan::ABOUT,
        scan::table(&lent, &measured.scans)
    );
    print!("### Lent memory\n\n{MEMORY}\n\n{}", memory(&mut lent));
}

fn measured(plan: Plan, sizes: &[Sizes], lent: &mut [[Inputs; 2]]) -> Measured {
    let mut measured = Measured {
        times: CASES.map(|_| vec![Times::new(); sizes.len()]),
        scans: vec![Scans::new(); sizes.len()],
        fillings: vec![Fillings::new(); sizes.len()],
        millions: Millions::default(),
        blocks: Blocks::new(sizes),
    };
    for _ in 0..plan.rounds {
        for (case, times) in CASES.iter().zip(&mut measured.times) {
            add_times(plan, case, lent, times);
        }
        scan::add(plan, lent, &mut measured.scans);
        if sizes.iter().all(|sizes| filling::fills(sizes.rate)) {
            filling::add(plan, sizes, &mut measured.fillings);
        }
        products::add(plan, &mut measured.millions);
        measured.blocks.add(plan);
    }
    measured
}

/// One round of a case at all depths.
fn add_times(plan: Plan, case: &Case, lent: &mut [[Inputs; 2]], times: &mut [Times]) {
    for (inputs, times) in lent.iter_mut().zip(times) {
        for inputs in inputs.iter_mut() {
            inputs.draw_query_lists(LISTS, case.queries);
        }
        times.extend(times::of_case(plan, case, inputs.each_ref()));
    }
}

/// The jobs over the first field, beside all that they are compared with there, and over the second.
fn print_times(lent: &[[Inputs; 2]], times: &[Vec<Times>]) {
    let table = |ratios: &[Ratio]| compared(lent, times, ratios);
    let plain = table(&[(LIBRARY, PLAIN)]);
    println!("### Times, first field\n\n{TIMES}\n\n{plain}");
    let remainder = table(&[(LIBRARY, REMAINDER)]);
    println!("{BY_REMAINDER}\n\n{remainder}");
    if cfg!(before) {
        let before = table(&[(LIBRARY, BEFORE)]);
        println!("{BESIDE_BEFORE}\n\n{before}");
    }
    let second = table(&[(LIBRARY_2, PLAIN_2), (LIBRARY_2, LIBRARY)]);
    println!("### Times, second field\n\n{SECOND}\n\n{second}");
}

/// One side's time by another's.
type Ratio = (usize, usize);

/// Its head in a table.
fn head((of, by): Ratio) -> String {
    match (of, by) {
        (LIBRARY_2, LIBRARY) => "second / first".to_owned(),
        _ => format!("{} / {}", NAMES[of], NAMES[by]),
    }
}

/// The times of the two sides of the first ratio, and all ratios.
fn compared(lent: &[[Inputs; 2]], times: &[Vec<Times>], all: &[Ratio]) -> Table {
    let (of, by) = all[0];
    let heads = ["job", "depth", NAMES[of], "least", NAMES[by], "least"];
    let mut heads = heads.map(str::to_owned).to_vec();
    for &ratio in all {
        heads.extend([head(ratio), "of the least".to_owned()]);
    }
    let mut table = Table::new(heads);
    for (case, times) in CASES.iter().zip(times) {
        // The reduction makes no difference to these.
        if by == REMAINDER && case.adds_only() {
            continue;
        }
        for (inputs, t) in lent.iter().zip(times) {
            let mut row = vec![case.name.to_owned(), inputs[0].depth.to_string()];
            for side in [of, by] {
                row.extend([micros(median(t, side)), micros(least(t, side))]);
            }
            for &(of, by) in all {
                row.push(ratio(ratios(t, of, by)));
                row.push(format!("{:.2}", least(t, of) / least(t, by)));
            }
            table.row(row);
        }
    }
    table
}

/// Nanoseconds for each word of a job's main slice, at all depths.
fn growth(lent: &[[Inputs; 2]], times: &[Vec<Times>], [library, plain]: [usize; 2]) -> Table {
    let heads = |side: &'static str| {
        let head = move |inputs: &[Inputs; 2]| format!("{side}, depth {}", inputs[0].depth);
        lent.iter().map(head)
    };
    let job = ["job".to_owned()].into_iter();
    let mut table = Table::new(job.chain(heads("library")).chain(heads("plain")));
    for (case, times) in CASES.iter().zip(times) {
        let cells = |side: usize| {
            let each = lent.iter().zip(times);
            each.map(move |(inputs, t)| {
                let words = case.main_slice(&inputs[0]).len();
                format!("{:.2}", least(t, side) / words as f64)
            })
        };
        let name = [case.name.to_owned()].into_iter();
        table.row(name.chain(cells(library)).chain(cells(plain)));
    }
    table
}

/// Bytes of the slices that each job is lent.
fn memory(lent: &mut [[Inputs; 2]]) -> Table {
    let mut table = Table::new(["job", "depth", "read", "result", "work", "all"]);
    // The second fold differs only in plain Rust.
    for case in CASES.iter().filter(|case| case.name != FOLD_ONE_CHAIN.name) {
        for [inputs, _] in lent.iter_mut() {
            inputs.draw_queries(case.queries);
            let buffers = Buffers::of(case.job, inputs);
            let read = inputs.bytes(case.job);
            let (result, work) = (buffers.bytes_result(), buffers.bytes_work());
            let bytes = [read, result, work, read + result + work];
            let cells = bytes.iter().map(usize::to_string);
            let start = [case.name.to_owned(), inputs.depth.to_string()];
            table.row(start.into_iter().chain(cells));
        }
    }
    table
}
