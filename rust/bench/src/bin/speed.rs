//! Times encoding and folding against ordinary Rust that is written for speed, and prints one Markdown document.
//!
//! Beside both stand, as the limit, the same Rust built for the machine at hand (with the feature `native`) and a copy
//! of the words. `--quick` takes few samples, `--depths 10,14,18` names the depths, each 1 to 20; the rate is 8.

use std::hint::black_box;
use std::process::ExitCode;
#[cfg(native)]
use tvarchula_bench::coding::by_native;
use tvarchula_bench::coding::{by_copy, by_jobs, by_ordinary, products, Coding};
use tvarchula_bench::ordinary::{BabyBear, Mersenne31};
use tvarchula_bench::plain::{Barrett, Mersenne};
use tvarchula_bench::timing::measure::{least, measure, median, ratios, Plan, Samples, Side};
use tvarchula_bench::timing::{machine, micros, options, ratio, table::Table};
use tvarchula_bench::{Buffers, Inputs, Job, Library, Sizes, TV_FIELD_1, TV_FIELD_2};

const USAGE: &str = "usage: speed [--quick] [--depths 10,14,18]";

const TIMES: &str = "\
One call of the library and of ordinary Rust: the same encoder and the same fold, with base messages of one word, written in safe Rust
for speed and not after the library. Both refuse the same inputs before they write anything. Microseconds of the thread's processor time, the
median and the least of all samples. A ratio is the median of the samples' ratios with its quartiles; behind it stands the ratio of the two
least times. All sides of a row take turns in one program, on the same inputs and in the same lent buffers. No buffer is cleared: before each
sample, outside the time, the result is filled with words that mean nothing and the call is made up to four times; within a sample a call meets
what the call before left there.";
const LIMITS: &str = "\
What the machine could do, in the samples of the table above. `native` is the same ordinary Rust built with `-C target-cpu=native`, while the library
and the column `ordinary` above are for the least x86-64. `copy` copies the words that the call reads onto its result, slice by slice, and
computes nothing: t, t2 and the message for an encoding, both halves of the block, t and t2 for a fold.";
const NO_NATIVE: &str = "\
There is no `native` here: this program was built without the feature `native`, or the compiler could not build for the machine at hand.";
const PRODUCTS: &str = "\
Millions of products modulo p in a second of the median time, in brackets of the least. Counted by the code's definition, not by what a side
really multiplies: encoding has one product for each word of the base blocks and two for each pair of words that a level joins, folding has three for an inverse among
many and two for a line. Tests of words are part of the time and have no product.";

const LIBRARY: usize = 0;
const ORDINARY: usize = 1;
const COPY: usize = 2;
/// Where it could be built.
const NATIVE: usize = 3;
const SIDES: usize = 3 + cfg!(native) as usize;

const RATE: usize = 8;

/// A job over a field: its names, its inputs at all depths, and its sides.
struct Case {
    job: Job,
    names: [&'static str; 2],
    drawn: fn(Sizes, usize) -> Inputs,
    sides: [Coding; SIDES],
}

const FIRST: Case = Case {
    job: Job::Encode,
    names: ["encode", "first"],
    drawn: Inputs::drawn::<Mersenne>,
    sides: [
        by_jobs::<Library<TV_FIELD_1>>,
        by_ordinary::<Mersenne31>,
        by_copy,
        #[cfg(native)]
        by_native::<TV_FIELD_1>,
    ],
};

const SECOND: Case = Case {
    job: Job::Encode,
    names: ["encode", "second"],
    drawn: Inputs::drawn::<Barrett>,
    sides: [
        by_jobs::<Library<TV_FIELD_2>>,
        by_ordinary::<BabyBear>,
        by_copy,
        #[cfg(native)]
        by_native::<TV_FIELD_2>,
    ],
};

const CASES: [Case; 4] = [
    FIRST,
    SECOND,
    Case {
        job: Job::Fold,
        names: ["fold", "first"],
        ..FIRST
    },
    Case {
        job: Job::Fold,
        names: ["fold", "second"],
        ..SECOND
    },
];

/// What is measured of a case at one depth.
struct Row<'a> {
    case: &'a Case,
    inputs: Inputs,
    samples: Samples<SIDES>,
}

fn main() -> ExitCode {
    match told(std::env::args().skip(1)) {
        Some((plan, depths)) => {
            print(plan, &depths);
            ExitCode::SUCCESS
        }
        None => {
            eprintln!("{USAGE}");
            ExitCode::FAILURE
        }
    }
}

fn told(mut arguments: impl Iterator<Item = String>) -> Option<(Plan, Vec<usize>)> {
    let (mut plan, mut depths) = (Plan::FULL, vec![10, 14, 18]);
    while let Some(argument) = arguments.next() {
        match argument.as_str() {
            "--quick" => plan = Plan::QUICK,
            "--depths" => depths = options::depths(&arguments.next()?)?,
            _ => return None,
        }
    }
    Some((plan, depths))
}

fn print(plan: Plan, depths: &[usize]) {
    let of_case = |case| depths.iter().map(move |&depth| Row::new(case, depth));
    let mut rows: Vec<Row<'_>> = CASES.iter().flat_map(of_case).collect();
    for _ in 0..plan.rounds {
        for row in &mut rows {
            row.add(plan);
        }
    }
    let (samples, rounds) = (plan.rounds * plan.samples, plan.rounds);
    let machine = machine::line("ordinary Rust");
    println!("{machine} Rate {RATE}. {samples} samples in {rounds} rounds.\n");
    println!("### Beside ordinary Rust\n\n{TIMES}\n\n{}", times(&rows));
    println!("### The limit\n\n{LIMITS}");
    if cfg!(not(native)) {
        println!("{NO_NATIVE}");
    }
    println!("\n{}", limits(&rows));
    print!("### Products\n\n{PRODUCTS}\n\n{}", speeds(&rows));
}

impl Row<'_> {
    fn new(case: &Case, depth: usize) -> Row<'_> {
        let inputs = (case.drawn)(Sizes { depth, rate: RATE }, 0);
        alike(case, &inputs);
        Row {
            case,
            inputs,
            samples: Samples::new(),
        }
    }

    /// One round.
    fn add(&mut self, plan: Plan) {
        let (job, inputs) = (self.case.job, &self.inputs);
        let sides = self.case.sides.map(|side| {
            move |buffers: &mut Buffers| {
                black_box(side(job, black_box(inputs), buffers));
            }
        });
        let sides = sides.each_ref().map(|side| side as Side<'_>);
        let samples = measure(plan, &mut Buffers::of(job, inputs), sides);
        self.samples.extend(samples);
    }

    /// Job, field and depth.
    fn start(&self) -> Vec<String> {
        let [job, field] = self.case.names;
        vec![
            job.to_owned(),
            field.to_owned(),
            self.inputs.depth.to_string(),
        ]
    }

    /// Median and least time.
    fn time(&self, side: usize) -> [String; 2] {
        [median(&self.samples, side), least(&self.samples, side)].map(micros)
    }

    /// One side's time by another's.
    fn ratio(&self, side: usize, other: usize) -> String {
        ratio(ratios(&self.samples, side, other))
    }

    /// The same of the least times.
    fn of_the_least(&self, side: usize, other: usize) -> String {
        let [of, by] = [side, other].map(|side| least(&self.samples, side));
        format!("{:.2}", of / by)
    }
}

/// Stops the program where a side refuses or writes other words than the library.
fn alike(case: &Case, inputs: &Inputs) {
    let written = case.sides.map(|side| {
        let mut buffers = Buffers::of(case.job, inputs);
        let number = side(case.job, inputs, &mut buffers);
        assert_eq!(number, 0, "{:?} at depth {}", case.job, inputs.depth);
        buffers
    });
    let others = (0..SIDES).filter(|&side| side != COPY);
    for side in others {
        let same = written[side] == written[LIBRARY];
        assert!(
            same,
            "{:?} at depth {}: other words",
            case.job, inputs.depth
        );
    }
}

fn times(rows: &[Row<'_>]) -> Table {
    let mut table = Table::new([
        "job",
        "field",
        "depth",
        "library",
        "least",
        "ordinary",
        "least",
        "library / ordinary",
        "of the least",
    ]);
    for row in rows {
        let mut cells = row.start();
        cells.extend(row.time(LIBRARY));
        cells.extend(row.time(ORDINARY));
        cells.push(row.ratio(LIBRARY, ORDINARY));
        cells.push(row.of_the_least(LIBRARY, ORDINARY));
        table.row(cells);
    }
    table
}

fn limits(rows: &[Row<'_>]) -> Table {
    let named = [(NATIVE, "native"), (COPY, "copy")];
    let named = named.into_iter().filter(|(side, _)| *side < SIDES);
    let mut heads = ["job", "field", "depth"].map(str::to_owned).to_vec();
    for (_, name) in named.clone() {
        heads.extend([name.to_owned(), "least".to_owned()]);
        heads.extend([format!("{name} / library"), "of the least".to_owned()]);
    }
    let mut table = Table::new(heads);
    for row in rows {
        let mut cells = row.start();
        for (side, _) in named.clone() {
            cells.extend(row.time(side));
            cells.push(row.ratio(side, LIBRARY));
            cells.push(row.of_the_least(side, LIBRARY));
        }
        table.row(cells);
    }
    table
}

fn speeds(rows: &[Row<'_>]) -> Table {
    let named = [
        (LIBRARY, "library"),
        (ORDINARY, "ordinary"),
        (NATIVE, "native"),
    ];
    let named = named.into_iter().filter(|(side, _)| *side < SIDES);
    let heads = ["job", "field", "depth", "products"].into_iter();
    let mut table = Table::new(heads.chain(named.clone().map(|(_, name)| name)));
    for row in rows {
        let products = products(row.case.job, &row.inputs);
        // Products in a nanosecond are thousands of millions in a second.
        let speed = |nanos: f64| 1000.0 * products as f64 / nanos;
        let mut cells = row.start();
        cells.push(products.to_string());
        cells.extend(named.clone().map(|(side, _)| {
            let times = [median(&row.samples, side), least(&row.samples, side)];
            let [median, least] = times.map(speed);
            format!("{median:.0} ({least:.0})")
        }));
        table.row(cells);
    }
    table
}
