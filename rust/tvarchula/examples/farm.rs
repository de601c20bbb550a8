//! A planning farm: every thread works on a pattern of its own, with a table of 65536 clearances, one
//! for each layout. It commits to the table at rate 8, opens 100 of its entries, verifies each, and
//! goes on to the next pattern, four in all.
//!
//! `cargo run --release -p tvarchula --example farm` takes some seconds; `-- 8 10 2` is depth 8, 10
//! entries of each table and 2 tables a thread.
//!
//! The threads share the code, which nobody writes, and nothing else. So do machines of a farm.

mod toy;

use std::error::Error;
use std::thread;
use std::time::{Duration, Instant};
use toy::{corner, Row, Toy};
use tvarchula::*;

const FIELD: Field = Field::Mersenne31;
const RATE: u32 = 8;

/// What is done.
#[derive(Clone, Copy)]
struct Plan {
    depth: u32,
    entries: u32,
    patterns: u32,
}

impl Plan {
    /// As many different places as a call takes, or as there are.
    fn queries(self) -> usize {
        MAX_QUERIES.min(block_len(self.depth - 1, RATE))
    }
}

/// What one thread took.
#[derive(Default)]
struct Taken {
    commit: Duration,
    open: Duration,
    verify: Duration,
}

fn main() -> Result<(), Box<dyn Error>> {
    let mut arguments = std::env::args().skip(1);
    let mut number = |default| arguments.next().map_or(Ok(default), |word| word.parse());
    let plan = Plan {
        depth: number(16)?,
        entries: number(100)?,
        patterns: number(4)?,
    };
    if !(1..=MAX_DEPTH).contains(&plan.depth) || plan.entries == 0 || plan.patterns == 0 {
        return Err(format!("usage: farm [depth, 1 to {MAX_DEPTH}] [entries] [patterns]").into());
    }
    let row = Toy(2024).row(FIELD, plan.depth, RATE);
    let threads = thread::available_parallelism()?.get() as u32;
    let (layouts, patterns) = (message_len(plan.depth), threads * plan.patterns);
    println!("{patterns} tables of {layouts} layouts at rate {RATE}, on {threads} threads");

    let start = Instant::now();
    let taken: Vec<Taken> = thread::scope(|scope| {
        let row = &row;
        let spawn = |seed| scope.spawn(move || work_through(row, plan, u64::from(seed)));
        let started: Vec<_> = (0..threads).map(spawn).collect();
        let ended = started.into_iter().map(|thread| thread.join().unwrap());
        ended.collect::<Result<_, VerifyError>>()
    })?;
    let openings = patterns * plan.entries;
    let queries = plan.queries();
    println!("all {openings} openings accepted, {queries} queries each");
    println!("all of it took {:.2} s", start.elapsed().as_secs_f64());

    let line = |what: &str, count: u32, part: fn(&Taken) -> Duration| {
        let one = taken.iter().map(part).sum::<Duration>() / count;
        let a_second = 1.0 / one.as_secs_f64();
        println!("{what:<18} {one:>8.1?} each, {a_second:>8.1} a second and core");
    };
    line("tables committed", patterns, |taken| taken.commit);
    line("openings written", openings, |taken| taken.open);
    line("openings verified", openings, |taken| taken.verify);
    Ok(())
}

/// A thread's patterns, one after the other. All buffers are made once.
fn work_through(row: &Row, plan: Plan, seed: u64) -> Result<Taken, VerifyError> {
    let (code, depth) = (row.code(), plan.depth);
    let mut toy = Toy(seed);
    let mut message = vec![0; message_len(depth)];
    let mut commitment = vec![0; block_len(depth, RATE)];
    let mut opening = vec![0; opening_len(depth, RATE)];
    let mut work = vec![0; 2 * message_len(depth)];
    let mut taken = Taken::default();

    for _ in 0..plan.patterns {
        let clearances = clearances(&mut toy, depth);
        let start = Instant::now();
        table_to_coefficients(FIELD, &clearances, &mut message)?;
        encode(&code, &message, &mut commitment)?;
        taken.commit += start.elapsed();

        for _ in 0..plan.entries {
            // The cell's draws. A TOY: in service nobody may foresee r and queries, see `toy`.
            let entry = toy.below(1 << depth);
            let z = corner(entry, depth);
            let r = toy.list(depth as usize, FIELD.modulus());
            let queries = toy.places(plan.queries(), block_len(depth - 1, RATE) as u32);

            let start = Instant::now();
            let question = Question { z: &z, r: &r };
            let y = write_opening(&code, &message, &question, &mut opening, &mut work)?;
            taken.open += start.elapsed();

            let start = Instant::now();
            let claim = Claim {
                z: &z,
                y,
                r: &r,
                queries: &queries,
            };
            verify_opening(&code, &commitment, &claim, &opening)?;
            taken.verify += start.elapsed();

            let due = i64::from(clearances[entry as usize]);
            assert_eq!(
                read_clearance(FIELD, y)?.micrometres(),
                due,
                "entry {entry}"
            );
        }
    }
    Ok(taken)
}

/// A table: from a millimetre of overlap upwards.
fn clearances(toy: &mut Toy, depth: u32) -> Vec<i32> {
    let words = toy.list(message_len(depth), 100_000);
    words.into_iter().map(|word| word as i32 - 1000).collect()
}
