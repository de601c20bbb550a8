//! Times the static library against plain Rust over both fields and prints the tables as one Markdown document.
//!
//! `--quick` takes few samples, to see that everything runs and that both sides write the same
//! words. `--depths 10,14,16` names the depths, each 1 to 20; `--rate 8` the rate, 2 to 16.

mod report;

use std::process::ExitCode;
use tvarchula_bench::timing::measure::Plan;
use tvarchula_bench::timing::options::{depths, number};

const USAGE: &str = "usage: tvarchula-bench [--quick] [--rate 8] [--depths 10,14,16]";

/// What is measured, and where.
struct Options {
    plan: Plan,
    rate: usize,
    depths: Vec<usize>,
}

fn main() -> ExitCode {
    match options(std::env::args().skip(1)) {
        Some(options) => {
            report::print(options.plan, options.rate, &options.depths);
            ExitCode::SUCCESS
        }
        None => {
            eprintln!("{USAGE}");
            ExitCode::FAILURE
        }
    }
}

fn options(mut arguments: impl Iterator<Item = String>) -> Option<Options> {
    let mut options = Options {
        plan: Plan::FULL,
        rate: 8,
        depths: vec![10, 14, 16],
    };
    while let Some(argument) = arguments.next() {
        match argument.as_str() {
            "--quick" => options.plan = Plan::QUICK,
            "--rate" => options.rate = number(&arguments.next()?, 2..=16)?,
            "--depths" => options.depths = depths(&arguments.next()?)?,
            _ => return None,
        }
    }
    Some(options)
}
