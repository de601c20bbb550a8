//! Compares the linked library with the reference at the largest depth and tells what each call took.
//!
//! `--fields 2` names one field alone; `--depths 16,20` other depths, each 1 to the largest, and then
//! shows how the times grow; `--rates 2,8,16` the rates; `--k0 1,2,4` the words of base messages. With 2 and 4
//! of them the depth is one and two less, so that messages and blocks are as long. Times are those of the
//! library's call by the wall clock.

use std::ops::RangeInclusive;
use std::process::ExitCode;
use tvarchula_compare::large::{growth, run, Line, Sizes, HEADS};
use tvarchula_compare::linked::Linked;
use tvarchula_compare::run::any;
use tvarchula_reference::{Field, Reference};
use tvarchula_sys::{TV_MAX_DEPTH, TV_MAX_RATE, TV_MIN_RATE};

const USAGE: &str = "usage: largest [--fields 1,2] [--depths 16,20] [--rates 2,8,16] [--k0 1,2,4]";

fn main() -> ExitCode {
    let Some((fields, sizes)) = options(std::env::args().skip(1)) else {
        eprintln!("{USAGE}");
        return ExitCode::FAILURE;
    };
    println!("{HEADS}");
    let mut lines = Vec::new();
    let mut tell = |line: &Line| {
        println!("{line}");
        lines.push(*line);
    };
    let sides = [any::<Linked>, any::<Reference>];
    for field in fields {
        let field = Field::ALL[field - 1];
        if let Err(difference) = run(sides, field, &sizes, &mut tell) {
            eprintln!("library and reference differ:\n{difference}");
            return ExitCode::FAILURE;
        }
    }
    for growth in growth(&lines) {
        println!("{growth}");
    }
    ExitCode::SUCCESS
}

/// Fields and sizes.
fn options(mut arguments: impl Iterator<Item = String>) -> Option<(Vec<usize>, Sizes)> {
    let mut fields = vec![1, 2];
    let mut sizes = Sizes {
        variables: vec![TV_MAX_DEPTH as usize],
        rates: vec![2, 8, 16],
        k0s: vec![1, 2, 4],
    };
    while let Some(argument) = arguments.next() {
        match argument.as_str() {
            "--field" | "--fields" => fields = numbers(&arguments.next()?, 1..=2)?,
            "--depth" | "--depths" => {
                sizes.variables = numbers(&arguments.next()?, 1..=TV_MAX_DEPTH)?;
            }
            "--rate" | "--rates" => {
                sizes.rates = numbers(&arguments.next()?, TV_MIN_RATE..=TV_MAX_RATE)?;
            }
            "--k0" => {
                sizes.k0s = numbers(&arguments.next()?, 1..=4)?;
                if sizes.k0s.contains(&3) {
                    return None;
                }
            }
            _ => return None,
        }
    }
    Some((fields, sizes))
}

/// Numbers between commas, each legal.
fn numbers(text: &str, legal: RangeInclusive<u32>) -> Option<Vec<usize>> {
    let number = |part: &str| {
        let number = part.parse().ok().filter(|number| legal.contains(number));
        number.map(|number| number as usize)
    };
    text.split(',').map(number).collect()
}
