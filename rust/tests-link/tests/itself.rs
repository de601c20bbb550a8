//! The reference compared with itself: shows that the sweeps reach every number of every job, and with 4
//! every input, so that an agreement with the library means something.

use tvarchula_compare::{run, scale, sweep, Comparison, Job, Runner, Tally};
use tvarchula_reference::{Field, Reference};

fn swept(title: &str, runner: Runner, field: Field, sweeps: &[Sweep]) -> Tally {
    let mut comparison = Comparison::new(runner, runner);
    // Depth 16, which takes longest, is the same question in both fields.
    let count = if field == Field::First {
        sweeps.len()
    } else {
        1
    };
    for sweep in &sweeps[..count] {
        if let Err(difference) = sweep(&mut comparison, field) {
            panic!("{difference}");
        }
    }
    let title = format!("{title}, {field:?} field, reference with itself");
    comparison.tally.print(&title);
    assert_eq!(comparison.tally.missing(), []);
    comparison.tally
}

type Sweep = fn(&mut Comparison, Field) -> sweep::Swept;

#[test]
fn ground() {
    let sweeps: [Sweep; 2] = [
        |c, field| sweep::ground::run(c, field, scale()),
        sweep::ground::sixteen,
    ];
    for field in Field::ALL {
        let tally = swept("ground", run::ground::<Reference>, field, &sweeps);
        assert_eq!(tally.places(Job::ReadClearance, 4), 1);
        for job in [Job::CoefficientsToTable, Job::Evaluate] {
            assert!(tally.places(job, 4) >= 30);
        }
    }
}

fn code(field: Field) {
    let sweeps: [Sweep; 2] = [
        |c, field| sweep::code::run(c, field, scale()),
        sweep::code::sixteen,
    ];
    let tally = swept("code", run::code::<Reference>, field, &sweeps);
    for job in [Job::Encode, Job::Decode, Job::Fold] {
        assert!(tally.places(job, 4) >= 100 && tally.places(job, 6) >= 40);
    }
    for job in [Job::Encode, Job::Decode] {
        assert_eq!(tally.places(job, 5), 16);
    }
}

#[test]
fn code_of_the_first_field() {
    code(Field::First);
}

#[test]
fn code_of_the_second_field() {
    code(Field::Second);
}

fn opening(field: Field) {
    let sweeps: [Sweep; 2] = [
        |c, field| sweep::opening::run(c, field, scale()),
        sweep::opening::sixteen,
    ];
    let tally = swept("opening", run::opening::<Reference>, field, &sweeps);
    // Not only the first round, place, query or level fails.
    let places = |number| tally.places(Job::VerifyOpening, number);
    assert!(places(20) >= 10 && places(22) >= 16 && places(23) >= 50);
    for job in [Job::WriteOpening, Job::VerifyOpening] {
        assert!(tally.places(job, 4) >= 150 && tally.places(job, 6) >= 40);
        assert_eq!(tally.places(job, 5), 16);
    }
}

#[test]
fn opening_of_the_first_field() {
    opening(Field::First);
}

#[test]
fn opening_of_the_second_field() {
    opening(Field::Second);
}

#[test]
fn filling() {
    let sweeps: [Sweep; 1] = [|c, _| sweep::fill::run(c, scale())];
    swept("filling", run::code::<Reference>, Field::Second, &sweeps);
}
