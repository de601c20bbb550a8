//! The linked library compared with the reference.
#![cfg(feature = "opening")]

use tvarchula_compare::linked::Linked;
use tvarchula_compare::{run, scale, sweep, Comparison};
use tvarchula_reference::{numbers, Field, Reference};

fn compared(title: &str, sweep: impl Fn(&mut Comparison) -> sweep::Swept) -> Comparison {
    let mut comparison = Comparison::new(run::opening::<Linked>, run::opening::<Reference>);
    if let Err(difference) = sweep(&mut comparison) {
        panic!("library and reference differ:\n{difference}");
    }
    comparison
        .tally
        .print(&format!("{title}, library with reference"));
    comparison
}

fn all_sizes(field: Field) {
    let sweep = |c: &mut Comparison| sweep::opening::run(c, field, scale());
    let c = compared(&format!("opening, {field:?} field"), sweep);
    assert_eq!(c.tally.missing(), []);
}

#[test]
fn all_sizes_of_the_first_field() {
    all_sizes(Field::First);
}

#[test]
fn all_sizes_of_the_second_field() {
    all_sizes(Field::Second);
}

#[test]
fn sixteen() {
    for field in Field::ALL {
        let title = format!("opening at depth 16, {field:?} field");
        compared(&title, |c| sweep::opening::sixteen(c, field));
    }
}

#[test]
fn deep() {
    for field in Field::ALL {
        let title = format!("opening once deep, {field:?} field");
        compared(&title, |c| sweep::opening::deep(c, field));
    }
}

#[test]
fn numbers_of_the_order() {
    numbers::opening::<Linked>();
}
