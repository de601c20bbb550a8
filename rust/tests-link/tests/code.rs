//! The linked library compared with the reference.
#![cfg(feature = "code")]

use tvarchula_compare::linked::Linked;
use tvarchula_compare::{run, scale, sweep, Comparison};
use tvarchula_reference::{numbers, Field, Reference};

fn compared(title: &str, sweep: impl Fn(&mut Comparison) -> sweep::Swept) -> Comparison {
    let mut comparison = Comparison::new(run::code::<Linked>, run::code::<Reference>);
    if let Err(difference) = sweep(&mut comparison) {
        panic!("library and reference differ:\n{difference}");
    }
    comparison
        .tally
        .print(&format!("{title}, library with reference"));
    comparison
}

fn all_sizes(field: Field) {
    let sweep = |c: &mut Comparison| sweep::code::run(c, field, scale());
    let c = compared(&format!("code, {field:?} field"), sweep);
    assert_eq!(c.tally.missing(), []);
}

#[test]
fn all_sizes_of_the_first_field() {
    all_sizes(Field::First);
}

#[test]
fn all_sizes_of_the_second_field() {
    all_sizes(Field::Second);
}

#[test]
fn sixteen() {
    for field in Field::ALL {
        let title = format!("code at depth 16, {field:?} field");
        compared(&title, |c| sweep::code::sixteen(c, field));
    }
}

#[test]
fn deep() {
    for field in Field::ALL {
        let title = format!("code once deep, {field:?} field");
        compared(&title, |c| sweep::code::deep(c, field));
    }
}

#[test]
fn filling() {
    let c = compared("filling", |c| {
        sweep::fill::run(c, scale())?;
        sweep::fill::deep(c)
    });
    assert_eq!(c.tally.missing(), []);
}

#[test]
fn numbers_of_the_order() {
    numbers::code::<Linked>();
}
