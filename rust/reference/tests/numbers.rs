//! The order's numbers to try, on the reference.

use tvarchula_reference::{numbers, Reference};

#[test]
fn ground() {
    numbers::ground::<Reference>();
}

#[test]
fn code() {
    numbers::code::<Reference>();
}

#[test]
fn opening() {
    numbers::opening::<Reference>();
}
