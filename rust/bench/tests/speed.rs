//! The second program runs, compares its sides before it measures, and tells what it has not.

use std::process::{Command, Output};

fn speed(arguments: &[&str]) -> Output {
    let mut program = Command::new(env!("CARGO_BIN_EXE_speed"));
    program.args(arguments).output().expect("it starts")
}

#[test]
fn prints_all_tables() {
    let output = speed(&["--quick", "--depths", "1,10"]);
    assert!(output.status.success(), "{output:?}");
    let text = String::from_utf8(output.stdout).expect("it prints text");
    let rows = text.lines().filter(|line| line.starts_with("| "));
    // In each of three tables the heads and two jobs of two fields at two depths.
    assert_eq!(rows.count(), 3 * (1 + 2 * 2 * 2));
    let missing = text.contains("There is no `native` here");
    assert_eq!(missing, cfg!(not(native)));
    // (1 + 10) 8 2^10, and 5 8 2^9.
    assert!(text.contains(" 90112 |") && text.contains(" 20480 |"));
}

#[test]
fn refuses_other_arguments() {
    for wrong in [
        &["--depths", "0"][..],
        &["--depths"],
        &["--rate", "8"],
        &["10"],
    ] {
        assert!(!speed(wrong).status.success());
    }
}
