//! `compare_listing` agrees with a right program and finds a wrong one.

use std::path::Path;
use std::process::{Command, Output};

fn compare(program: &str, arguments: &[&str]) -> Output {
    let folder = Path::new(env!("CARGO_TARGET_TMPDIR"));
    Command::new(env!("CARGO_BIN_EXE_compare_listing"))
        .arg(program)
        .args(arguments)
        .current_dir(folder)
        .output()
        .unwrap()
}

fn printed(output: &Output) -> String {
    String::from_utf8(output.stdout.clone()).unwrap()
}

#[test]
fn a_right_program() {
    let output = compare(env!("CARGO_BIN_EXE_list"), &["40", "5"]);
    assert_eq!(printed(&output), "40 listings agree (seed 5)\n");
    assert!(output.status.success());
}

#[test]
fn the_seed_is_fixed_where_none_is_given() {
    let output = compare(env!("CARGO_BIN_EXE_list"), &["3"]);
    assert_eq!(printed(&output), "3 listings agree (seed 2055)\n");
}

/// `make_samples` without a folder prints nothing on its standard output.
#[test]
fn a_wrong_program() {
    let output = compare(env!("CARGO_BIN_EXE_make_samples"), &["40", "6"]);
    assert_eq!(output.status.code(), Some(1));
    let printed = printed(&output);
    assert!(printed.starts_with("seed 6, case 0 "), "{printed}");
    assert!(printed.contains("input written to difference-6-0.log\n"), "{printed}");
    let input = std::fs::read(Path::new(env!("CARGO_TARGET_TMPDIR")).join("difference-6-0.log")).unwrap();
    assert!(printed.contains(&oracle::listing::listing(&input)));
}

#[test]
fn no_program() {
    let output = compare("no-such-program", &["2", "1"]);
    assert_eq!(output.status.code(), Some(1));
    assert!(printed(&output).contains("(not started: "));
}
