//! The built program's command line. Nothing is measured here.

use std::process::{Command, Output};

fn run(arguments: &[&str]) -> Output {
    let mut program = Command::new(env!("CARGO_BIN_EXE_benchmark"));
    let output = program.args(arguments).output();
    output.expect("the program starts")
}

/// What is printed. Checks that the program succeeds without an error.
fn printed(arguments: &[&str]) -> String {
    let output = run(arguments);
    assert!(output.status.success());
    assert_eq!(String::from_utf8_lossy(&output.stderr), "");
    String::from_utf8(output.stdout).expect("text is printed")
}

/// Checks that the program prints nothing, says this and ends with status 2.
fn check_error(arguments: &[&str], error: &str) {
    let output = run(arguments);
    assert_eq!(output.status.code(), Some(2));
    assert_eq!(String::from_utf8_lossy(&output.stdout), "");
    assert_eq!(String::from_utf8_lossy(&output.stderr), error);
}

#[test]
fn help_is_printed() {
    let help = printed(&["--help"]);
    assert_eq!(printed(&["-h"]), help);
    for word in ["Measures", "PART", "--times", "--list", "minutes"] {
        assert!(help.contains(word), "{word}");
    }
}

#[test]
fn names_are_listed() {
    assert_eq!(printed(&["--list"]).lines().count(), 66);
    let two = "represent: Fano 7x7\nopen: 2x3, capacity 500\n";
    assert_eq!(printed(&["--list", "Fano", "open: 2x3"]), two);
}

#[test]
fn errors_are_said() {
    let error = "benchmark: --time is no option; --help lists them\n";
    check_error(&["--time"], error);
    let error = "benchmark: no line's name has \"nought\"; --list lists them\n";
    check_error(&["Fano", "nought"], error);
    check_error(&["--list", "nought"], error);
}
