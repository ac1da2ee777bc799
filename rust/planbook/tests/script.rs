//! `scripts/planbook`, which a person runs: it prints whole outputs, and ends with a status.

use planbook::program::root;
use std::process::{Command, Output, Stdio};

/// What a shell does with these commands, in the repository's root.
fn shell(commands: &str) -> Output {
    let mut shell = Command::new("/bin/bash");
    let shell = shell.arg("-c").arg(commands).current_dir(root());
    shell.stdin(Stdio::null()).output().expect("it starts")
}

/// Checks what is printed and the status, and that standard error ends in this line.
fn check(commands: &str, printed: &str, status: i32, last: &str) {
    let output = shell(commands);
    let error = String::from_utf8_lossy(&output.stderr);
    assert_eq!(error.lines().last(), Some(last), "{commands}");
    assert_eq!(String::from_utf8_lossy(&output.stdout), printed);
    assert_eq!(output.status.code(), Some(status), "{commands}");
}

const BUILT: &str = "scripts/planbook: planbook is proved and built";

/// One test, since the script builds the program where it has to.
#[test]
fn whole_outputs_are_printed_and_others_are_told() {
    let input = include_str!("../../../examples/two_by_two.txt");
    let output = String::from_utf8(planbook::run(input.as_bytes())).expect("text");
    let script = "bash scripts/planbook";
    let file = "examples/two_by_two.txt";
    let both = format!("{file}:\n{input}prints:\n{output}");
    check(&format!("{script} {file}"), &both, 0, BUILT);
    check(&format!("{script} <{file}"), &output, 0, BUILT);
    check(
        &format!("{script} </"),
        "",
        1,
        "scripts/planbook: standard input could not be read; nothing is printed",
    );
    check(
        &format!("{script} missing.txt"),
        "",
        2,
        "scripts/planbook: missing.txt cannot be read",
    );
    check(
        &format!("{script} {file} >/dev/full"),
        "",
        1,
        "scripts/planbook: standard output could not be written; what was printed is not whole",
    );
    check(
        &format!("ulimit -s 1024; {script} {file}"),
        "",
        1,
        "scripts/planbook: the limit on the stack is 1024 KiB, and planbook takes some 1.5 MiB: \
         raise it, as by 'ulimit -s 8192'",
    );
}
