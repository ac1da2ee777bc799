//! The guide's caller of planbook, `orders`: it prints a whole output, or says why there is none.

use planbook::program::{program, root};
use std::fs;
use std::os::unix::fs::PermissionsExt;
use std::path::{Path, PathBuf};
use std::process::{Command, Output, Stdio};

/// The stored run, as request 4 makes it.
fn stored(name: &str) -> PathBuf {
    root().join("crates").join("planbook").join(name)
}

fn orders(planbook: &Path, file: &Path) -> Command {
    let mut command = Command::new(env!("CARGO_BIN_EXE_orders"));
    command.arg(planbook).arg(file);
    command
}

fn run(planbook: &Path, file: &Path) -> Output {
    orders(planbook, file).output().expect("orders starts")
}

/// A program in the place of planbook: these commands of a shell.
fn in_its_place(name: &str, commands: &str) -> PathBuf {
    let path = Path::new(env!("CARGO_TARGET_TMPDIR")).join(name);
    fs::write(&path, format!("#!/bin/sh\n{commands}\n")).expect("it is written");
    fs::set_permissions(&path, fs::Permissions::from_mode(0o755)).expect("it may be run");
    path
}

fn check_fails(output: &Output, file: &Path, why: &str) {
    assert_eq!(output.status.code(), Some(1));
    assert_eq!(output.stdout, b"");
    let error = String::from_utf8_lossy(&output.stderr);
    let last = error.lines().last().expect("it says why");
    assert_eq!(last, format!("orders: {}: {why}", file.display()));
}

const NOT_WHOLE: &str = "what planbook printed is not whole; charge nothing by it";

#[test]
fn a_whole_output_is_printed() {
    let output = run(&program(), &stored("stdin"));
    assert_eq!(String::from_utf8_lossy(&output.stderr), "");
    assert!(output.stdout == fs::read(stored("stdout")).expect("it is read"));
    assert_eq!(output.status.code(), Some(0));
}

#[test]
fn an_output_that_is_cut_is_not_printed() {
    let printed = stored("stdout").display().to_string();
    for (cut, name) in [(0, "none"), (19, "line"), (114, "answers"), (200, "most")] {
        let commands = format!("cat >/dev/null; head -c {cut} '{printed}'");
        let planbook = in_its_place(name, &commands);
        check_fails(
            &run(&planbook, &stored("stdin")),
            &stored("stdin"),
            NOT_WHOLE,
        );
    }
}

#[test]
fn a_planbook_that_fails_is_told() {
    let planbook = in_its_place("fails", "cat >/dev/null; exit 3");
    let output = run(&planbook, &stored("stdin"));
    check_fails(&output, &stored("stdin"), "planbook: exit status: 3");
    let missing = Path::new("/missing/planbook");
    let output = run(missing, &stored("stdin"));
    check_fails(
        &output,
        &stored("stdin"),
        "No such file or directory (os error 2)",
    );
}

#[test]
fn orders_that_cannot_be_read_are_told() {
    let missing = Path::new("/missing/orders.txt");
    let output = run(&program(), missing);
    check_fails(&output, missing, "No such file or directory (os error 2)");
    let folder = Path::new("/");
    let output = run(&program(), folder);
    check_fails(&output, folder, "Is a directory (os error 21)");
}

#[test]
fn an_output_that_cannot_be_written_is_told() {
    let file = stored("stdin");
    let full = fs::OpenOptions::new().write(true).open("/dev/full");
    let mut command = orders(&program(), &file);
    let command = command
        .stdout(full.expect("it opens"))
        .stderr(Stdio::piped());
    let output = command.output().expect("orders starts");
    check_fails(&output, &file, "No space left on device (os error 28)");
}

#[test]
fn too_long_an_input_is_answered() {
    let file = Path::new(env!("CARGO_TARGET_TMPDIR")).join("long.txt");
    fs::write(&file, vec![b'\n'; 2_000_000]).expect("it is written");
    let output = run(&program(), &file);
    assert_eq!(
        String::from_utf8_lossy(&output.stdout),
        "     0    11     0\n"
    );
    assert_eq!(output.status.code(), Some(0));
}

#[test]
fn two_arguments_are_asked_for() {
    for arguments in [&[][..], &["planbook"], &["planbook", "a", "b"]] {
        let mut command = Command::new(env!("CARGO_BIN_EXE_orders"));
        let output = command.args(arguments).output().expect("orders starts");
        assert_eq!(output.status.code(), Some(2));
        assert_eq!(output.stderr, b"usage: orders PLANBOOK FILE\n");
    }
}
