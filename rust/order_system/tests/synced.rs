//! What is on the disk before an answer is printed: the calls of the system, in order, as strace
//! shows them. `scripts/test` runs this where strace is installed and may look.

mod common;

use common::{folder, output, text, ORDER};
use std::path::Path;
use std::process::{Command, Stdio};

/// Runs the program with an order on a new book under strace. Returns its calls, a line each.
fn trace(folder: &Path) -> String {
    let trace = folder.join("trace");
    let mut strace = Command::new("strace");
    strace.args(["-y", "-e", "trace=fsync,linkat,rename,write", "-o"]);
    strace.arg(&trace).arg(env!("CARGO_BIN_EXE_order_system"));
    strace.arg(folder.join("register.txt"));
    strace.stdout(Stdio::piped()).stderr(Stdio::null());
    assert!(output(&mut strace, ORDER).status.success());
    text(&trace)
}

/// What a line of the trace is about; `None` where it does not matter.
fn step<'a>(line: &'a str, folder: &Path) -> Option<&'a str> {
    let is_of_folder = line.contains(&format!("<{}>)", folder.display()));
    match line.split_once('(')? {
        ("fsync", _) if is_of_folder => Some("the folder is synced"),
        ("fsync", rest) if rest.contains(".new>)") => Some("the new file is synced"),
        ("write", rest) if rest.starts_with("1<") => rest.split('"').nth(1)?.get(..6),
        ("linkat" | "rename", _) => line.split('(').next(),
        _ => None,
    }
}

#[test]
#[ignore = "needs strace"]
fn file_and_folder_are_synced_before_the_answer() {
    let folder = folder("synced").canonicalize().expect("a folder");
    let trace = trace(&folder);
    let steps: Vec<&str> = trace
        .lines()
        .filter_map(|line| step(line, &folder))
        .collect();
    let expected = [
        "the new file is synced",
        "linkat",
        "the folder is synced",
        "0 plan",
        "the new file is synced",
        "rename",
        "the folder is synced",
        "line 1",
        "[1, 2,",
    ];
    assert_eq!(steps, expected, "{trace}");
}
