//! Failures of the system: the message names the file, nothing is lost, and nothing is left behind.

mod common;

use common::{check, check_refuses, folder, names, output, program, run, text, HELD, ORDER};
use std::fs::{self, File};
use std::path::Path;
use std::process::{Command, Stdio};

#[test]
fn where_no_file_can_be_its_name_is_told() {
    let folder = folder("no_file");
    check_refuses(&folder, "this is not a plain file");
    check_refuses(Path::new("/dev/full"), "this is not a plain file");
    let missing = "its folder cannot be opened: No such file or directory (os error 2)";
    check_refuses(&folder.join("missing/register.txt"), missing);
    let long = folder.join("x".repeat(256));
    check_refuses(&long, "cannot be found: File name too long (os error 36)");
    let no_room = folder.join("x".repeat(255));
    let reason = "no new file can be made beside it: File name too long (os error 36)";
    check_refuses(&no_room, reason);
    assert_eq!(names(&folder), [""; 0]);

    let file = folder.join("register.txt");
    fs::write(&file, HELD).expect("the file is written");
    let below = "cannot be found: Not a directory (os error 20)";
    check_refuses(&file.join("register.txt"), below);
    assert_eq!(names(&folder), ["register.txt"]);
    assert_eq!(text(&file), HELD);
}

/// The program on this file, which may write to no file: it has no room.
fn without_room(file: &Path) -> Command {
    let mut shell = Command::new("sh");
    shell.args(["-c", "trap '' XFSZ; ulimit -f 0; exec \"$0\" \"$1\""]);
    shell.arg(env!("CARGO_BIN_EXE_order_system")).arg(file);
    shell.stdout(Stdio::piped());
    shell
}

#[test]
fn where_nothing_can_be_written_the_book_is_as_it_was() {
    let folder = folder("no_room");
    let file = folder.join("register.txt");
    let reason = "no new file can be written beside it: File too large (os error 27)";
    let path = file.display();
    let complaint = format!("order_system: {path}: {reason}\n");
    check(&output(&mut without_room(&file), ORDER), "", &complaint, 1);
    assert_eq!(names(&folder), [""; 0]);

    fs::write(&file, HELD).expect("the file is written");
    let complaint = format!("order_system: line 2 is not settled: {path}: {reason}\n");
    let input = format!("# an order\n{ORDER}{ORDER}");
    let held = "1 plans are held\n";
    check(
        &output(&mut without_room(&file), &input),
        held,
        &complaint,
        1,
    );
    assert_eq!(text(&file), HELD);
    assert_eq!(names(&folder), ["register.txt"]);
}

#[test]
fn where_standard_output_is_full_it_is_told() {
    let file = folder("full_output").join("register.txt");
    let full = || {
        File::options()
            .write(true)
            .open("/dev/full")
            .expect("a device")
    };
    let output = output(program(&file).stdout(full()), ORDER);
    let reason = "standard output: No space left on device (os error 28)";
    check(&output, "", &format!("order_system: {reason}\n"), 1);

    let mut help = Command::new(env!("CARGO_BIN_EXE_order_system"));
    let output = help
        .arg("--help")
        .stdout(full())
        .output()
        .expect("it starts");
    check(&output, "", &format!("order_system: {reason}\n"), 1);
}

#[test]
fn where_standard_input_cannot_be_read_it_is_told() {
    let folder = folder("no_input");
    let mut program = program(&folder.join("register.txt"));
    program.stdin(File::open(&folder).expect("a folder"));
    let output = program.output().expect("it starts");
    let told = "standard input, line 1: Is a directory (os error 21)";
    let complaint = format!("order_system: {told}\n");
    check(&output, "0 plans are held\n", &complaint, 1);
}

#[test]
fn after_a_failure_the_next_run_goes_on() {
    let file = folder("next_run").join("register.txt");
    output(&mut without_room(&file), ORDER);
    let printed = String::from_utf8(run(&file, ORDER).stdout).expect("text");
    let answer = "line 1: [2, 2, 3, 2, 3, 1] charged to client 1, at place 1\n";
    assert!(printed.contains(answer), "{printed}");
    assert_eq!(text(&file), HELD);
}
