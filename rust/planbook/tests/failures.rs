//! Standard input or output that fails, or is not ready: nothing is lost, or it is said so.

use planbook::lines::line_1;
use planbook::outputs::refusal;
use planbook::program::program;
use planbook::whole::is_whole;
use reference::planbook::transcript;
use std::fs::{File, OpenOptions};
use std::io::{Read, Write};
use std::os::fd::OwnedFd;
use std::os::unix::net::UnixStream;
use std::process::{Command, Output, Stdio};
use std::thread;
use std::time::Duration;

/// The input of the printed run, as request 4 makes it.
const INPUT: &[u8] = include_bytes!("../../../crates/planbook/stdin");

/// Longer than the program waits between two tries.
const PAUSE: Duration = Duration::from_millis(70);

const UNREAD: &str = "planbook: standard input could not be read, nothing is printed: ";
const UNWRITTEN: &str =
    "planbook: standard output could not be written, what was printed is not whole: ";

/// Runs the program by a shell, which sets up what the commands before it say.
fn by_shell(commands: &str, input: Stdio) -> Output {
    let mut shell = Command::new("/bin/sh");
    shell.arg("-c").arg(commands).arg(program()).stdin(input);
    shell.output().expect("the shell starts")
}

fn check_unread(output: &Output, why: &str) {
    assert_eq!(output.stdout, b"");
    assert_eq!(error(output), format!("{UNREAD}{why}\n"));
    assert_eq!(output.status.code(), Some(1));
}

fn check_unwritten(output: &Output, why: &str) {
    assert_eq!(error(output), format!("{UNWRITTEN}{why}\n"));
    assert_eq!(output.status.code(), Some(1));
}

fn check_whole(output: &Output) {
    assert_eq!(error(output), "");
    assert_eq!(output.status.code(), Some(0));
}

fn error(output: &Output) -> String {
    String::from_utf8_lossy(&output.stderr).into_owned()
}

#[test]
fn standard_input_is_closed() {
    let output = by_shell("exec \"$0\" <&-", Stdio::null());
    check_unread(&output, "Bad file descriptor");
}

#[test]
fn standard_input_is_a_folder() {
    let folder = File::open("/").expect("the folder opens");
    check_unread(&by_shell("exec \"$0\"", folder.into()), "Is a directory");
}

#[test]
fn nothing_is_printed_for_a_part_of_the_orders() {
    let (mut ours, theirs) = UnixStream::pair().expect("a pair of sockets");
    ours.write_all(INPUT).expect("the orders are sent");
    // What is sent back and never read makes the end of the input a failure.
    let mut back = theirs.try_clone().expect("the socket is cloned");
    back.write_all(b"unread").expect("bytes are sent back");
    drop((ours, back));
    let output = by_shell("exec \"$0\"", OwnedFd::from(theirs).into());
    check_unread(&output, "Connection reset by peer");
}

#[test]
fn standard_input_is_not_ready() {
    let (mut ours, theirs) = UnixStream::pair().expect("a pair of sockets");
    theirs.set_nonblocking(true).expect("the socket is set");
    let sent = thread::spawn(move || {
        for piece in INPUT.chunks(40) {
            thread::sleep(PAUSE);
            ours.write_all(piece).expect("the orders are sent");
        }
    });
    let output = by_shell("exec \"$0\"", OwnedFd::from(theirs).into());
    sent.join().expect("all is sent");
    check_whole(&output);
    assert!(output.stdout == transcript(INPUT));
}

/// The longest output of all: a line for each of some 65,000 empty ones.
fn longest() -> Vec<u8> {
    [line_1([1, 1, 0, 1]), vec![b'\n'; 65_000]].concat()
}

#[test]
fn standard_output_is_not_ready() {
    let (mut ours, theirs) = UnixStream::pair().expect("a pair of sockets");
    theirs.set_nonblocking(true).expect("the socket is set");
    let mut command = Command::new(program());
    command.stdin(Stdio::piped()).stderr(Stdio::piped());
    let mut child = command
        .stdout(OwnedFd::from(theirs))
        .spawn()
        .expect("it starts");
    drop(command);
    let input = longest();
    let mut stdin = child.stdin.take().expect("standard input is piped");
    stdin.write_all(&input).expect("the orders are sent");
    drop(stdin);
    let mut printed: Vec<u8> = Vec::new();
    let mut piece = [0; 200_000];
    loop {
        thread::sleep(PAUSE);
        match ours.read(&mut piece).expect("the output is read") {
            0 => break,
            read => printed.extend(&piece[..read]),
        }
    }
    let output = child.wait_with_output().expect("it ends");
    check_whole(&output);
    assert!(printed == transcript(&input));
}

#[test]
fn standard_output_is_full() {
    let full = OpenOptions::new()
        .write(true)
        .open("/dev/full")
        .expect("it opens");
    let mut command = Command::new(program());
    let output = command.stdin(Stdio::null()).stdout(full).output();
    let output = output.expect("the program starts");
    check_unwritten(&output, "No space left on device");
}

#[test]
fn standard_output_is_closed() {
    let output = by_shell("exec \"$0\" >&-", Stdio::null());
    check_unwritten(&output, "Bad file descriptor");
}

#[test]
fn nobody_reads_standard_output() {
    // whether or not the program is started with the signal for it ignored
    for commands in ["exec \"$0\"", "trap '' PIPE; exec \"$0\""] {
        let (ours, theirs) = UnixStream::pair().expect("a pair of sockets");
        drop(ours);
        let mut shell = Command::new("/bin/sh");
        shell.arg("-c").arg(commands).arg(program());
        let shell = shell.stdin(Stdio::null()).stdout(OwnedFd::from(theirs));
        let output = shell.output().expect("the shell starts");
        check_unwritten(&output, "Broken pipe");
    }
}

#[test]
fn an_empty_input_is_no_failure() {
    let output = by_shell("exec \"$0\"", Stdio::null());
    check_whole(&output);
    assert_eq!(output.stdout, refusal(12));
    assert!(is_whole(b"", &output.stdout));
}
