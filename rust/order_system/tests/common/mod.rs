//! What several tests share.
//!
//! | module    | what                                                        |
//! |-----------|-------------------------------------------------------------|
//! | `book`    | calls on a book, and a lock on it                           |
//! | `orders`  | orders drawn at random, and what the program answers them   |
//! | `running` | the program, fed and read line by line, and killed          |
//! | `tally`   | what was answered, summed up and compared with the register |
#![allow(dead_code)]

pub mod book;
pub mod orders;
pub mod running;
pub mod tally;

use order_system::Book;
use std::fs;
use std::io::Write;
use std::path::{Path, PathBuf};
use std::process::{Command, Output, Stdio};

pub const ORDERS: &str = include_str!("../../../../examples/orders.txt");

/// An order of the plan 223/231 by client 1.
pub const ORDER: &str = "enter 1 2 2 3 2 3 1\n";

/// What a new book holds after that order.
pub const HELD: &str = "     2     3     3     3     1
  1  2  3  3  2  2  1  0  0  0  0  0  0  0
                                          
                                          \n";

/// A new temporary folder of this name.
pub fn folder(name: &str) -> PathBuf {
    let folder = Path::new(env!("CARGO_TARGET_TMPDIR")).join(name);
    let _ = fs::remove_dir_all(&folder);
    fs::create_dir_all(&folder).expect("the folder is made");
    folder
}

/// The names in a folder, sorted.
pub fn names(folder: &Path) -> Vec<String> {
    let entries = fs::read_dir(folder).expect("the folder is read");
    let names = entries.map(|entry| entry.expect("an entry").file_name());
    let mut names: Vec<String> = names
        .map(|name| name.into_string().expect("a plain name"))
        .collect();
    names.sort();
    names
}

pub fn text(file: &Path) -> String {
    fs::read_to_string(file).expect("the file is read")
}

/// A new book of the program's plans in this file, with more room.
pub fn roomy_book(file: &Path) -> Book {
    Book::open_or_create(file, 2, 3, 3, 40).expect("the book is made")
}

/// The program on this file.
pub fn program(file: &Path) -> Command {
    let mut program = Command::new(env!("CARGO_BIN_EXE_order_system"));
    program.arg(file);
    program
}

/// Runs a command with this input, which may have more bytes than a pipe takes.
pub fn output(command: &mut Command, input: &str) -> Output {
    let command = command.stdin(Stdio::piped()).stderr(Stdio::piped());
    let mut child = command.spawn().expect("the program starts");
    let mut stdin = child.stdin.take().expect("a pipe");
    let input = input.to_string();
    // The program may end before it has read all.
    let feeding = std::thread::spawn(move || stdin.write_all(input.as_bytes()));
    let output = child.wait_with_output().expect("the program ends");
    let _ = feeding.join().expect("no panic");
    output
}

pub fn run(file: &Path, input: &str) -> Output {
    output(program(file).stdout(Stdio::piped()), input)
}

/// Checks what a run printed on both outputs, and its status.
pub fn check(output: &Output, stdout: &str, stderr: &str, status: i32) {
    assert_eq!(String::from_utf8_lossy(&output.stderr), stderr);
    assert_eq!(String::from_utf8_lossy(&output.stdout), stdout);
    assert_eq!(output.status.code(), Some(status));
}

/// Checks that the program fails on this file before any order, and says this of it.
pub fn check_refuses(file: &Path, reason: &str) {
    let complaint = format!("order_system: {}: {reason}\n", file.display());
    check(&run(file, ORDER), "", &complaint, 1);
}
