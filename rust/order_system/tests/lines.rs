//! Lines that are no orders, and how the program is called.

mod common;

use common::{check, folder, program, run, text, HELD, ORDER};
use std::io::{BufRead, BufReader, Write};
use std::process::{Command, Output, Stdio};

const INPUT: &str = "
# a remark
  # another
enter 1 2 2 3 2 3 1
sell 1 2 2 3 2 3 1
enter
strike one 2 2 3 2 3 1
enter 1 2 2 3 2 3 256
enter 1 2 2 3 2 3 x
Enter 1 2 2 3 2 3 1
enter -1 2 2 3 2 3 1
enter 1 2 2 3 2 3
enter 1
enter 0 2 2 3 2 3 1
\t strike \t 2 1 2 3 3 2 2\r
enter 1 2 2 3 2 3 1";

const ANSWERS: &str = "\
0 plans are held
line 4: [2, 2, 3, 2, 3, 1] charged to client 1, at place 1
line 12: [2, 2, 3, 2, 3] refused: a slice has not its exact length (number 6)
line 13: [] refused: a slice has not its exact length (number 6)
line 14: [2, 2, 3, 2, 3, 1] refused: the client is not 1 to 8 (number 15)
line 15: [1, 2, 3, 3, 2, 2] not withdrawn by client 2: this client holds none of the class (number 10)
[1, 2, 3, 3, 2, 2] held by clients 1 to 8: [1, 0, 0, 0, 0, 0, 0, 0]
";

const COMPLAINTS: &str = r#"standard input, line 5: "sell" is neither enter nor strike
standard input, line 6: the client is missing
standard input, line 7: "one" is not a client's number
standard input, line 8: "256" is not a cell, 0 to 255
standard input, line 9: "x" is not a cell, 0 to 255
standard input, line 10: "Enter" is neither enter nor strike
standard input, line 11: "-1" is not a client's number
standard input, line 16: the last line does not end with a line feed
"#;

#[test]
fn a_line_that_is_no_order_is_told_and_the_rest_is_taken() {
    let file = folder("lines").join("register.txt");
    check(&run(&file, INPUT), ANSWERS, COMPLAINTS, 1);
    assert_eq!(text(&file), HELD);
}

#[test]
fn an_answer_is_printed_before_the_next_order_is_sent() {
    let file = folder("one_by_one").join("register.txt");
    let mut program = program(&file);
    program.stdin(Stdio::piped()).stdout(Stdio::piped());
    let mut child = program.spawn().expect("it starts");
    let mut stdin = child.stdin.take().expect("a pipe");
    let mut lines = BufReader::new(child.stdout.take().expect("a pipe")).lines();
    let mut next = || lines.next().expect("a line").expect("text");
    assert_eq!(next(), "0 plans are held");
    for answer in [
        "charged to client 1, at",
        "not charged to client 1, held at",
    ] {
        stdin.write_all(ORDER.as_bytes()).expect("it reads");
        let end = format!(": [2, 2, 3, 2, 3, 1] {answer} place 1");
        assert!(next().ends_with(&end));
    }
    drop(stdin);
    assert!(child.wait().expect("it ends").success());
}

/// Runs the program with these arguments and without orders.
fn called(arguments: &[&str]) -> Output {
    let mut program = Command::new(env!("CARGO_BIN_EXE_order_system"));
    program.args(arguments).output().expect("it starts")
}

#[test]
fn without_one_file_it_tells_how_it_is_called() {
    let help = called(&["--help"]);
    let usage = String::from_utf8(help.stdout.clone()).expect("text");
    assert!(usage.starts_with("usage: order_system FILE\n"));
    check(&help, &usage, "", 0);
    check(&called(&["-h"]), &usage, "", 0);
    check(&called(&[]), "", &usage, 2);
    check(&called(&["one.txt", "two.txt"]), "", &usage, 2);
    check(
        &called(&[""]),
        "",
        "order_system: : this is not a plain file\n",
        1,
    );
}
