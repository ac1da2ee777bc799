//! A program whose answers nobody reads. This test is alone in its process: another that starts a
//! process at the same time would keep the pipe open for a moment.

mod common;

use common::{check, folder, program, text, HELD, ORDER};
use std::io::{Read, Write};
use std::process::Stdio;

#[test]
fn where_nobody_reads_the_answers_it_is_told() {
    let file = folder("closed_output").join("register.txt");
    let mut program = program(&file);
    program.stdin(Stdio::piped()).stdout(Stdio::piped());
    let mut child = program.stderr(Stdio::piped()).spawn().expect("it starts");
    let mut stdout = child.stdout.take().expect("a pipe");
    let mut first = [0; "0 plans are held\n".len()];
    stdout.read_exact(&mut first).expect("the first line");
    drop(stdout);
    let mut stdin = child.stdin.take().expect("a pipe");
    stdin.write_all(ORDER.as_bytes()).expect("it reads");
    drop(stdin);
    let output = child.wait_with_output().expect("it ends");
    let told = "line 1 is settled, its answer not printed: \
                standard output: Broken pipe (os error 32)";
    check(&output, "", &format!("order_system: {told}\n"), 1);
    assert_eq!(text(&file), HELD);
}
