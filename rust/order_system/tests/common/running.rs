//! The program, fed and read line by line, and killed.

use super::orders::{lines, Order};
use super::program;
use reference::random::Random;
use std::io::{BufRead, BufReader, Write};
use std::path::Path;
use std::process::{Child, ChildStdout, Stdio};
use std::thread::sleep;
use std::time::Duration;

pub struct Running {
    child: Child,
    stdout: BufReader<ChildStdout>,
    answers: Vec<String>,
}

impl Running {
    /// Starts the program on this file, with these orders to read. They fit into a pipe.
    pub fn start(file: &Path, orders: &[Order]) -> Running {
        let mut program = program(file);
        program.stdin(Stdio::piped()).stdout(Stdio::piped());
        let mut child = program.spawn().expect("the program starts");
        let mut stdin = child.stdin.take().expect("a pipe");
        let stdout = BufReader::new(child.stdout.take().expect("a pipe"));
        let lines = lines(orders);
        stdin
            .write_all(lines.as_bytes())
            .expect("the pipe has room");
        Running {
            child,
            stdout,
            answers: Vec::new(),
        }
    }

    /// Reads a line, if the program prints another before it ends. An answer is kept.
    pub fn read(&mut self) -> bool {
        let mut line = String::new();
        self.stdout.read_line(&mut line).expect("lines of text");
        let Some(line) = line.strip_suffix('\n') else {
            return false;
        };
        if line.starts_with("line ") {
            self.answers.push(line.to_string());
        }
        true
    }

    /// Waits for this many lines, then for at most as many microseconds, and kills the program.
    /// Returns the answers that it gave.
    pub fn kill_after(mut self, count: u64, most: u64, random: &mut Random) -> Vec<String> {
        for _ in 0..count {
            self.read();
        }
        sleep(Duration::from_micros(random.below(most)));
        self.child.kill().expect("it is killed, or has ended");
        while self.read() {}
        self.child.wait().expect("it has ended");
        self.answers
    }
}
