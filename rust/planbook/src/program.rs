//! The program, found and run.

use std::env;
use std::fs::File;
use std::io::{ErrorKind, Write};
use std::path::{Path, PathBuf};
use std::process::{ChildStdin, Command, Output, Stdio};
use std::thread;
use std::time::Duration;

/// The time between two pieces of an input that comes in pieces.
const PAUSE: Duration = Duration::from_micros(300);

/// What the program prints for the input.
pub fn run(input: &[u8]) -> Vec<u8> {
    run_in_pieces(&[input])
}

/// What the program prints for an input that comes in pieces, with a pause before each further one.
pub fn run_in_pieces(pieces: &[&[u8]]) -> Vec<u8> {
    printed_by(&program(), pieces)
}

/// What the program prints with the file as its standard input.
pub fn run_on_file(path: &Path) -> Vec<u8> {
    let program = program();
    let file = File::open(path).expect("the file opens");
    let child = command(&program).stdin(file).output();
    printed(&program, child.expect("the program starts"))
}

/// What this program prints for an input that comes in pieces.
pub fn printed_by(program: &Path, pieces: &[&[u8]]) -> Vec<u8> {
    let child = command(program).stdin(Stdio::piped()).spawn();
    let mut child = child.expect("the program starts");
    let stdin = child.stdin.take().expect("standard input is piped");
    let output = thread::scope(|scope| {
        scope.spawn(|| write_pieces(stdin, pieces));
        child.wait_with_output()
    });
    printed(program, output.expect("standard output is read"))
}

fn command(program: &Path) -> Command {
    let mut command = Command::new(program);
    command.stdout(Stdio::piped()).stderr(Stdio::piped());
    command
}

/// Writes the pieces and ends the input. The program may stop reading: what it prints decides.
fn write_pieces(mut stdin: ChildStdin, pieces: &[&[u8]]) {
    for (k, piece) in pieces.iter().enumerate() {
        if k > 0 {
            thread::sleep(PAUSE);
        }
        match stdin.write_all(piece) {
            Err(error) if error.kind() == ErrorKind::BrokenPipe => return,
            written => written.expect("standard input is written"),
        }
    }
}

/// The bytes of standard output. Checks that the program succeeded and had no errors to print.
fn printed(program: &Path, output: Output) -> Vec<u8> {
    let program = program.display();
    let errors = String::from_utf8_lossy(&output.stderr);
    assert!(
        output.status.success(),
        "{program} failed, {}: {errors}",
        output.status
    );
    assert!(
        errors.is_empty(),
        "{program} wrote to standard error: {errors}"
    );
    output.stdout
}

/// The program: crates/planbook/out/planbook, or the one that PLANBOOK names, from the repository's
/// root.
pub fn program() -> PathBuf {
    match env::var_os("PLANBOOK") {
        Some(named) => existing(&root().join(named), "it is what PLANBOOK names"),
        None => existing(
            &root()
                .join("crates")
                .join("planbook")
                .join("out")
                .join("planbook"),
            "first run `bash scripts/planbook` in the repository's root",
        ),
    }
}

/// The path of a file that is there. Where it is missing, the message says what to do.
pub fn existing(path: &Path, otherwise: &str) -> PathBuf {
    assert!(path.is_file(), "{} is missing: {otherwise}", path.display());
    path.to_path_buf()
}

/// The repository's root: this package is its folder rust/planbook.
pub fn root() -> PathBuf {
    let root = Path::new(env!("CARGO_MANIFEST_DIR")).ancestors().nth(2);
    root.expect("the package is two folders deep").to_path_buf()
}
