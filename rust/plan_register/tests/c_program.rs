//! A C program that makes every call through the header, compiled as the guide says.

use std::path::{Path, PathBuf};
use std::process::Command;

const GUIDE: &str = include_str!("../../../docs/GUIDE.md");

/// What the program prints.
const PRINTED: &str = "\
represent 7: 0 1 2 3 4 5 6 7
 0 1 2 3 4 5 6 7 8 9 10 11 12 13 14 15
 9 9 9 9 9 9
represent 0: 1 0 2 3 4 5 6 7
 2 0 1 3 4 5 6 7 8 9 10 11 12 13 14 15
 1 2 3 3 2 2
same 0, agreed 6: 1 0 2 3 4 5 6 7
 2 0 1 3 4 5 6 7 8 9 10 11 12 13 14 15
same 6, agreed 0: 0 1 2 3 4 5 6 7
 0 1 2 3 4 5 6 7 8 9 10 11 12 13 14 15
same 103, agreed 5: 0 1 2 3 4 5 6 7
 0 1 2 3 4 5 6 7 8 9 10 11 12 13 14 15
prune 1, count 0
prune 0, count 5
 1 0 1 1
 1 2 1 2
prune 102, count 0
open 4, place 0
open 0, place 0
enter 0, place 1
enter 101, place 1
enter 101, place 1
enter 9, place 0
enter 6, place 0
enter 15, place 0
     2     2     1     1     1
  0  1  1  0  2  0  0  0  0  0  0  1
count 0, count 1
count 8, count 0
strike 5, place 0
strike 0, place 1
strike 10, place 0
strike 15, place 0
     2     2     1     1     1
  0  1  1  0  2  0  0  0  0  0  0  0
strike 0, place 1
strike 0, place 1
     2     2     1     1     0
                                    \n\
enter 0, place 1
enter 101, 998 times
enter 16, place 0
     2     2     1     1     1
  0  1  1  0  0  0  0  0999  0  0  0
terminal represent 14: 0 1 2 3 4
 0 1 2 3 4 5 6 7 8 9 10 11 12 13 14 15
 9 9 9 9 9 9
terminal represent 0: 1 0 2 3 4
 2 0 1 3 4 5 6 7 8 9 10 11 12 13 14 15
 1 2 3 3 2 2
terminal same 0, agreed 6: 1 0 2 3 4
 2 0 1 3 4 5 6 7 8 9 10 11 12 13 14 15
terminal same 14, agreed 0: 0 1 2 3 4
 0 1 2 3 4 5 6 7 8 9 10 11 12 13 14 15
terminal same 103, agreed 5: 0 1 2 3 4
 0 1 2 3 4 5 6 7 8 9 10 11 12 13 14 15
open 0, place 0
terminal enter 0, place 1
enter 101, place 1
terminal enter 101, place 1
terminal enter 9, place 0
terminal enter 15, place 0
     2     2     1     1     1
  0  1  1  0  1  1  1  0  0  0  0  0
open 0, place 0
terminal enter 14, place 0
enter 0, place 1
";

fn root() -> &'static Path {
    let root = Path::new(env!("CARGO_MANIFEST_DIR")).ancestors().nth(2);
    root.expect("the package is two folders deep")
}

/// The words of the guide's line that compiles program.c, which is run in the repository's root.
fn line_of_the_guide() -> Vec<&'static str> {
    let mut lines = GUIDE.lines().map(str::trim);
    let line = lines.find(|line| line.starts_with("cc "));
    line.expect("the guide compiles a program")
        .split(' ')
        .collect()
}

/// Compiles the file by the guide's line. Returns the program's path.
fn compiled(file: &str) -> PathBuf {
    let program = Path::new(env!("CARGO_TARGET_TMPDIR")).join("c_program");
    let mut cc = Command::new("cc");
    for &word in &line_of_the_guide()[1..] {
        match word {
            "program.c" => cc.arg(file),
            "program" => cc.arg(&program),
            other => cc.arg(other),
        };
    }
    let output = cc.current_dir(root()).output().expect("cc starts");
    let errors = String::from_utf8_lossy(&output.stderr);
    assert!(output.status.success(), "{errors}");
    program
}

#[test]
fn the_guide_compiles_strictly() {
    let words = line_of_the_guide();
    for word in ["-std=c11", "-Wall", "-Wextra", "-Werror"] {
        assert!(words.contains(&word), "{word}");
    }
}

#[test]
fn a_c_program_makes_every_call() {
    let program = compiled("rust/plan_register/tests/c/calls.c");
    let output = Command::new(program).output().expect("the program starts");
    assert!(output.status.success(), "{}", output.status);
    assert_eq!(String::from_utf8_lossy(&output.stdout), PRINTED);
}
