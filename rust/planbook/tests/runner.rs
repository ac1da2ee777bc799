//! How programs are run here, seen on programs that every system has.

use planbook::program::{existing, printed_by, root};
use std::path::Path;

/// What the shell prints for these commands.
fn shell(commands: &str) -> Vec<u8> {
    printed_by(Path::new("/bin/sh"), &[commands.as_bytes()])
}

#[test]
fn what_a_program_prints_is_returned() {
    assert_eq!(shell("printf 'a\\n b'"), b"a\n b");
    assert_eq!(shell(""), b"");
}

#[test]
fn much_is_written_and_read_at_once() {
    let input = b"one line and another\n".repeat(100_000);
    assert!(printed_by(Path::new("/bin/cat"), &[&input]) == input);
}

#[test]
fn a_program_may_stop_reading() {
    let input = [&b"exit 0\n"[..], &vec![b'#'; 1_000_000]].concat();
    assert_eq!(printed_by(Path::new("/bin/sh"), &[&input]), b"");
}

#[test]
#[should_panic(expected = "failed, exit status: 3")]
fn a_failure_is_seen() {
    shell("exit 3");
}

#[test]
#[should_panic(expected = "wrote to standard error: oh")]
fn standard_error_is_seen() {
    shell("printf oh >&2");
}

#[test]
#[should_panic(expected = "is missing: first run `bash scripts/planbook`")]
fn a_missing_program_is_seen() {
    existing(&root().join("missing"), "first run `bash scripts/planbook`");
}
