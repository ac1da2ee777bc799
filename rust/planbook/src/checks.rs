//! Runs of the program, compared.

use crate::program::run;
use reference::planbook::transcript;
use std::num::NonZero;
use std::panic::resume_unwind;
use std::thread;

/// The most bytes of an input or a line that a message shows.
const SHOWN: usize = 2000;

/// Checks that the program prints for the input what the reference prints. Returns that.
pub fn check(input: &[u8]) -> Vec<u8> {
    let expected = transcript(input);
    check_prints(input, &expected);
    expected
}

/// Checks that the program and the reference both print these bytes for the input.
pub fn check_both(input: &[u8], expected: &[u8]) {
    let reference = transcript(input);
    let message = || difference(input, &reference, expected);
    assert!(reference == expected, "by the reference, {}", message());
    check_prints(input, expected);
}

/// Checks the inputs on all cores. Returns what is printed for each.
pub fn check_each(inputs: &[Vec<u8>]) -> Vec<Vec<u8>> {
    let cores = thread::available_parallelism().map_or(1, NonZero::get);
    let part = inputs.len().div_ceil(cores).max(1);
    thread::scope(|scope| {
        let start = |part| scope.spawn(move || check_all(part));
        let threads: Vec<_> = inputs.chunks(part).map(start).collect();
        let checked = threads.into_iter().map(|thread| thread.join());
        checked
            .flat_map(|outputs| outputs.unwrap_or_else(|panic| resume_unwind(panic)))
            .collect()
    })
}

fn check_all(inputs: &[Vec<u8>]) -> Vec<Vec<u8>> {
    inputs.iter().map(|input| check(input)).collect()
}

/// Checks that the program prints these bytes for the input.
pub fn check_prints(input: &[u8], expected: &[u8]) {
    let printed = run(input);
    assert!(
        printed == expected,
        "{}",
        difference(input, &printed, expected)
    );
}

/// Where two outputs for an input first differ.
fn difference(input: &[u8], printed: &[u8], expected: &[u8]) -> String {
    let [sent, printed, expected] = [input, printed, expected].map(lines);
    let same = printed.iter().zip(&expected).take_while(|(a, b)| a == b);
    let k = same.count();
    let line = |lines: &[&[u8]], k: usize| lines.get(k).map_or("none".into(), |line| shown(line));
    [
        format!("line {} of {} printed lines is", k + 1, printed.len()),
        line(&printed, k),
        format!("and of {} expected lines", expected.len()),
        line(&expected, k),
        format!(
            "The input has {} bytes, and its lines 1 and {} are",
            input.len(),
            k + 2
        ),
        line(&sent, 0),
        line(&sent, k + 1),
        "It begins".into(),
        shown(input),
    ]
    .join("\n")
}

fn lines(bytes: &[u8]) -> Vec<&[u8]> {
    bytes.split_inclusive(|&byte| byte == b'\n').collect()
}

/// The first of the bytes, those escaped that are no printed characters.
fn shown(bytes: &[u8]) -> String {
    let first = &bytes[..bytes.len().min(SHOWN)];
    format!("\"{}\"", first.escape_ascii())
}
