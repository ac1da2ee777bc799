//! Standard input as a pipe whose bytes come little by little, and as a file.

use planbook::lines::{line_1, LIMIT};
use planbook::outputs::refusal;
use planbook::program::{root, run_in_pieces, run_on_file};
use reference::planbook::transcript;
use reference::random::Random;

/// The input of the printed run, as request 4 makes it.
const INPUT: &[u8] = include_bytes!("../../../crates/planbook/stdin");

/// Checks that pieces print what they print in one piece.
fn check_pieces(pieces: &[&[u8]]) {
    assert!(run_in_pieces(pieces) == transcript(&pieces.concat()));
}

#[test]
fn byte_by_byte() {
    check_pieces(&INPUT.chunks(1).collect::<Vec<_>>());
}

#[test]
fn line_by_line() {
    let lines: Vec<&[u8]> = INPUT.split_inclusive(|&byte| byte == b'\n').collect();
    check_pieces(&lines);
}

#[test]
fn pieces_of_any_length() {
    let mut random = Random::new(261);
    for _ in 0..40 {
        let mut rest = INPUT;
        let mut pieces = Vec::new();
        while !rest.is_empty() {
            let length = random.between(1, rest.len().min(40) as u64) as usize;
            let (piece, others) = rest.split_at(length);
            pieces.push(piece);
            rest = others;
        }
        check_pieces(&pieces);
    }
}

#[test]
fn the_largest_inputs_in_pieces() {
    let input = [
        line_1([2, 2, 1, 2]),
        b"     1     1  1  0  0  1\n".repeat(4000),
    ]
    .concat();
    for length in [LIMIT - 1, LIMIT, LIMIT + 1] {
        for piece in [999, 4_096, 10_000, LIMIT - 1, LIMIT] {
            check_pieces(&input[..length].chunks(piece).collect::<Vec<_>>());
        }
    }
}

#[test]
fn one_byte_too_many_comes_late() {
    let input = [line_1([2, 2, 1, 2]), vec![b'\n'; LIMIT]].concat();
    let printed = run_in_pieces(&[&input[..LIMIT], b"\n"]);
    assert_eq!(printed, refusal(11));
    let printed = run_in_pieces(&[&input[..LIMIT], b""]);
    assert!(printed == transcript(&input[..LIMIT]));
}

#[test]
fn nothing_arrives() {
    assert_eq!(run_in_pieces(&[]), refusal(12));
    assert_eq!(run_in_pieces(&[b"", b""]), refusal(12));
}

#[test]
fn standard_input_is_a_file() {
    let example = root().join("examples").join("two_by_two.txt");
    let text = include_bytes!("../../../examples/two_by_two.txt");
    assert!(run_on_file(&example) == transcript(text));
    let stored = root().join("crates").join("planbook").join("stdin");
    assert!(run_on_file(&stored) == transcript(INPUT));
    // Any file is an input, such as this one.
    let text = include_bytes!("arrival.rs");
    let this = root().join("rust/planbook/tests/arrival.rs");
    assert_eq!(transcript(text), refusal(12));
    assert_eq!(run_on_file(&this), refusal(12));
}
