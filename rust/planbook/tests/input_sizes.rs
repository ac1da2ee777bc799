//! Inputs of 65,536 bytes, a little less and more.

use planbook::inputs::drawn_command;
use planbook::lines::{count, ended, enter, line_1, LIMIT};
use planbook::outputs::{refusal, Output};
use planbook::{check, check_both, check_each, run};
use reference::examples::register;
use reference::lists::Pool;
use reference::random::Random;
use std::time::Instant;

/// Line 1 of a register of 2 by 2, top 1, capacity 2.
fn head() -> Vec<u8> {
    line_1([2, 2, 1, 2])
}

/// The bytes with more of these behind, so many in all.
fn filled(bytes: Vec<u8>, more: &[u8], length: usize) -> Vec<u8> {
    bytes
        .into_iter()
        .chain(more.iter().copied().cycle())
        .take(length)
        .collect()
}

/// Line 1 and line feeds.
fn line_feeds(length: usize) -> Vec<u8> {
    filled(head(), b"\n", length)
}

/// Line 1 and one line of spaces, which is not ended.
fn spaces(length: usize) -> Vec<u8> {
    filled(head(), b" ", length)
}

/// Line 1 and lines of carriage returns.
fn carriage_returns(length: usize) -> Vec<u8> {
    filled(head(), b"\r\n", length)
}

/// Line 1 and good lines, the last cut.
fn cut(length: usize) -> Vec<u8> {
    let lines = [
        enter(1, &[1, 0, 0, 1]),
        enter(2, &[0, 0, 1, 1]),
        enter(3, &[0, 1, 0, 1]),
    ]
    .concat();
    filled(head(), &lines, length)
}

/// Line 1, good lines, and a line up to the length that is not laid as it should be.
fn good_and_a_malformed_line(length: usize) -> Vec<u8> {
    let good = cut(length - 300);
    let ended_at = good
        .iter()
        .rposition(|&byte| byte == b'\n')
        .expect("line 1 is ended")
        + 1;
    ended(filled(good[..ended_at].to_vec(), b"x", length - 1))
}

/// Line 1 and good lines only, of 25 and of 31 bytes: these make up every length that is large.
fn good(length: usize) -> Vec<u8> {
    let (enter, count) = (enter(1, &[1, 0, 0, 1]), count(&[0; 4], &[1; 4]));
    let rest = length - head().len();
    let counts = (0..25)
        .find(|counts| (rest - 31 * counts).is_multiple_of(25))
        .expect("25 and 31 have no common factor");
    let enters = (rest - 31 * counts) / 25;
    [head(), count.repeat(counts), enter.repeat(enters)].concat()
}

/// Random bytes behind line 1.
fn random_bytes(length: usize) -> Vec<u8> {
    let bytes = Random::new(length as u64).cells(length - head().len(), 255);
    [head(), bytes].concat()
}

/// Lines 1 over and over.
fn lines_1(length: usize) -> Vec<u8> {
    filled(Vec::new(), &head(), length)
}

/// Every kind of input of which line 1 passes.
const KINDS: [fn(usize) -> Vec<u8>; 8] = [
    line_feeds,
    spaces,
    carriage_returns,
    cut,
    good_and_a_malformed_line,
    good,
    random_bytes,
    lines_1,
];

#[test]
fn inputs_up_to_65536_bytes_pass() {
    for length in [LIMIT - 2, LIMIT - 1, LIMIT] {
        let inputs = KINDS.map(|kind| kind(length));
        for (input, output) in inputs.iter().zip(check_each(&inputs)) {
            assert_eq!(input.len(), length);
            assert_eq!(Output::read(input, &output).register.len(), 31 + 2 * 37);
        }
    }
}

#[test]
fn longer_inputs_are_11() {
    for length in [
        LIMIT + 1,
        LIMIT + 2,
        LIMIT + 19,
        70_000,
        2 * LIMIT,
        1_000_000,
    ] {
        let inputs = KINDS.map(|kind| kind(length));
        for (input, output) in inputs.iter().zip(check_each(&inputs)) {
            assert_eq!(input.len(), length);
            assert_eq!(output, refusal(11));
        }
    }
}

#[test]
fn without_a_line_1_it_is_12_up_to_65536_bytes_and_11_above() {
    for byte in *b"\n 1x\0\xff" {
        for (length, number) in [
            (LIMIT - 1, 12),
            (LIMIT, 12),
            (LIMIT + 1, 11),
            (2 * LIMIT, 11),
        ] {
            check_both(&vec![byte; length], &refusal(number));
        }
    }
}

#[test]
fn the_last_byte_of_the_largest_input_counts() {
    // The last line is an enter. Without its line feed it is 12; a byte further on, all is 11.
    let (all, line) = (good(LIMIT), enter(1, &[1, 0, 0, 1]));
    let whole = Output::read(&all, &check(&all));
    // Client 1 holds 999 by then.
    assert_eq!(whole.printed.last(), Some(&[1, 16, 0]));
    let unended = &all[..LIMIT - 1];
    let printed = Output::read(unended, &check(unended)).printed;
    assert_eq!(printed.last(), Some(&[0, 12, 0]));
    assert_eq!(printed.len(), whole.printed.len());
    let shorter = &all[..LIMIT - line.len()];
    let longer = [shorter, b" ", &line].concat();
    check_both(&longer, &refusal(11));
}

#[test]
fn as_many_malformed_lines_as_an_input_has() {
    let count = LIMIT - head().len();
    assert_eq!(count, 65_511);
    let input = [head(), vec![b'\n'; count]].concat();
    let empty = register(2, 2, 1, 2, &[]);
    let expected = [refusal(12).repeat(count), empty].concat();
    check_both(&input, &expected);
    let start = Instant::now();
    let printed = run(&input);
    println!("65,511 malformed lines: {:?}", start.elapsed());
    assert!(printed == expected);
}

#[test]
fn the_longest_output() {
    // Of all registers within 65,536 bytes, the longest has 5 rows, 15 columns and 262 lines.
    let head = line_1([5, 15, 15, 262]);
    let count = LIMIT - head.len();
    let expected = [refusal(12).repeat(count), check(&head)].concat();
    assert_eq!(expected.len(), 1_310_240);
    check_both(&[head, vec![b'\n'; count]].concat(), &expected);
}

/// Checks an input of 65,536 bytes with drawn lines of so many bytes each, for grids of one cell,
/// and empty lines for the rest. Returns how many lines of both kinds there are.
fn check_short_lines(length: usize) -> (usize, usize) {
    let mut random = Random::new(241);
    let pool = Pool::drawn(&mut random, 1, 1, 15, 16);
    let mut input = line_1([1, 1, 15, 16]);
    let mut drawn = 0;
    while input.len() + length <= LIMIT {
        let line = drawn_command(&mut random, &pool);
        if line.len() == length {
            input.extend(line);
            drawn += 1;
        }
    }
    let left = LIMIT - input.len();
    input.resize(LIMIT, b'\n');
    let printed = Output::read(&input, &check(&input)).printed;
    assert_eq!(printed.len(), drawn + left);
    assert!(printed[..drawn].iter().all(|line| line[1] != 12));
    assert_eq!(printed[drawn..], vec![[0, 12, 0]; left]);
    (drawn, left)
}

#[test]
fn as_many_commands_as_an_input_has() {
    // Lines of one cell are the shortest: 13 bytes by command 3, 16 by commands 1 and 2.
    assert_eq!(check_short_lines(13), (5_039, 4));
    assert_eq!(check_short_lines(16), (4_094, 7));
}

#[test]
fn long_lines() {
    // One line as long as many, at the front, in the middle and at the end.
    let good = [enter(1, &[1, 0, 0, 1]), enter(1, &[0, 0, 1, 1])];
    let one = [head(), good[0].clone()].concat();
    let length_of_one = check(&one).len();
    for length in [100, 4_095, 4_096, 4_097, 8_192, 32_768, 65_000] {
        let line = ended(vec![b'0'; length]);
        for input in [
            [head(), line.clone(), good.concat()].concat(),
            [one.clone(), line.clone(), good[1].clone()].concat(),
            [head(), good.concat(), line.clone()].concat(),
        ] {
            let output = Output::read(&input, &check(&input));
            let malformed = output.printed.iter().filter(|line| line[1] == 12);
            assert_eq!(malformed.count(), 1);
            assert_eq!(output.register.len() + 19, length_of_one);
        }
    }
}
