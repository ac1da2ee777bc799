//! Random bytes, and random edits of inputs that are laid as they should be.

use planbook::check_each;
use planbook::inputs::{drawn, edited, one_of, LIKELY};
use planbook::lines::{ended, line_1};
use planbook::outputs::{refusal, Met, Output, ANSWERS};
use reference::lists::Pool;
use reference::random::Random;

#[test]
fn any_bytes() {
    let mut random = Random::new(231);
    let any = |_| {
        let length = random.below(200) as usize;
        random.cells(length, 255)
    };
    let inputs: Vec<Vec<u8>> = (0..200).map(any).collect();
    for output in check_each(&inputs) {
        assert_eq!(output, refusal(12));
    }
}

/// So many bytes out of these.
fn out_of(random: &mut Random, bytes: &[u8], count: usize) -> Vec<u8> {
    (0..count).map(|_| one_of(random, bytes)).collect()
}

/// Spaces and then digits, 6 in all, most of them spaces.
fn field(random: &mut Random) -> Vec<u8> {
    let spaces = [3, 4, 4, 5, 5, 5, 5, 5, 5, 6][random.below(10) as usize];
    let digits = out_of(random, b"0123456789", 6 - spaces);
    [vec![b' '; spaces], digits].concat()
}

#[test]
fn lines_1_of_spaces_and_digits() {
    let mut random = Random::new(232);
    let mut line = |_| {
        let fields: Vec<Vec<u8>> = (0..4).map(|_| field(&mut random)).collect();
        ended(fields.concat())
    };
    let outputs = check_each(&(0..500).map(&mut line).collect::<Vec<_>>());
    for number in [1, 2, 3, 4, 12] {
        assert!(outputs.contains(&refusal(number)), "{number}");
    }
    assert!(outputs.iter().any(|output| output.len() > 19));
}

/// Inputs with a good line 1, and behind it what is drawn with some bytes or others.
fn behind_line_1(seed: u64, draw: fn(&mut Random, &[u8]) -> Vec<u8>) -> Vec<Vec<u8>> {
    let mut random = Random::new(seed);
    let mut inputs = Vec::new();
    for bytes in [LIKELY, b"  1\n", b"     0123\n", b" \n"] {
        for _ in 0..60 {
            let (m, n) = (random.between(1, 2), random.between(1, 2));
            let head = line_1([m, n, 1, 2]);
            inputs.push([head, draw(&mut random, bytes)].concat());
        }
    }
    inputs
}

#[test]
fn likely_bytes_behind_line_1() {
    let inputs = behind_line_1(233, |random, bytes| {
        let length = random.below(4000) as usize;
        out_of(random, bytes, length)
    });
    for (input, output) in inputs.iter().zip(check_each(&inputs)) {
        assert!(!Output::read(input, &output).register.is_empty());
    }
}

/// Pieces of command lines: the line feed before a line and its head, or a cell.
const PIECES: [&[u8]; 7] = [
    b"\n     1     1",
    b"\n     2     1",
    b"\n     3",
    b"  0",
    b"  0",
    b"  1",
    b"  1",
];

/// Up to 800 pieces of command lines, and now and then up to 12 of these bytes.
fn pieces(random: &mut Random, bytes: &[u8]) -> Vec<u8> {
    let mut pieces = Vec::new();
    for _ in 0..random.below(800) {
        pieces.extend(PIECES[random.below(PIECES.len() as u64) as usize]);
        if random.once_in(16) {
            let count = random.between(1, 12) as usize;
            pieces.extend(out_of(random, bytes, count));
        }
    }
    pieces
}

#[test]
fn likely_pieces_behind_line_1() {
    let inputs = behind_line_1(235, pieces);
    let mut met = Met::new();
    for (input, output) in inputs.iter().zip(check_each(&inputs)) {
        let output = Output::read(input, &output);
        assert!(!output.register.is_empty());
        output.count(&mut met);
    }
    assert!(met[&(0, 12)] > 4000, "{met:?}");
    for answer in [(1, 0), (1, 9), (1, 101), (2, 0), (2, 10), (3, 0), (3, 8)] {
        assert!(met[&answer] > 50, "{met:?}");
    }
}

#[test]
fn edited_inputs() {
    let mut random = Random::new(234);
    let mut inputs = Vec::new();
    for _ in 0..1500 {
        let (m, n) = (random.between(1, 3) as usize, random.between(1, 3) as usize);
        let (top, capacity) = (random.between(0, 12) as u8, random.between(1, 4));
        let pool = Pool::drawn(&mut random, m, n, top, 6);
        let mut lines = drawn(&mut random, &pool, capacity, 25);
        // Line 1 is edited now and then only: most edits of it end the run.
        let head = match random.once_in(10) {
            true => Vec::new(),
            false => lines.remove(0),
        };
        let mut rest = lines.concat();
        for _ in 0..random.between(1, 8) {
            rest = edited(&mut random, &rest);
        }
        inputs.push([head, rest].concat());
    }
    let mut met = Met::new();
    for (input, output) in inputs.iter().zip(check_each(&inputs)) {
        Output::read(input, &output).count(&mut met);
    }
    assert!(met[&(0, 12)] > 4000, "{met:?}");
    for answer in ANSWERS {
        assert!(met[&answer] > 100, "{met:?}");
    }
}
