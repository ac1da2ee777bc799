//! Lines that are not laid as documents 01 and 02 say.

use crate::lines::{command, ended};
use reference::layout::number;

/// Numbers that are no commands.
const OTHER_COMMANDS: [u64; 13] = [0, 4, 5, 9, 10, 11, 12, 13, 21, 31, 100, 100_001, 999_999];

/// Fields that hold no number, each 6 wide.
pub const NO_NUMBERS: [&[u8; 6]; 20] = [
    b"      ",
    b"1     ",
    b"   1  ",
    b"    1 ",
    b"000001",
    b"    01",
    b"    00",
    b"    +1",
    b"    -1",
    b"   1.0",
    b"  1  1",
    b"\t    1",
    b"    \t1",
    b"\0\0\0\0\x001",
    b"    \x001",
    b"     \xb1",
    b"     \xff",
    b"     a",
    b"    1\r",
    b"    \r1",
];

/// Fields that hold no cell, each 3 wide.
const NO_CELLS: [&[u8; 3]; 28] = [
    b"   ", b"0  ", b" 0 ", b"1  ", b" 1 ", b" 00", b"000", b" 01", b"001", b"010", b"256", b"260",
    b"300", b"999", b" +1", b" -1", b" -0", b"+ 1", b"1.0", b" .1", b"1 1", b"0x1", b"\t 1",
    b" \t1", b"\0\x001", b"  \0", b"  \xff", b" 1\r",
];

/// Lines that are no command lines for grids of so many cells, each with its line feed.
pub fn lines(cells: usize) -> Vec<Vec<u8>> {
    let mut lines: Vec<Vec<u8>> = Vec::new();
    lines.extend([1, 2, 3].iter().flat_map(|&k| around(&good(k, cells))));
    lines.extend([1, 2, 3].iter().flat_map(|&k| other_counts(k, cells)));
    lines.extend(other_clients(cells));
    for (line, first_cell) in [(good(1, cells), 12), (good(3, cells), 6)] {
        lines.extend(OTHER_COMMANDS.map(|name| with_field(&line, 0, &number(name, 6))));
        lines.extend(NO_NUMBERS.map(|field| with_field(&line, 0, field)));
        for at in [first_cell, line.len() - 4] {
            lines.extend(NO_CELLS.map(|field| with_field(&line, at, field)));
        }
        lines.push(ended(vec![b' '; line.len() - 1]));
        lines.push(ended(vec![0; line.len() - 1]));
    }
    let short: [&[u8]; 10] = [
        b"", b" ", b"\r", b"\t", b"\0", b"x", b"1", b"     ", b"      ", b"     1",
    ];
    lines.extend(short.map(|line| ended(line.to_vec())));
    lines
}

/// A command line of zeros that is laid as it should be.
fn good(name: u64, cells: usize) -> Vec<u8> {
    command(name, client(name), &vec![0; count(name, cells)])
}

/// The client of a command line that is laid as it should be.
fn client(name: u64) -> Option<u64> {
    match name {
        3 => None,
        _ => Some(1),
    }
}

/// Commands 1 and 2 without a client or with a field that holds none, and command 3 with one.
fn other_clients(cells: usize) -> Vec<Vec<u8>> {
    let mut lines = Vec::new();
    for name in [1, 2] {
        let line = good(name, cells);
        lines.extend(NO_NUMBERS.map(|field| with_field(&line, 6, field)));
        // Without the client, and as long as with it.
        lines.push(command(name, None, &vec![0; cells]));
        lines.push(command(name, None, &vec![0; cells + 2]));
    }
    // With a client, and as long as without it.
    lines.push(command(3, Some(1), &vec![0; 2 * cells]));
    lines.push(command(3, Some(1), &vec![0; 2 * cells - 2]));
    lines
}

/// How many cells the command has, for grids of so many.
fn count(name: u64, cells: usize) -> usize {
    match name {
        3 => 2 * cells,
        _ => cells,
    }
}

/// The line with a byte more at an end, or a byte less.
fn around(line: &[u8]) -> Vec<Vec<u8>> {
    let bytes = &line[..line.len() - 1];
    let mut lines = vec![bytes[1..].to_vec(), bytes[..bytes.len() - 1].to_vec()];
    for byte in [b' ', b'0', b'\t', b'\r', b'\0', 255] {
        lines.push([bytes, &[byte]].concat());
        lines.push([&[byte], bytes].concat());
    }
    lines.into_iter().map(ended).collect()
}

/// The command with another number of cells than it has.
fn other_counts(name: u64, cells: usize) -> Vec<Vec<u8>> {
    let right = count(name, cells);
    [0, right / 2, right - 1, right + 1, 2 * right, 3 * right]
        .iter()
        .filter(|&&count| count != right)
        .map(|&count| command(name, client(name), &vec![0; count]))
        .collect()
}

/// The line with this field written over what it has from a byte on.
pub fn with_field(line: &[u8], at: usize, field: &[u8]) -> Vec<u8> {
    let mut line = line.to_vec();
    line[at..at + field.len()].copy_from_slice(field);
    line
}
