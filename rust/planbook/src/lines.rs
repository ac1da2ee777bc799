//! The lines of inputs, as documents 01 and 02 lay them.

use reference::layout::number;

/// The most bytes of an input, and of a register.
pub const LIMIT: usize = 65_536;

/// Line 1: rows, columns, top, capacity.
pub fn line_1(numbers: [u64; 4]) -> Vec<u8> {
    ended(numbers.iter().flat_map(|&value| number(value, 6)).collect())
}

/// A command line: the command, the client if it names one, and its cells.
pub fn command(command: u64, client: Option<u64>, cells: &[u64]) -> Vec<u8> {
    let head = [command].into_iter().chain(client);
    let head = head.flat_map(|value| number(value, 6));
    let cells = cells.iter().flat_map(|&cell| number(cell, 3));
    ended(head.chain(cells).collect())
}

/// The command line that enters the grid for the client.
pub fn enter(client: u64, grid: &[u8]) -> Vec<u8> {
    command(1, Some(client), &numbers(grid))
}

/// The command line that strikes the grid for the client.
pub fn strike(client: u64, grid: &[u8]) -> Vec<u8> {
    command(2, Some(client), &numbers(grid))
}

/// The command line that counts the entries in the bounds: low and high of each cell in turn.
pub fn count(low: &[u8], high: &[u8]) -> Vec<u8> {
    let in_turn: Vec<u8> = low.iter().zip(high).flat_map(|(&l, &h)| [l, h]).collect();
    command(3, None, &numbers(&in_turn))
}

/// The command line that counts all entries of so many cells.
pub fn count_all(cells: usize, top: u8) -> Vec<u8> {
    count(&vec![0; cells], &vec![top; cells])
}

/// The bytes as a line: with a line feed.
pub fn ended(mut bytes: Vec<u8>) -> Vec<u8> {
    bytes.push(b'\n');
    bytes
}

fn numbers(cells: &[u8]) -> Vec<u64> {
    cells.iter().map(|&cell| cell.into()).collect()
}
