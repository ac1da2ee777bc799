//! The program `planbook`, input bytes to output bytes.

use crate::bounds::prune;
use crate::layout::{number, read_number, read_numbers, register_length};
use crate::questions;
use crate::register::{count, enter, open, strike, Answer};

/// The most bytes of the input, and the most bytes of a register.
const LIMIT: u64 = 65_536;

/// A command line: 1 enter, 2 strike, 3 prune and then count.
enum Command {
    Enter(u64, Vec<u8>),
    Strike(u64, Vec<u8>),
    PruneAndCount(Vec<u8>, Vec<u8>),
}

/// The register as line 1 opens it, and its rows, columns and top.
struct Opened {
    register: Vec<u8>,
    shape: [u64; 3],
}

/// Everything that `planbook` prints for the input.
pub fn transcript(input: &[u8]) -> Vec<u8> {
    let lines: Vec<&[u8]> = input.split_inclusive(|&byte| byte == b'\n').collect();
    match opened(input, &lines) {
        Err(number) => printed(0, number, 0),
        Ok(opened) => run(opened, &lines[1..]),
    }
}

/// Checks: 11, 12, then 1 to 4, 13. `Err` is the number that ends the run.
fn opened(input: &[u8], lines: &[&[u8]]) -> Result<Opened, u32> {
    if input.len() as u64 > LIMIT {
        return Err(11);
    }
    let line_1 = lines.first().ok_or(12u32)?;
    let [m, n, top, capacity] = read_line_1(line_1).ok_or(12u32)?;
    questions::rows(m)?;
    questions::columns(n)?;
    questions::top(top)?;
    questions::capacity(capacity)?;
    let length = register_length(m, n, capacity);
    if length > LIMIT {
        return Err(13);
    }
    // Open answers 0, as its questions were asked above.
    let mut register = vec![0; length as usize];
    open(m, n, top, capacity, &mut register);
    let shape = [m, n, top];
    Ok(Opened { register, shape })
}

/// A printed line for each command line, and then the register.
fn run(opened: Opened, lines: &[&[u8]]) -> Vec<u8> {
    let Opened {
        mut register,
        shape,
    } = opened;
    let [m, n, _] = shape;
    let mut output = Vec::new();
    for line in lines {
        match read_command(line, (m * n) as usize) {
            None => output.extend(printed(0, 12, 0)),
            Some(command) => output.extend(carry_out(shape, &mut register, &command)),
        }
    }
    output.extend(register);
    output
}

/// Carries out the command and prints it, its number, and the place or count.
fn carry_out(shape: [u64; 3], register: &mut [u8], command: &Command) -> Vec<u8> {
    let (name, answer): (u64, Answer) = match command {
        Command::Enter(client, grid) => (1, enter(register, *client, grid)),
        Command::Strike(client, grid) => (2, strike(register, *client, grid)),
        Command::PruneAndCount(low, high) => (3, prune_and_count(shape, register, low, high)),
    };
    printed(name, answer.number, answer.place)
}

/// Command 3: prune, with the register's rows, columns and top, and then count of the pruned form.
/// If prune's number is not 0, that is the answer, with count 0.
pub fn prune_and_count(shape: [u64; 3], register: &[u8], low: &[u8], high: &[u8]) -> Answer {
    let [m, n, top] = shape;
    let (mut low, mut high) = (low.to_vec(), high.to_vec());
    match prune(m, n, top, &mut low, &mut high).number {
        0 => count(register, &low, &high),
        number => Answer { number, place: 0 },
    }
}

/// Command, number, and place or count, 6 wide each.
fn printed(command: u64, answer: u32, place: u64) -> Vec<u8> {
    let fields = [
        number(command, 6),
        number(answer.into(), 6),
        number(place, 6),
    ];
    let mut line = fields.concat();
    line.push(b'\n');
    line
}

/// Line 1: rows, columns, top, capacity, 6 wide.
fn read_line_1(line: &[u8]) -> Option<[u64; 4]> {
    read_numbers(line.strip_suffix(b"\n")?, 6)?.try_into().ok()
}

/// A command 6 wide; then for 1 and 2 a client 6 wide and 3-wide cells, for 3 low and high of each
/// cell in turn. `None` where the line is not laid so.
fn read_command(line: &[u8], cells: usize) -> Option<Command> {
    let fields = line.strip_suffix(b"\n")?;
    let (command, rest) = read_6_wide(fields)?;
    match command {
        1 | 2 => {
            let (client, rest) = read_6_wide(rest)?;
            let grid = read_cells(rest, cells)?;
            Some(match command {
                1 => Command::Enter(client, grid),
                _ => Command::Strike(client, grid),
            })
        }
        3 => {
            let bounds = read_cells(rest, 2 * cells)?;
            let low = bounds.iter().step_by(2).copied().collect();
            let high = bounds.iter().skip(1).step_by(2).copied().collect();
            Some(Command::PruneAndCount(low, high))
        }
        _ => None,
    }
}

/// The number in the first 6 bytes, and the bytes after these.
fn read_6_wide(bytes: &[u8]) -> Option<(u64, &[u8])> {
    let (field, rest) = bytes.split_at_checked(6)?;
    Some((read_number(field)?, rest))
}

/// So many 3-wide cells, none above 255.
fn read_cells(bytes: &[u8], count: usize) -> Option<Vec<u8>> {
    let cells = read_numbers(bytes, 3)?;
    let cells: Vec<u8> = cells
        .into_iter()
        .map(|value| u8::try_from(value).ok())
        .collect::<Option<_>>()?;
    (cells.len() == count).then_some(cells)
}
