//! The register's bytes: how they are laid out and what they hold.

use crate::grid::compare;
use crate::holdings::{Holdings, CLIENTS};
use crate::questions;

/// The length of line 1: five numbers, each 6 wide, and a line feed.
const FIRST_LINE: usize = 31;

/// The number in decimal, right-justified, padded by spaces to the width.
pub fn number(value: u64, width: usize) -> Vec<u8> {
    format!("{value:>width$}").into_bytes()
}

/// The number that is laid out in the field: spaces, then digits without a leading zero.
pub fn read_number(field: &[u8]) -> Option<u64> {
    let spaces = field.iter().take_while(|&&byte| byte == b' ').count();
    let digits = &field[spaces..];
    if digits.is_empty() || !digits.iter().all(u8::is_ascii_digit) {
        return None;
    }
    if digits[0] == b'0' && digits.len() > 1 {
        return None;
    }
    std::str::from_utf8(digits).ok()?.parse().ok()
}

/// The numbers that are laid out side by side, each `width` wide.
pub fn read_numbers(bytes: &[u8], width: usize) -> Option<Vec<u64>> {
    if !bytes.len().is_multiple_of(width) {
        return None;
    }
    bytes.chunks(width).map(read_number).collect()
}

/// The length of each line after line 1: the cells and the eight holdings, each 3 wide, and a line
/// feed.
fn line_length(m: u64, n: u64) -> u64 {
    3 * (m * n + CLIENTS) + 1
}

/// The length of a register. The numbers are within the limits.
pub fn register_length(m: u64, n: u64, capacity: u64) -> u64 {
    FIRST_LINE as u64 + capacity * line_length(m, n)
}

/// An entry: a grid and what each client holds of it.
#[derive(Clone, Debug, PartialEq, Eq)]
pub struct Entry {
    pub grid: Vec<u8>,
    pub holdings: Holdings,
}

/// What a register holds: its numbers as opened and its entries, ascending by their grids.
#[derive(Clone, Debug, PartialEq, Eq)]
pub struct Contents {
    pub rows: u64,
    pub columns: u64,
    pub top: u64,
    pub capacity: u64,
    pub entries: Vec<Entry>,
}

impl Contents {
    /// The grids of the entries.
    pub fn grids(&self) -> Vec<Vec<u8>> {
        let grids = self.entries.iter().map(|entry| entry.grid.clone());
        grids.collect()
    }

    /// The number of entries.
    pub fn count(&self) -> u64 {
        self.entries.len() as u64
    }

    /// The bytes: line 1, a line for each entry, and blank lines up to the capacity.
    pub fn bytes(&self) -> Vec<u8> {
        let head = [
            self.rows,
            self.columns,
            self.top,
            self.capacity,
            self.count(),
        ];
        let mut bytes = Vec::new();
        for value in head {
            bytes.extend(number(value, 6));
        }
        bytes.push(b'\n');
        for entry in &self.entries {
            bytes.extend(entry_line(entry));
        }
        for _ in self.count()..self.capacity {
            bytes.extend(blank_line(self.rows, self.columns));
        }
        bytes
    }

    /// 5. Is the register laid out? A yes gives what it holds.
    pub fn asked(register: &[u8]) -> Result<Contents, u32> {
        Contents::read(register).ok_or(5)
    }

    /// What the bytes hold, or `None` where question 5 gets a no.
    pub fn read(register: &[u8]) -> Option<Contents> {
        let head = read_first_line(register.get(..FIRST_LINE)?)?;
        let [rows, columns, top, capacity, count] = head;
        within_limits(rows, columns, top, capacity)?;
        if register.len() as u64 != register_length(rows, columns, capacity) || count > capacity {
            return None;
        }
        let width = line_length(rows, columns) as usize;
        let lines: Vec<&[u8]> = register[FIRST_LINE..].chunks(width).collect();
        let (held, blank) = lines.split_at(count as usize);
        let entries = held
            .iter()
            .map(|line| read_entry(line, top))
            .collect::<Option<Vec<_>>>()?;
        if !strictly_ascending(&entries) || !blank.iter().all(|line| is_blank(line)) {
            return None;
        }
        Some(Contents {
            rows,
            columns,
            top,
            capacity,
            entries,
        })
    }
}

/// An entry's line: its cells and then its holdings, each 3 wide, and a line feed.
fn entry_line(entry: &Entry) -> Vec<u8> {
    let cells = entry.grid.iter().map(|&value| value.into());
    let numbers = cells.chain(entry.holdings.0);
    let mut line: Vec<u8> = numbers.flat_map(|value| number(value, 3)).collect();
    line.push(b'\n');
    line
}

/// A line without an entry: spaces and a line feed.
fn blank_line(m: u64, n: u64) -> Vec<u8> {
    let mut line = vec![b' '; line_length(m, n) as usize - 1];
    line.push(b'\n');
    line
}

fn read_first_line(line: &[u8]) -> Option<[u64; 5]> {
    read_numbers(line.strip_suffix(b"\n")?, 6)?.try_into().ok()
}

fn within_limits(rows: u64, columns: u64, top: u64, capacity: u64) -> Option<()> {
    questions::rows(rows).ok()?;
    questions::columns(columns).ok()?;
    questions::top(top).ok()?;
    questions::capacity(capacity).ok()
}

/// The entry on the line, its cells at most top and its holdings not all 0.
fn read_entry(line: &[u8], top: u64) -> Option<Entry> {
    let numbers = read_numbers(line.strip_suffix(b"\n")?, 3)?;
    let (cells, holdings) = numbers.split_at(numbers.len() - CLIENTS as usize);
    let holdings = Holdings(holdings.try_into().ok()?);
    if cells.iter().any(|&value| value > top) || holdings.are_all_0() {
        return None;
    }
    let grid = cells.iter().map(|&value| value as u8).collect();
    Some(Entry { grid, holdings })
}

fn is_blank(line: &[u8]) -> bool {
    match line.strip_suffix(b"\n") {
        Some(cells) => cells.iter().all(|&byte| byte == b' '),
        None => false,
    }
}

/// By their grids alone: no two entries have one grid.
fn strictly_ascending(entries: &[Entry]) -> bool {
    entries
        .windows(2)
        .all(|two| compare(&two[0].grid, &two[1].grid).is_lt())
}
