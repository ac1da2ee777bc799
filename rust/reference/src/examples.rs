//! Grids for tests: written ones, every one of a small shape, and registers of written ones.

use crate::holdings::Holdings;
use crate::layout::{Contents, Entry};

/// The rows, columns and cells of a grid that is written with a slash between rows.
pub fn plan(text: &str) -> (usize, usize, Vec<u8>) {
    let rows: Vec<&str> = text.split('/').collect();
    let cells: Vec<u8> = rows.concat().bytes().map(|digit| digit - b'0').collect();
    (rows.len(), rows[0].len(), cells)
}

/// The cells of a grid that is written with a slash between rows.
pub fn cells(text: &str) -> Vec<u8> {
    plan(text).2
}

/// Every list of `count` cells of 0 to top, as a counter would show them.
pub fn every_grid(count: usize, top: u8) -> Vec<Vec<u8>> {
    let base = usize::from(top) + 1;
    let digit = |number: usize, k: usize| (number / base.pow(k as u32) % base) as u8;
    (0..base.pow(count as u32))
        .map(|number| (0..count).map(|k| digit(number, k)).collect())
        .collect()
}

/// Every (m, n) with at most `count` cells, within the limits.
pub fn shapes_up_to(count: usize) -> Vec<(usize, usize)> {
    let mut shapes = Vec::new();
    for m in 1..=8 {
        for n in 1..=16 {
            if m * n <= count {
                shapes.push((m, n));
            }
        }
    }
    shapes
}

/// The bytes of a register with these written entries, as they stand here, and of any numbers.
/// Client 1 holds one of each.
pub fn register(m: u64, n: u64, top: u64, capacity: u64, entries: &[&str]) -> Vec<u8> {
    let held: Vec<_> = entries.iter().map(|&text| (text, [1])).collect();
    held_register(m, n, top, capacity, &held)
}

/// The same with these holdings of each entry, client 1's first; clients that are not listed hold
/// none.
pub fn held_register<const N: usize>(
    m: u64,
    n: u64,
    top: u64,
    capacity: u64,
    entries: &[(&str, [u64; N])],
) -> Vec<u8> {
    let entry = |&(text, listed): &(&str, [u64; N])| Entry {
        grid: cells(text),
        holdings: holdings(&listed),
    };
    let contents = Contents {
        rows: m,
        columns: n,
        top,
        capacity,
        entries: entries.iter().map(entry).collect(),
    };
    contents.bytes()
}

/// Holdings of the first clients, client 1's first; those that are not listed hold none.
fn holdings(listed: &[u64]) -> Holdings {
    let mut holdings = Holdings::default();
    holdings.0[..listed.len()].copy_from_slice(listed);
    holdings
}
