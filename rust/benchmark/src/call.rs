//! What the compared implementations have in common: the calls and their questions.

use plan_register::numbers::{BOUNDS, CELL, COLUMNS, DONE, LENGTH, ROWS, TOP};
use plan_register::{Arranged, Counted, Matched, Placed};
use reference::grid::rank;

/// The call represent: m, n, top, the grid, the output.
pub type Represent = fn(usize, usize, usize, &[u8], &mut [u8]) -> Arranged;

/// The call same: m, n, top, the two grids.
pub type Same = fn(usize, usize, usize, &[u8], &[u8]) -> Matched;

/// The call prune: m, n, top, the lows, the highs.
pub type Prune = fn(usize, usize, usize, &mut [u8], &mut [u8]) -> Counted;

/// The call open: m, n, top, the capacity, the register.
pub type Open = fn(usize, usize, usize, usize, &mut [u8]) -> Placed;

/// The calls enter and strike: the register, the client, the grid.
pub type Change = fn(&mut [u8], usize, &[u8]) -> Placed;

/// The call count: the register, the lows, the highs.
pub type Count = fn(&[u8], &[u8], &[u8]) -> Counted;

/// The number of the first of represent's questions, 1, 2, 3, 6, 7, that gets a no, or 0.
pub fn first_no(m: usize, n: usize, top: usize, grid: &[u8], out: &[u8]) -> u32 {
    match first_no_of_shape(m, n, top, [grid, out]) {
        DONE if greatest(grid) > top as u8 => CELL,
        number => number,
    }
}

/// The number of the first of same's questions, 1, 2, 3, 6, 7, that gets a no, or 0.
pub fn first_no_of_two(m: usize, n: usize, top: usize, a: &[u8], b: &[u8]) -> u32 {
    match first_no_of_shape(m, n, top, [a, b]) {
        DONE if greatest(a).max(greatest(b)) > top as u8 => CELL,
        number => number,
    }
}

/// The number of the first of prune's questions, 1, 2, 3, 6, 7, 8, that gets a no, or 0. Count asks
/// the last three of them.
pub fn first_no_of_bounds(m: usize, n: usize, top: usize, low: &[u8], high: &[u8]) -> u32 {
    match first_no_of_shape(m, n, top, [low, high]) {
        DONE if greatest(low).max(greatest(high)) > top as u8 => CELL,
        DONE if !all_at_most(low, high) => BOUNDS,
        number => number,
    }
}

/// The number of the first of questions 1, 2, 3, 6 that gets a no, or 0.
fn first_no_of_shape(m: usize, n: usize, top: usize, slices: [&[u8]; 2]) -> u32 {
    if !(1..=8).contains(&m) {
        ROWS
    } else if !(1..=16).contains(&n) {
        COLUMNS
    } else if top > 15 {
        TOP
    } else if slices.iter().any(|slice| slice.len() != m * n) {
        LENGTH
    } else {
        DONE
    }
}

fn greatest(grid: &[u8]) -> u8 {
    grid.iter().fold(0, |greatest, &cell| cell.max(greatest))
}

/// Is every low at most its high?
fn all_at_most(low: &[u8], high: &[u8]) -> bool {
    let bounds = low.iter().zip(high);
    bounds.fold(true, |all, (&l, &h)| all & (rank(l) <= rank(h)))
}

/// This number with the starting orders.
pub fn starting(number: u32) -> Arranged {
    Arranged {
        number,
        rows: [0, 1, 2, 3, 4, 5, 6, 7],
        columns: [0, 1, 2, 3, 4, 5, 6, 7, 8, 9, 10, 11, 12, 13, 14, 15],
    }
}

/// This number and so many cells that agree, with the starting orders.
pub fn starting_match(number: u32, agreed: u32) -> Matched {
    let Arranged { rows, columns, .. } = starting(number);
    Matched {
        number,
        agreed,
        rows,
        columns,
    }
}

/// A terminal's represent, its row order lengthened to the 8 positions of the others that it is
/// compared with. That is little work beside the call.
pub fn terminal_represent(m: usize, n: usize, top: usize, grid: &[u8], out: &mut [u8]) -> Arranged {
    let arranged = plan_register::terminal_represent(m, n, top, grid, out);
    let mut lengthened = starting(arranged.number);
    lengthened.rows[..5].copy_from_slice(&arranged.rows);
    lengthened.columns = arranged.columns;
    lengthened
}

/// This number with no value removed.
pub fn unpruned(number: u32) -> Counted {
    Counted { number, count: 0 }
}
