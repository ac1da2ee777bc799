//! The calls on grids: represent and same, those of the order system and those of a terminal.

use crate::grid::{agreed, canonical};
use crate::permutation::{ColumnPermutation, Permutation, ROW_LIMIT, TERMINAL_ROW_LIMIT};
use crate::questions::{self, Asked};

/// What represent returns: the number, the row permutation P and the column permutation Q,
/// document 01's orders. Positions past m or n hold their own number.
#[derive(Clone, Copy, Debug, PartialEq, Eq)]
pub struct Arranged<const LIMIT: usize = ROW_LIMIT> {
    pub number: u32,
    pub rows: [u8; LIMIT],
    pub columns: [u8; 16],
}

/// What a terminal's represent returns.
pub type TerminalArranged = Arranged<TERMINAL_ROW_LIMIT>;

impl<const LIMIT: usize> Arranged<LIMIT> {
    /// This number with identities, document 01's starting orders.
    pub fn starting(number: u32) -> Self {
        Arranged {
            number,
            rows: Permutation::identity(LIMIT).at,
            columns: ColumnPermutation::identity(16).at,
        }
    }
}

/// What same returns: the number, how many leading cells of the two representatives agree,
/// and P and Q.
#[derive(Clone, Copy, Debug, PartialEq, Eq)]
pub struct Matched<const LIMIT: usize = ROW_LIMIT> {
    pub number: u32,
    pub agreed: u32,
    pub rows: [u8; LIMIT],
    pub columns: [u8; 16],
}

/// What a terminal's same returns.
pub type TerminalMatched = Matched<TERMINAL_ROW_LIMIT>;

impl<const LIMIT: usize> Matched<LIMIT> {
    /// This number and so many cells, with identities.
    pub fn starting(number: u32, agreed: u32) -> Self {
        Matched {
            number,
            agreed,
            rows: Permutation::identity(LIMIT).at,
            columns: ColumnPermutation::identity(16).at,
        }
    }
}

/// Represent: writes the representative to `out` and returns P and Q that produce it.
pub fn represent(m: u64, n: u64, top: u64, grid: &[u8], out: &mut [u8]) -> Arranged {
    match grid_questions(m, n, top, &[grid], &[grid, out]) {
        Err(number) => Arranged::starting(number),
        Ok(()) => represented(m as usize, n as usize, grid, out),
    }
}

/// A terminal's represent: for at most 5 rows as represent.
pub fn terminal_represent(
    m: u64,
    n: u64,
    top: u64,
    grid: &[u8],
    out: &mut [u8],
) -> TerminalArranged {
    match terminal_questions(m, n, top, &[grid], &[grid, out]) {
        Err(number) => Arranged::starting(number),
        Ok(()) => represented(m as usize, n as usize, grid, out),
    }
}

/// Same: P and Q by which `b` is the arrangement of `a`, or 103 where their classes are two.
/// With either, how many leading cells of the representatives agree.
pub fn same(m: u64, n: u64, top: u64, a: &[u8], b: &[u8]) -> Matched {
    match grid_questions(m, n, top, &[a, b], &[a, b]) {
        Err(number) => Matched::starting(number, 0),
        Ok(()) => matched(m as usize, n as usize, a, b),
    }
}

/// A terminal's same: for at most 5 rows as same.
pub fn terminal_same(m: u64, n: u64, top: u64, a: &[u8], b: &[u8]) -> TerminalMatched {
    match terminal_questions(m, n, top, &[a, b], &[a, b]) {
        Err(number) => Matched::starting(number, 0),
        Ok(()) => matched(m as usize, n as usize, a, b),
    }
}

/// Represent once all questions got a yes.
fn represented<const LIMIT: usize>(
    m: usize,
    n: usize,
    grid: &[u8],
    out: &mut [u8],
) -> Arranged<LIMIT> {
    let canonical = canonical(m, n, grid);
    out.copy_from_slice(&canonical.grid);
    Arranged {
        number: 0,
        rows: Permutation::listed(&canonical.rows).at,
        columns: ColumnPermutation::listed(&canonical.columns).at,
    }
}

/// Same once all questions got a yes. P is a's row permutation followed by the inverse of b's;
/// so for Q.
fn matched<const LIMIT: usize>(m: usize, n: usize, a: &[u8], b: &[u8]) -> Matched<LIMIT> {
    let (of_a, of_b) = (canonical(m, n, a), canonical(m, n, b));
    if of_a.grid != of_b.grid {
        return Matched::starting(103, agreed(&of_a.grid, &of_b.grid) as u32);
    }
    let rows_of_b = Permutation::listed(&of_b.rows);
    let columns_of_b = ColumnPermutation::listed(&of_b.columns);
    Matched {
        number: 0,
        agreed: (m * n) as u32,
        rows: Permutation::listed(&of_a.rows)
            .composed(rows_of_b.inverse())
            .at,
        columns: ColumnPermutation::listed(&of_a.columns)
            .composed(columns_of_b.inverse())
            .at,
    }
}

/// Represent and same pass 1, 2, 3, 6, 7.
fn grid_questions(m: u64, n: u64, top: u64, grids: &[&[u8]], slices: &[&[u8]]) -> Asked {
    questions::rows(m)?;
    questions_after_the_rows(m, n, top, grids, slices)
}

/// A terminal's pass 1, 14, 2, 3, 6, 7.
fn terminal_questions(m: u64, n: u64, top: u64, grids: &[&[u8]], slices: &[&[u8]]) -> Asked {
    questions::rows(m)?;
    questions::terminal_rows(m)?;
    questions_after_the_rows(m, n, top, grids, slices)
}

/// 2, 3, 6, 7.
fn questions_after_the_rows(m: u64, n: u64, top: u64, grids: &[&[u8]], slices: &[&[u8]]) -> Asked {
    questions::columns(n)?;
    questions::top(top)?;
    questions::lengths(slices, m * n)?;
    questions::cells(grids, top)
}
