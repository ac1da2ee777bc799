//! Document 002's Theorem 1 over packed columns: as in `theorem_1`, but a column is a word, and
//! row permutations that begin with the same rows share the columns of these rows.

use crate::call::{first_no, starting};
use plan_register::numbers::DONE;
use plan_register::Arranged;

/// A column of an arrangement: 4 bits for each cell, the top cell the highest, so that
/// columns compare as numbers.
type PackedColumn = u32;

/// Represent by Theorem 1 over packed columns.
pub fn represent(m: usize, n: usize, top: usize, grid: &[u8], out: &mut [u8]) -> Arranged {
    let number = first_no(m, n, top, grid, out);
    if number != DONE {
        return starting(number);
    }
    let mut every = EveryRowOrder {
        m,
        n,
        grid,
        least: [PackedColumn::MAX; 16],
        least_rows: starting(DONE).rows,
    };
    every.place(0, starting(DONE).rows, [0; 16]);
    for (k, cell) in out.iter_mut().enumerate() {
        *cell = every.cell(&every.least, k / n, k % n);
    }
    Arranged {
        number: DONE,
        rows: every.least_rows,
        columns: every.sorting_columns(),
    }
}

/// The run through every row order, and the least arrangement met so far.
struct EveryRowOrder<'a> {
    m: usize,
    n: usize,
    grid: &'a [u8],
    least: [PackedColumn; 16],
    least_rows: [u8; 8],
}

impl EveryRowOrder<'_> {
    /// Takes up every row order that begins with the first `placed` of `rows`; `columns` are
    /// the columns of these rows.
    fn place(&mut self, placed: usize, rows: [u8; 8], columns: [PackedColumn; 16]) {
        if placed == self.m {
            return self.keep_if_less(rows, columns);
        }
        for k in placed..self.m {
            let mut rows = rows;
            rows.swap(placed, k);
            self.place(placed + 1, rows, self.lengthened(columns, rows[placed]));
        }
    }

    /// The columns with the cells of this row beneath.
    fn lengthened(&self, mut columns: [PackedColumn; 16], row: u8) -> [PackedColumn; 16] {
        let start = usize::from(row) * self.n;
        let cells = &self.grid[start..start + self.n];
        for (column, &cell) in columns.iter_mut().zip(cells) {
            *column = *column << 4 | PackedColumn::from(cell);
        }
        columns
    }

    fn keep_if_less(&mut self, rows: [u8; 8], mut columns: [PackedColumn; 16]) {
        columns[..self.n].sort_unstable();
        if self.is_less(&columns) {
            self.least = columns;
            self.least_rows = rows;
        }
    }

    /// Is this arrangement less than the least so far, read row after row?
    fn is_less(&self, columns: &[PackedColumn; 16]) -> bool {
        for i in 0..self.m {
            for j in 0..self.n {
                let (new, least) = (self.cell(columns, i, j), self.cell(&self.least, i, j));
                if new != least {
                    return new < least;
                }
            }
        }
        false
    }

    fn cell(&self, columns: &[PackedColumn; 16], i: usize, j: usize) -> u8 {
        (columns[j] >> (4 * (self.m - 1 - i)) & 15) as u8
    }

    /// The column order that goes with the least row order.
    fn sorting_columns(&self) -> [u8; 16] {
        let mut packed = [0; 16];
        for &row in &self.least_rows[..self.m] {
            packed = self.lengthened(packed, row);
        }
        let mut columns = starting(DONE).columns;
        columns[..self.n].sort_unstable_by_key(|&column| packed[usize::from(column)]);
        columns
    }
}
