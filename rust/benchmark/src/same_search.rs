//! The library's search in plain Rust, unverified: the same partial row orders in the same order.
//! Grids with two values at most have a search of their own, that of `two_values`. Here is the
//! general one.
//!
//! Rows are placed one after another, and the columns are kept sorted by the rows placed. A
//! candidate places one row more. It is followed unless its new row is greater than that of the
//! best arrangement known. Where no other row was tried yet, the best is first lowered to the
//! least candidate. Of equal rows only the first is placed. Where an arrangement equals the best,
//! the two row orders show a symmetry of the grid, and the search goes back to where they part.

use crate::call::{first_no, first_no_of_two, starting, starting_match};
use crate::two_values;
use plan_register::numbers::{DONE, TWO_CLASSES};
use plan_register::{Arranged, Matched};
use std::cmp::Ordering;

/// Represent by the library's search.
pub fn represent(m: usize, n: usize, top: usize, grid: &[u8], out: &mut [u8]) -> Arranged {
    let number = first_no(m, n, top, grid, out);
    if number != DONE {
        return starting(number);
    }
    let orders = two_values::least_orders(m, n, grid);
    let orders = orders.unwrap_or_else(|| least_orders(m, n, grid));
    write_arrangement(n, grid, &orders, out);
    orders
}

/// Represent by the general search, also on grids with two values.
pub fn general_represent(m: usize, n: usize, top: usize, grid: &[u8], out: &mut [u8]) -> Arranged {
    let number = first_no(m, n, top, grid, out);
    if number != DONE {
        return starting(number);
    }
    let orders = least_orders(m, n, grid);
    write_arrangement(n, grid, &orders, out);
    orders
}

/// Writes the arrangement of the grid by these orders.
fn write_arrangement(n: usize, grid: &[u8], orders: &Arranged, out: &mut [u8]) {
    for (cells, &row) in out.chunks_exact_mut(n).zip(&orders.rows) {
        let row = &grid[usize::from(row) * n..][..n];
        for (cell, &column) in cells.iter_mut().zip(&orders.columns) {
            *cell = row[usize::from(column)];
        }
    }
}

/// Orders that give the least arrangement of a grid, by the general search.
fn least_orders(m: usize, n: usize, grid: &[u8]) -> Arranged {
    let mut search = Search::new(m, n, grid);
    search.place(0, &starting(DONE), &[false; 16]);
    search.best
}

/// Same by two represents.
pub fn same(m: usize, n: usize, top: usize, a: &[u8], b: &[u8]) -> Matched {
    let number = first_no_of_two(m, n, top, a, b);
    if number != DONE {
        return starting_match(number, 0);
    }
    let (mut least_a, mut least_b) = ([0; 128], [0; 128]);
    let from_a = represent(m, n, top, a, &mut least_a[..m * n]);
    let from_b = represent(m, n, top, b, &mut least_b[..m * n]);
    if let Some(agreed) = least_a.iter().zip(&least_b).position(|(x, y)| x != y) {
        return starting_match(TWO_CLASSES, agreed as u32);
    }
    let mut carried = starting_match(DONE, (m * n) as u32);
    for (&row, &of_a) in from_b.rows.iter().zip(&from_a.rows) {
        carried.rows[usize::from(row)] = of_a;
    }
    for (&column, &of_a) in from_b.columns.iter().zip(&from_a.columns) {
        carried.columns[usize::from(column)] = of_a;
    }
    carried
}

/// The search, and the orders of the best arrangement known.
struct Search {
    m: usize,
    n: usize,
    rows: [[u8; 16]; 8],
    best: Arranged,
}

impl Search {
    fn new(m: usize, n: usize, grid: &[u8]) -> Search {
        let mut rows = [[0; 16]; 8];
        for (row, cells) in rows.iter_mut().zip(grid.chunks_exact(n)) {
            row[..n].copy_from_slice(cells);
        }
        Search {
            m,
            n,
            rows,
            best: starting(DONE),
        }
    }

    /// Takes up the row orders that begin with the first k rows of `placed`. A break is a
    /// position whose column these rows tell apart from the one before it. Returns the position
    /// to go back to: m, unless an arrangement equals the best.
    fn place(&mut self, k: usize, placed: &Arranged, breaks: &[bool; 16]) -> usize {
        if k + 1 == self.m {
            let next = self.candidate(k, k, placed, breaks);
            return match self.lower_best(k, &next) {
                Ordering::Equal => self.rows_in_common(&next),
                _ => self.m,
            };
        }
        let (from, above, made) = self.bounded(k, placed, breaks);
        let lowest = self.best;
        for t in (from..self.m).filter(|&t| !above[t]) {
            if self.is_repeated(k, t, placed) {
                continue;
            }
            let next = match made && t == from {
                true => lowest,
                false => self.candidate(k, t, placed, breaks),
            };
            if self.lower_best(k, &next) != Ordering::Greater {
                let back = self.place(k + 1, &next, &self.split(k, &next, breaks));
                if back < k {
                    return back;
                }
            }
        }
        self.m
    }

    /// How many rows these orders and the best begin with in common.
    fn rows_in_common(&self, orders: &Arranged) -> usize {
        let pairs = orders.rows.iter().zip(&self.best.rows).take(self.m);
        pairs.take_while(|(row, best_row)| row == best_row).count()
    }

    /// If no other row was tried at position k, lowers the best to the least candidate; not so
    /// with four rows or fewer, or with two left, where it does not pay. Returns the first
    /// position that can attain the best, the positions known to be above it, and whether the best
    /// is now the candidate at the first.
    fn bounded(
        &mut self,
        k: usize,
        placed: &Arranged,
        breaks: &[bool; 16],
    ) -> (usize, [bool; 8], bool) {
        let (mut from, mut made) = (k, false);
        let mut above = [false; 8];
        if self.m <= 4 || self.m <= k + 2 || self.best.rows[..=k] != placed.rows[..=k] {
            return (from, above, made);
        }
        for (t, is_above) in above.iter_mut().enumerate().take(self.m).skip(k) {
            let next = self.candidate(k, t, placed, breaks);
            match self.lower_best(k, &next) {
                Ordering::Less => (from, made) = (t, true),
                Ordering::Equal => {}
                Ordering::Greater => *is_above = true,
            }
        }
        (from, above, made)
    }

    /// Does the row at position t equal one at a position from k up to t?
    fn is_repeated(&self, k: usize, t: usize, placed: &Arranged) -> bool {
        let row = self.row(t, placed);
        (k..t).any(|s| self.row(s, placed) == row)
    }

    /// The orders with the row at position t placed at k, and the columns between two breaks
    /// sorted by it.
    fn candidate(&self, k: usize, t: usize, placed: &Arranged, breaks: &[bool; 16]) -> Arranged {
        let mut next = *placed;
        next.rows.swap(k, t);
        let row = self.row(k, &next);
        let columns = &mut next.columns;
        for i in (1..self.n).filter(|&i| !breaks[i]) {
            let column = columns[i];
            let cell = row[usize::from(column)];
            let mut j = i;
            while j > 0 && !breaks[j] && row[usize::from(columns[j - 1])] > cell {
                columns[j] = columns[j - 1];
                j -= 1;
            }
            columns[j] = column;
        }
        next
    }

    /// Row k of the arrangement by these orders beside row k of the best.
    fn compare_with_best(&self, k: usize, orders: &Arranged) -> Ordering {
        let (row, best_row) = (self.row(k, orders), self.row(k, &self.best));
        for j in 0..self.n {
            let cell = row[usize::from(orders.columns[j])];
            let best_cell = best_row[usize::from(self.best.columns[j])];
            if cell != best_cell {
                return cell.cmp(&best_cell);
            }
        }
        Ordering::Equal
    }

    /// Row k beside the best's, as above. If it is less, these orders become the best.
    fn lower_best(&mut self, k: usize, orders: &Arranged) -> Ordering {
        let found = self.compare_with_best(k, orders);
        if found == Ordering::Less {
            self.best = *orders;
        }
        found
    }

    /// The breaks, and those by the row at position k.
    fn split(&self, k: usize, orders: &Arranged, breaks: &[bool; 16]) -> [bool; 16] {
        let row = self.row(k, orders);
        let mut breaks = *breaks;
        for (j, pair) in orders.columns[..self.n].windows(2).enumerate() {
            if row[usize::from(pair[0])] != row[usize::from(pair[1])] {
                breaks[j + 1] = true;
            }
        }
        breaks
    }

    /// The row at this position of the row order.
    fn row(&self, position: usize, orders: &Arranged) -> &[u8; 16] {
        &self.rows[usize::from(orders.rows[position])]
    }
}
