//! Grids, their arrangements and their classes.
//!
//! A grid of m rows and n columns is a slice of m * n cells, row after row.

use std::cmp::Ordering;

pub use crate::permutation::{identity, is_permutation, permutations};

/// The rank by which every two cell values are compared: values go by their number, 0 the lowest.
pub fn rank(value: u8) -> u8 {
    value
}

/// The comparison of two cell values.
fn compare_cells(a: u8, b: u8) -> Ordering {
    rank(a).cmp(&rank(b))
}

/// The comparison of two grids of one shape, or of two rows: the first unequal cell decides.
pub fn compare(a: &[u8], b: &[u8]) -> Ordering {
    for (&x, &y) in a.iter().zip(b) {
        if x != y {
            return compare_cells(x, y);
        }
    }
    Ordering::Equal
}

/// How many leading cells of two grids agree.
pub fn agreed(a: &[u8], b: &[u8]) -> usize {
    let pairs = a.iter().zip(b);
    pairs.take_while(|(x, y)| x == y).count()
}

/// The comparison of columns `a` and `b`: their top cells, and if equal the rows beneath.
pub fn compare_columns(m: usize, n: usize, grid: &[u8], a: usize, b: usize) -> Ordering {
    for i in 0..m {
        let (x, y) = (grid[i * n + a], grid[i * n + b]);
        if x != y {
            return compare_cells(x, y);
        }
    }
    Ordering::Equal
}

/// The arrangement of the grid by P and Q: its cell in row i, column j is A(P(i), Q(j)).
pub fn arrangement(m: usize, n: usize, rows: &[u8], columns: &[u8], grid: &[u8]) -> Vec<u8> {
    let mut result = Vec::new();
    for i in 0..m {
        for j in 0..n {
            result.push(grid[usize::from(rows[i]) * n + usize::from(columns[j])]);
        }
    }
    result
}

/// The column permutation that sorts the columns of the grid with its rows permuted.
pub fn sorting_columns(m: usize, n: usize, rows: &[u8], grid: &[u8]) -> Vec<u8> {
    let arranged = arrangement(m, n, rows, &identity(n), grid);
    let mut columns = identity(n);
    columns.sort_by(|&a, &b| compare_columns(m, n, &arranged, a.into(), b.into()));
    columns
}

/// A canonical form, document 01's representative, with permutations that produce it.
#[derive(Clone, Debug, PartialEq, Eq)]
pub struct Canonical {
    pub grid: Vec<u8>,
    pub rows: Vec<u8>,
    pub columns: Vec<u8>,
}

/// The canonical form: for every row permutation the arrangement with its columns sorted,
/// and the least of these.
pub fn canonical(m: usize, n: usize, grid: &[u8]) -> Canonical {
    permutations(m)
        .into_iter()
        .map(|rows| with_sorted_columns(m, n, rows, grid))
        .min_by(|a, b| compare(&a.grid, &b.grid))
        .expect("there is a row permutation")
}

fn with_sorted_columns(m: usize, n: usize, rows: Vec<u8>, grid: &[u8]) -> Canonical {
    let columns = sorting_columns(m, n, &rows, grid);
    Canonical {
        grid: arrangement(m, n, &rows, &columns, grid),
        rows,
        columns,
    }
}

/// The canonical form alone: the least grid of the grid's class.
pub fn least(m: usize, n: usize, grid: &[u8]) -> Vec<u8> {
    canonical(m, n, grid).grid
}

/// The least of the arrangements by every pair of permutations, for small shapes.
pub fn least_brute(m: usize, n: usize, grid: &[u8]) -> Vec<u8> {
    arrangements(m, n, grid)
        .into_iter()
        .min_by(|a, b| compare(a, b))
        .expect("there is a pair of permutations")
}

/// The grid's class: its arrangements by every pair of permutations, for small shapes.
pub fn arrangements(m: usize, n: usize, grid: &[u8]) -> Vec<Vec<u8>> {
    let mut result = Vec::new();
    for rows in permutations(m) {
        for columns in permutations(n) {
            result.push(arrangement(m, n, &rows, &columns, grid));
        }
    }
    result
}
