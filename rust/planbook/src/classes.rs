//! Classes of grids in which no two rows have the same cells: the cells tell which row is which,
//! so that no row permutations need be tried.

use reference::grid::{arrangement, compare, sorting_columns};
use reference::random::Random;
use std::collections::BTreeSet;

/// The grid's rows in the order of their sorted cells, and then its columns sorted. Two grids are
/// in one class exactly when these are equal. `None` where two rows have the same cells.
pub fn class_key(m: usize, n: usize, grid: &[u8]) -> Option<Vec<u8>> {
    let mut rows: Vec<(Vec<u8>, u8)> = grid.chunks(n).map(sorted).zip(0..).collect();
    rows.sort();
    if rows.windows(2).any(|two| two[0].0 == two[1].0) {
        return None;
    }
    let rows: Vec<u8> = rows.into_iter().map(|(_, row)| row).collect();
    let columns = sorting_columns(m, n, &rows, grid);
    Some(arrangement(m, n, &rows, &columns, grid))
}

fn sorted(row: &[u8]) -> Vec<u8> {
    let mut row = row.to_vec();
    row.sort_unstable();
    row
}

/// So many random grids of as many classes, each with a key.
pub fn drawn_grids(random: &mut Random, m: usize, n: usize, top: u8, count: usize) -> Vec<Vec<u8>> {
    let mut keys = BTreeSet::new();
    let mut grids = Vec::new();
    while grids.len() < count {
        let grid = random.cells(m * n, top);
        if class_key(m, n, &grid).is_some_and(|key| keys.insert(key)) {
            grids.push(grid);
        }
    }
    grids
}

/// Is this the least of the grid and so many shuffled copies, the columns of each sorted?
pub fn is_least_of_some(
    random: &mut Random,
    m: usize,
    n: usize,
    grid: &[u8],
    copies: usize,
) -> bool {
    (0..copies).all(|_| {
        let rows = random.permutation(m);
        let columns = sorting_columns(m, n, &rows, grid);
        let other = arrangement(m, n, &rows, &columns, grid);
        compare(grid, &other).is_le()
    })
}
