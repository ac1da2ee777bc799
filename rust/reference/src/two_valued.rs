//! Random grids of 0 and 1 on which a search for the least arrangement has many ties.

use crate::designs::{identity, Design};
use crate::random::Random;

/// So many ones in each row, and equally many in each column if n divides their number. A grid of
/// this kind is changed by turns at four cells that are 1 and 0 above 0 and 1.
pub fn regular(random: &mut Random, m: usize, n: usize, ones: usize) -> Vec<u8> {
    let mut cells = vec![0; m * n];
    for k in 0..m * ones {
        cells[k / ones * n + k % n] = 1;
    }
    for _ in 0..20 * m * n {
        let [a, b] = [(); 2].map(|()| n * random.below(m as u64) as usize);
        let [c, d] = [(); 2].map(|()| random.below(n as u64) as usize);
        if [a + c, b + d, a + d, b + c].map(|k| cells[k]) == [1, 1, 0, 0] {
            for (k, cell) in [(a + c, 0), (b + d, 0), (a + d, 1), (b + c, 1)] {
                cells[k] = cell;
            }
        }
    }
    cells
}

/// The identity matrix of this size with a random row in the place of its last one, shuffled.
pub fn identity_rows_and_one(random: &mut Random, size: usize) -> Vec<u8> {
    let Design { mut cells, .. } = identity(size);
    let last = size * (size - 1);
    let row = random.cells(size, 1);
    cells[last..].copy_from_slice(&row);
    random.shuffled(size, size, &cells)
}

/// A grid of n columns with so many random columns besides, shuffled.
pub fn with_random_columns(random: &mut Random, n: usize, grid: &[u8], more: usize) -> Vec<u8> {
    let m = grid.len() / n;
    let rows = grid.chunks_exact(n);
    let longer: Vec<u8> = rows
        .flat_map(|row| [row, &random.cells(more, 1)].concat())
        .collect();
    random.shuffled(m, n + more, &longer)
}
