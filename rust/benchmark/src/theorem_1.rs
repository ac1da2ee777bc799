//! Document 002's Theorem 1, written plainly: for every row permutation the columns are sorted,
//! and the least of these arrangements is the least arrangement.

use crate::call::{first_no, starting};
use plan_register::numbers::DONE;
use plan_register::Arranged;

/// A column of an arrangement, the top cell first; the cells past the last row are 0.
type Column = [u8; 8];

/// Represent by Theorem 1.
pub fn represent(m: usize, n: usize, top: usize, grid: &[u8], out: &mut [u8]) -> Arranged {
    let number = first_no(m, n, top, grid, out);
    if number != DONE {
        return starting(number);
    }
    let mut rows = starting(DONE).rows;
    let mut least_rows = rows;
    let mut least = sorted_columns(m, n, grid, &rows);
    while next_permutation(&mut rows[..m]) {
        let columns = sorted_columns(m, n, grid, &rows);
        if is_less(m, n, &columns, &least) {
            least = columns;
            least_rows = rows;
        }
    }
    for (k, cell) in out.iter_mut().enumerate() {
        *cell = least[k % n][k / n];
    }
    Arranged {
        number: DONE,
        rows: least_rows,
        columns: sorting_columns(m, n, grid, &least_rows),
    }
}

/// Turns a permutation into the next one in lexicographic order. False if it is the last one.
fn next_permutation(numbers: &mut [u8]) -> bool {
    let Some(k) = (1..numbers.len())
        .rev()
        .find(|&k| numbers[k - 1] < numbers[k])
    else {
        return false;
    };
    let mut last_greater = numbers.len() - 1;
    while numbers[last_greater] < numbers[k - 1] {
        last_greater -= 1;
    }
    numbers.swap(k - 1, last_greater);
    numbers[k..].reverse();
    true
}

/// The columns of the grid with its rows in this order.
fn columns(m: usize, n: usize, grid: &[u8], rows: &[u8; 8]) -> [Column; 16] {
    let mut columns = [[0; 8]; 16];
    for (i, &row) in rows[..m].iter().enumerate() {
        let start = usize::from(row) * n;
        for (column, &cell) in columns.iter_mut().zip(&grid[start..start + n]) {
            column[i] = cell;
        }
    }
    columns
}

fn sorted_columns(m: usize, n: usize, grid: &[u8], rows: &[u8; 8]) -> [Column; 16] {
    let mut columns = columns(m, n, grid, rows);
    columns[..n].sort_unstable();
    columns
}

/// Is the one arrangement less than the other, read row after row?
fn is_less(m: usize, n: usize, columns: &[Column; 16], others: &[Column; 16]) -> bool {
    for i in 0..m {
        for j in 0..n {
            if columns[j][i] != others[j][i] {
                return columns[j][i] < others[j][i];
            }
        }
    }
    false
}

/// The column order that goes with this row order.
fn sorting_columns(m: usize, n: usize, grid: &[u8], rows: &[u8; 8]) -> [u8; 16] {
    let columns = columns(m, n, grid, rows);
    let mut order = starting(DONE).columns;
    order[..n].sort_unstable_by_key(|&column| columns[usize::from(column)]);
    order
}

#[cfg(test)]
mod tests {
    use super::next_permutation;
    use reference::permutation::{identity, permutations};

    #[test]
    fn next_permutation_goes_through_every_permutation() {
        for size in 1..=8 {
            let mut numbers = identity(size);
            let mut met = vec![numbers.clone()];
            while next_permutation(&mut numbers) {
                met.push(numbers.clone());
            }
            assert_eq!(met, permutations(size));
        }
    }
}
