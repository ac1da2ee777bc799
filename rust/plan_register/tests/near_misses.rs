//! Same on pairs of grids that agree in much: sums, cells, the cells of each row.

mod common;

use common::{check_same, check_two_classes};
use reference::grid::{arrangement, identity};
use reference::random::Random;

/// A change of a grid of m rows and n columns, at least 2 each, with cells 0 to 3.
type Change = fn(&mut Random, usize, usize, &mut [u8]);

/// Checks same on 300 random grids and what the change makes of them, shuffled. Returns how
/// many pairs were in one class.
fn check_changed(seed: u64, change: Change) -> usize {
    let mut random = Random::new(seed);
    let mut one_class = 0;
    for _ in 0..300 {
        let (m, n) = (random.between(2, 5) as usize, random.between(2, 8) as usize);
        let a = random.cells(m * n, 3);
        let mut b = a.clone();
        change(&mut random, m, n, &mut b);
        let b = random.shuffled(m, n, &b);
        one_class += usize::from(check_same(m, n, 3, &a, &b));
    }
    one_class
}

/// Two distinct numbers below `limit`.
fn two_below(random: &mut Random, limit: usize) -> (usize, usize) {
    let listed = random.permutation(limit);
    (listed[0].into(), listed[1].into())
}

/// One cell takes another value.
fn change_one_cell(random: &mut Random, m: usize, n: usize, grid: &mut [u8]) {
    let k = random.below((m * n) as u64) as usize;
    grid[k] = (grid[k] + random.between(1, 3) as u8) % 4;
}

/// Two cells change places.
fn exchange_two_cells(random: &mut Random, m: usize, n: usize, grid: &mut [u8]) {
    let (k, l) = two_below(random, m * n);
    grid.swap(k, l);
}

/// In two rows and two columns, two opposite cells rise by one and the others fall by one,
/// if they can. The sums of rows and of columns stay.
fn keep_sums(random: &mut Random, m: usize, n: usize, grid: &mut [u8]) {
    let ((i, k), (j, l)) = (two_below(random, m), two_below(random, n));
    let (rising, falling) = ([i * n + j, k * n + l], [i * n + l, k * n + j]);
    if rising.iter().all(|&x| grid[x] < 3) && falling.iter().all(|&x| grid[x] > 0) {
        rising.iter().for_each(|&x| grid[x] += 1);
        falling.iter().for_each(|&x| grid[x] -= 1);
    }
}

/// Each row is shuffled on its own, so that sorted it is the same.
fn shuffle_each_row(random: &mut Random, _: usize, n: usize, grid: &mut [u8]) {
    for row in grid.chunks_mut(n) {
        let moved = random.shuffled(1, n, row);
        row.copy_from_slice(&moved);
    }
}

/// Each column is shuffled on its own.
fn shuffle_each_column(random: &mut Random, m: usize, n: usize, grid: &mut [u8]) {
    for j in 0..n {
        let before = grid.to_vec();
        for (i, from) in random.permutation(m).into_iter().enumerate() {
            grid[i * n + j] = before[usize::from(from) * n + j];
        }
    }
}

#[test]
fn one_cell_changed() {
    assert_eq!(check_changed(41, change_one_cell), 0);
}

#[test]
fn two_cells_exchanged() {
    assert!((1..250).contains(&check_changed(42, exchange_two_cells)));
}

#[test]
fn equal_sums_of_rows_and_of_columns() {
    assert!((1..250).contains(&check_changed(43, keep_sums)));
}

#[test]
fn equal_rows_once_each_is_sorted() {
    assert!((1..250).contains(&check_changed(44, shuffle_each_row)));
}

#[test]
fn equal_columns_once_each_is_sorted() {
    assert!((1..250).contains(&check_changed(45, shuffle_each_column)));
}

#[test]
fn transposes_of_square_grids() {
    let mut random = Random::new(46);
    let mut one_class = 0;
    for _ in 0..300 {
        let size = random.between(2, 5) as usize;
        let a = random.cells(size * size, 1);
        let transposed = |k: usize| a[k % size * size + k / size];
        let b: Vec<u8> = (0..size * size).map(transposed).collect();
        one_class += usize::from(check_same(size, size, 1, &a, &b));
    }
    assert!((1..250).contains(&one_class), "{one_class}");
}

#[test]
fn one_half_with_its_rows_in_another_order() {
    let mut random = Random::new(47);
    let mut one_class = 0;
    for _ in 0..200 {
        let (left, right) = (random.cells(5 * 3, 1), random.cells(5 * 3, 1));
        let moved = arrangement(5, 3, &random.permutation(5), &identity(3), &right);
        let (a, b) = (side_by_side(&left, &right), side_by_side(&left, &moved));
        one_class += usize::from(check_same(5, 6, 1, &a, &b));
    }
    assert!((1..150).contains(&one_class), "{one_class}");
}

/// The rows of 3 columns of two grids, joined.
fn side_by_side(left: &[u8], right: &[u8]) -> Vec<u8> {
    let joined = |(l, r): (&[u8], &[u8])| [l, r].concat();
    let rows = left.chunks(3).zip(right.chunks(3));
    rows.flat_map(joined).collect()
}

#[test]
fn one_cell_changed_in_the_largest_shape() {
    // An arrangement has the same cells, so no changed grid is in the grid's class.
    let mut random = Random::new(48);
    for _ in 0..200 {
        let a = random.cells(128, 1);
        let mut b = a.clone();
        change_one_cell(&mut random, 8, 16, &mut b);
        let b = random.shuffled(8, 16, &b);
        check_two_classes(8, 16, 3, &a, &b);
    }
}
