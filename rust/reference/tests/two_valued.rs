//! The grids of two values for tests and benchmarks are what they are said to be.

use reference::grid::least;
use reference::hills;
use reference::random::Random;
use reference::two_valued::{identity_rows_and_one, regular, with_random_columns};

/// How many ones each row has, and each column.
fn sums(n: usize, grid: &[u8]) -> (Vec<u8>, Vec<u8>) {
    let rows = grid.chunks_exact(n).map(|row| row.iter().sum());
    let columns = (0..n).map(|j| grid.iter().skip(j).step_by(n).sum());
    (rows.collect(), columns.collect())
}

#[test]
fn regular_grids_have_equally_many_ones_in_each_row_and_in_each_column() {
    let mut random = Random::new(1);
    for (m, n, ones, in_columns) in [(8, 16, 4, 2), (8, 8, 3, 3), (4, 6, 3, 2), (1, 5, 5, 1)] {
        for _ in 0..20 {
            let grid = regular(&mut random, m, n, ones);
            let expected = (vec![ones as u8; m], vec![in_columns; n]);
            assert_eq!(sums(n, &grid), expected);
        }
    }
}

#[test]
fn regular_grids_are_of_many_classes() {
    let mut random = Random::new(2);
    let mut classes: Vec<_> = (0..50)
        .map(|_| least(6, 12, &regular(&mut random, 6, 12, 4)))
        .collect();
    classes.sort();
    classes.dedup();
    assert!(classes.len() > 5, "{}", classes.len());
}

#[test]
fn all_rows_but_one_are_of_the_identity_matrix() {
    let mut random = Random::new(3);
    for size in 1..=8 {
        let grid = identity_rows_and_one(&mut random, size);
        let (rows, columns) = sums(size, &grid);
        let single = rows.iter().filter(|&&ones| ones == 1).count();
        assert!(single + 1 >= size);
        let most = columns.iter().filter(|&&ones| ones > 2).count();
        assert_eq!(most, 0);
    }
}

#[test]
fn columns_are_added() {
    let mut random = Random::new(4);
    let grid = identity_rows_and_one(&mut random, 8);
    let longer = with_random_columns(&mut random, 8, &grid, 8);
    assert_eq!(longer.len(), 128);
    let column = |n: usize, grid: &[u8], j: usize| {
        let mut ones: Vec<u8> = (0..8).map(|i| grid[i * n + j]).collect();
        ones.sort();
        ones
    };
    let kept = (0..8).map(|j| column(8, &grid, j));
    let mut left: Vec<_> = (0..16).map(|j| column(16, &longer, j)).collect();
    for ones in kept {
        let at = left.iter().position(|other| *other == ones);
        left.remove(at.expect("the column is kept"));
    }
    assert_eq!(left.len(), 8);
}

#[test]
fn the_hills_are_of_eight_rows() {
    let shapes = hills::all().into_iter().map(|hill| (hill.m, hill.n));
    let expected = [(8, 8), (8, 8), (8, 16), (8, 16)].into_iter();
    assert!(shapes.eq(expected.chain([(8, 16); 4])));
    for hill in hills::all() {
        assert_eq!(hill.cells.len(), hill.m * hill.n);
        assert!(hill.cells.iter().all(|&cell| cell <= 1));
    }
}
