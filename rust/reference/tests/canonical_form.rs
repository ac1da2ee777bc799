//! Least arrangements, represent and same.

use reference::bounds::allperm;
use reference::examples::{cells, every_grid, plan, shapes_up_to};
use reference::grid::{
    arrangement, arrangements, canonical, compare, compare_columns, identity, is_permutation,
    least, least_brute,
};
use reference::grid_calls::{represent, same, Matched};
use reference::random::Random;
use std::cmp::Ordering;

/// Calls represent and checks that its orders produce what it wrote.
fn represented(m: usize, n: usize, top: u8, grid: &[u8]) -> Vec<u8> {
    let mut out = vec![255; m * n];
    let orders = represent(m as u64, n as u64, top.into(), grid, &mut out);
    assert_eq!(orders.number, 0);
    check_orders(m, n, orders.rows, orders.columns);
    assert_eq!(arrangement(m, n, &orders.rows, &orders.columns, grid), out);
    out
}

fn check_orders(m: usize, n: usize, rows: [u8; 8], columns: [u8; 16]) {
    assert!(is_permutation(&rows[..m]));
    assert!(is_permutation(&columns[..n]));
    assert_eq!(rows[m..], identity(8)[m..]);
    assert_eq!(columns[n..], identity(16)[n..]);
}

/// Calls same on two grids of one class. Checks that all cells agree, and its orders.
fn check_same(m: usize, n: usize, top: u8, a: &[u8], b: &[u8]) {
    let orders = same(m as u64, n as u64, top.into(), a, b);
    assert_eq!((orders.number, orders.agreed as usize), (0, m * n));
    check_orders(m, n, orders.rows, orders.columns);
    assert_eq!(arrangement(m, n, &orders.rows, &orders.columns, a), b);
}

#[test]
fn the_first_unequal_cell_decides() {
    assert_eq!(compare(&[0, 1, 5], &[0, 2, 0]), Ordering::Less);
    assert_eq!(compare(&[1, 0, 0], &[0, 15, 15]), Ordering::Greater);
    assert_eq!(compare(&[3, 1, 2], &[3, 1, 2]), Ordering::Equal);
    let (m, n, grid) = plan("011/120");
    assert_eq!(compare_columns(m, n, &grid, 0, 1), Ordering::Less);
    assert_eq!(compare_columns(m, n, &grid, 1, 2), Ordering::Greater);
    assert_eq!(compare_columns(m, n, &grid, 2, 2), Ordering::Equal);
}

#[test]
fn least_is_the_least_of_all_pairs_on_all_small_grids() {
    for (m, n) in shapes_up_to(6) {
        for grid in every_grid(m * n, 2) {
            assert_eq!(least(m, n, &grid), least_brute(m, n, &grid));
        }
    }
}

#[test]
fn least_is_the_least_of_all_pairs_on_random_grids() {
    let mut random = Random::new(3);
    for _ in 0..600 {
        let (m, n) = (random.between(1, 4) as usize, random.between(1, 4) as usize);
        let top = random.between(0, 15) as u8;
        let grid = random.cells(m * n, top);
        assert_eq!(represented(m, n, top, &grid), least_brute(m, n, &grid));
    }
    for _ in 0..60 {
        for (m, n) in [(5, 3), (3, 5), (4, 5), (5, 4)] {
            let grid = random.cells(m * n, 1);
            assert_eq!(represented(m, n, 1, &grid), least_brute(m, n, &grid));
        }
    }
}

#[test]
fn all_arrangements_of_a_grid_have_its_representative() {
    let mut random = Random::new(4);
    for _ in 0..400 {
        let (m, n) = (
            random.between(1, 5) as usize,
            random.between(1, 16) as usize,
        );
        let top = random.between(0, 3) as u8;
        let grid = random.cells(m * n, top);
        let other = random.shuffled(m, n, &grid);
        let least = represented(m, n, top, &grid);
        assert_eq!(represented(m, n, top, &other), least);
        assert_eq!(represented(m, n, top, &least), least);
        assert_ne!(compare(&least, &other), Ordering::Greater);
        check_same(m, n, top, &grid, &other);
        check_same(m, n, top, &other, &least);
    }
}

#[test]
fn the_largest_shape() {
    let mut random = Random::new(5);
    for top in [1, 15] {
        let grid = random.cells(128, top);
        let other = random.shuffled(8, 16, &grid);
        assert_eq!(
            represented(8, 16, top, &grid),
            represented(8, 16, top, &other)
        );
        check_same(8, 16, top, &grid, &other);
    }
}

#[test]
fn the_identity_matrix_has_the_opposite_diagonal() {
    for size in 1..=6 {
        let diagonal = |i: usize, j: usize| u8::from(i == j);
        let grid: Vec<u8> = (0..size * size)
            .map(|k| diagonal(k / size, k % size))
            .collect();
        let opposite: Vec<u8> = (0..size * size)
            .map(|k| diagonal(k / size, size - 1 - k % size))
            .collect();
        assert_eq!(represented(size, size, 1, &grid), opposite);
    }
}

#[test]
fn a_representative_has_allperm_and_ascending_rows_and_columns() {
    let mut random = Random::new(6);
    for _ in 0..400 {
        let (m, n) = (random.between(1, 4) as usize, random.between(1, 8) as usize);
        let grid = random.cells(m * n, 2);
        let least = least(m, n, &grid);
        assert!(allperm(m, n, &least));
        for i in 1..m {
            let (above, beneath) = (&least[(i - 1) * n..i * n], &least[i * n..(i + 1) * n]);
            assert_ne!(compare(above, beneath), Ordering::Greater);
        }
        for j in 1..n {
            assert_ne!(compare_columns(m, n, &least, j - 1, j), Ordering::Greater);
        }
    }
}

#[test]
fn same_is_0_exactly_within_a_class() {
    for (m, n, top) in [(2, 2, 2), (2, 3, 1), (3, 2, 1), (1, 3, 2), (3, 1, 2)] {
        let grids = every_grid(m * n, top);
        for a in &grids {
            let class = arrangements(m, n, a);
            for b in &grids {
                if class.contains(b) {
                    check_same(m, n, top, a, b);
                } else {
                    let orders = same(m as u64, n as u64, top.into(), a, b);
                    let k = orders.agreed as usize;
                    assert_eq!(orders, Matched::starting(103, orders.agreed));
                    let (of_a, of_b) = (least_brute(m, n, a), least_brute(m, n, b));
                    assert_eq!(of_a[..k], of_b[..k]);
                    assert_ne!(of_a[k], of_b[k]);
                }
            }
        }
    }
}

#[test]
fn same_gives_the_orders_from_a_to_b() {
    // All rows and columns differ, so that there is one pair only, and neither is its own reverse.
    let (m, n, a) = plan("012/345/678");
    let b = arrangement(m, n, &[1, 2, 0], &[2, 0, 1], &a);
    let orders = same(3, 3, 8, &a, &b);
    assert_eq!(orders.number, 0);
    assert_eq!(orders.rows[..3], [1, 2, 0]);
    assert_eq!(orders.columns[..3], [2, 0, 1]);
}

#[test]
fn sorting_by_turns_is_not_least() {
    let (m, n, grid) = plan("223/231");
    assert!(compare(&grid[..3], &grid[3..]).is_lt());
    assert!((1..n).all(|j| compare_columns(m, n, &grid, j - 1, j).is_lt()));
    assert!(compare(&least(m, n, &grid), &grid).is_lt());
}

#[test]
fn of_equally_good_rows_the_first_does_not_suffice() {
    // Both rows sort to 012 first; only the second leads to the least arrangement.
    let (m, n, grid) = plan("012/201");
    let first_row_first = arrangement(m, n, &[0, 1], &[0, 1, 2], &grid);
    let least = least(m, n, &grid);
    assert_eq!(least, cells("012/120"));
    assert!(compare(&least, &first_row_first).is_lt());
    assert_eq!(canonical(m, n, &grid).rows, [1, 0]);
}

#[test]
fn equal_row_sums_do_not_make_a_class() {
    assert_eq!(same(1, 2, 2, &[0, 2], &[1, 1]).number, 103);
    let (a, b) = (cells("0011/0011"), cells("0011/0101"));
    assert_eq!(same(2, 4, 1, &a, &b).number, 103);
}
