//! Represent against the reference: every small grid, and random grids of every shape.

mod common;

use common::{random_shape, represented, small_shapes};
use reference::examples::{every_grid, shapes_up_to};
use reference::grid::least;
use reference::random::Random;
use std::collections::HashSet;
use std::thread;

/// Checks represent on all grids of this shape and top. What represent writes is in the
/// grid's class, so the reference need confirm only that it is the least of its own class.
fn check_every_grid(m: usize, n: usize, top: u8) {
    let mut confirmed = HashSet::new();
    for grid in every_grid(m * n, top) {
        let written = represented(m, n, top, &grid);
        if !confirmed.contains(&written) {
            assert_eq!(written, least(m, n, &written), "{m}x{n} top {top}");
            confirmed.insert(written);
        }
    }
}

#[test]
fn every_grid_of_the_small_shapes() {
    for (m, n, top) in small_shapes(8) {
        check_every_grid(m, n, top);
    }
}

/// How many random grids of m rows are tried of each number of columns and top. The
/// reference lists all m! row permutations.
fn tries(m: usize) -> usize {
    [40, 40, 40, 40, 40, 20, 5, 2][m - 1]
}

fn check_random_grids(seed: u64, top: u8) {
    let mut random = Random::new(seed);
    for (m, n) in shapes_up_to(128) {
        for _ in 0..tries(m) {
            let grid = random.cells(m * n, top);
            assert_eq!(represented(m, n, top, &grid), least(m, n, &grid));
        }
    }
}

#[test]
fn random_grids_of_every_shape_with_top_0_or_1() {
    check_random_grids(1, 0);
    check_random_grids(2, 1);
}

#[test]
fn random_grids_of_every_shape_with_top_2() {
    check_random_grids(3, 2);
}

#[test]
fn random_grids_of_every_shape_with_top_15() {
    check_random_grids(4, 15);
}

#[test]
fn random_grids_of_every_top() {
    let mut random = Random::new(5);
    for top in 0..=15 {
        for _ in 0..100 {
            let (m, n) = random_shape(&mut random, 5);
            let grid = random.cells(m * n, top);
            assert_eq!(represented(m, n, top, &grid), least(m, n, &grid));
        }
    }
}

#[test]
fn grids_with_repeated_rows_and_columns() {
    let mut random = Random::new(6);
    for _ in 0..300 {
        let (m, n) = random_shape(&mut random, 6);
        let few = random.cells(2 * 3, 2);
        let (rows, columns) = (random.cells(m, 1), random.cells(n, 2));
        let cell = |k: usize| few[usize::from(rows[k / n] * 3 + columns[k % n])];
        let grid: Vec<u8> = (0..m * n).map(cell).collect();
        assert_eq!(represented(m, n, 2, &grid), least(m, n, &grid));
    }
}

#[test]
fn shuffled_copies_have_one_representative_which_is_its_own() {
    let mut random = Random::new(7);
    for _ in 0..3000 {
        let (m, n) = random_shape(&mut random, 8);
        let top = random.between(0, 15) as u8;
        let grid = random.cells(m * n, top);
        let other = random.shuffled(m, n, &grid);
        let representative = represented(m, n, top, &grid);
        assert_eq!(represented(m, n, top, &other), representative);
        assert_eq!(represented(m, n, top, &representative), representative);
    }
}

#[test]
fn shuffled_copies_of_the_largest_shape_have_one_representative() {
    let mut random = Random::new(8);
    for top in [1, 2, 15] {
        for _ in 0..100 {
            let grid = random.cells(128, top);
            let other = random.shuffled(8, 16, &grid);
            let representative = represented(8, 16, top, &grid);
            assert_eq!(represented(8, 16, top, &other), representative);
            assert_eq!(represented(8, 16, top, &representative), representative);
        }
    }
}

#[test]
fn the_least_does_not_depend_on_top() {
    let mut random = Random::new(9);
    for _ in 0..100 {
        let (m, n) = random_shape(&mut random, 8);
        let grid = random.cells(m * n, 1);
        let representative = represented(m, n, 1, &grid);
        for top in 2..=15 {
            assert_eq!(represented(m, n, top, &grid), representative);
        }
    }
}

#[test]
fn calls_in_several_threads_do_not_disturb_each_other() {
    let mut random = Random::new(10);
    let grids: Vec<Vec<u8>> = (0..200).map(|_| random.cells(128, 1)).collect();
    let all = || -> Vec<Vec<u8>> { grids.iter().map(|g| represented(8, 16, 1, g)).collect() };
    let alone = all();
    thread::scope(|scope| {
        let started: Vec<_> = (0..4).map(|_| scope.spawn(all)).collect();
        for thread in started {
            assert_eq!(thread.join().expect("no call panics"), alone);
        }
    });
}
