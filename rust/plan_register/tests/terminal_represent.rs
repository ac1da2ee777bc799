//! A terminal's represent beside the order system's and the reference: every small grid, designs, and
//! random grids of every shape of up to 5 rows.

mod common;

use common::sets::{represented_by_both, TERMINAL};
use common::{random_shape, shapes_of, small_shapes};
use reference::designs::{
    all, cyclic, equal_columns, equal_rows, identity_rows, two_rows, zero, Design,
};
use reference::examples::{every_grid, plan};
use reference::grid::least;
use reference::random::Random;
use std::collections::HashSet;
use std::thread;

/// Checks both sets on all grids of this shape and top. What they write is in the grid's class, so
/// the reference need confirm only that it is the least of its own class. Returns how many classes
/// there are.
fn check_every_grid(m: usize, n: usize, top: u8) -> usize {
    let mut confirmed = HashSet::new();
    for grid in every_grid(m * n, top) {
        let written = represented_by_both(m, n, top, &grid);
        if !confirmed.contains(&written) {
            assert_eq!(written, least(m, n, &written), "{m}x{n} top {top}");
            confirmed.insert(written);
        }
    }
    confirmed.len()
}

#[test]
fn every_grid_of_the_small_shapes() {
    let mut shapes = HashSet::new();
    for (m, n, top) in small_shapes(5) {
        check_every_grid(m, n, top);
        shapes.insert((m, n));
    }
    assert!(shapes.contains(&(1, 16)) && shapes.contains(&(4, 4)) && shapes.contains(&(5, 3)));
}

#[test]
fn the_number_of_classes_is_known() {
    // One row: as many as there are multisets. One column likewise.
    assert_eq!(check_every_grid(1, 5, 3), 56);
    assert_eq!(check_every_grid(5, 1, 3), 56);
    // Matrices of 0 and 1 up to permutations of rows and of columns.
    assert_eq!(check_every_grid(2, 2, 1), 7);
    assert_eq!(check_every_grid(3, 3, 1), 36);
    assert_eq!(check_every_grid(4, 4, 1), 317);
    assert_eq!(check_every_grid(5, 3, 1), check_every_grid(3, 5, 1));
}

/// Checks both sets on the design, and on shuffled ones, against the reference.
fn check_design(random: &mut Random, design: &Design) {
    let (m, n, top, name) = (design.m, design.n, design.top, &design.name);
    let representative = represented_by_both(m, n, top, &design.cells);
    assert_eq!(representative, least(m, n, &design.cells), "{name}");
    for _ in 0..4 {
        let other = random.shuffled(m, n, &design.cells);
        let written = represented_by_both(m, n, top, &other);
        assert_eq!(written, representative, "{name}");
    }
    let again = represented_by_both(m, n, top, &representative);
    assert_eq!(again, representative, "{name}");
}

#[test]
fn designs_of_up_to_5_rows() {
    let mut random = Random::new(201);
    for design in all().iter().filter(|design| design.m <= 5) {
        check_design(&mut random, design);
    }
    for (m, n) in shapes_of(5, 80) {
        for design in [
            zero(m, n),
            equal_rows(m, n),
            equal_columns(m, n),
            two_rows(m, n),
            cyclic(m, n),
            identity_rows(m, n),
        ] {
            check_design(&mut random, &design);
        }
    }
}

#[test]
fn random_grids_of_every_shape() {
    let mut random = Random::new(202);
    for (m, n) in shapes_of(5, 80) {
        for top in [0, 1, 2, 3, 9, 15] {
            for _ in 0..30 {
                let grid = random.cells(m * n, top);
                let written = represented_by_both(m, n, top, &grid);
                assert_eq!(written, least(m, n, &grid));
            }
        }
    }
}

#[test]
fn grids_with_repeated_rows_and_columns() {
    let mut random = Random::new(203);
    for _ in 0..600 {
        let (m, n) = random_shape(&mut random, 5);
        let few = random.cells(2 * 3, 2);
        let (rows, columns) = (random.cells(m, 1), random.cells(n, 2));
        let cell = |k: usize| few[usize::from(rows[k / n] * 3 + columns[k % n])];
        let grid: Vec<u8> = (0..m * n).map(cell).collect();
        let written = represented_by_both(m, n, 2, &grid);
        assert_eq!(written, least(m, n, &grid));
    }
}

#[test]
fn shuffled_copies_have_one_representative_which_is_its_own() {
    let mut random = Random::new(204);
    for _ in 0..5000 {
        let (m, n) = random_shape(&mut random, 5);
        let top = random.between(0, 15) as u8;
        let grid = random.cells(m * n, top);
        let representative = represented_by_both(m, n, top, &grid);
        let other = random.shuffled(m, n, &grid);
        assert_eq!(TERMINAL.represented(m, n, top, &other), representative);
        let again = TERMINAL.represented(m, n, top, &representative);
        assert_eq!(again, representative);
    }
}

/// Checks a written grid with top 3 and its representative.
fn check_written(grid: &str, representative: &str) {
    let (m, n, grid) = plan(grid);
    let expected = (m, n, TERMINAL.represented(m, n, 3, &grid));
    assert_eq!(plan(representative), expected);
}

#[test]
fn the_marked_plans() {
    check_written("223/231", "123/322");
    check_written("10/01", "01/10");
    check_written("112/010", "001/121");
    check_written("12/12", "12/12");
    check_written("302", "023");
    let (m, n, grid) = plan("223/231");
    let orders = plan_register::terminal_represent(m, n, 3, &grid, &mut [0; 6]);
    assert_eq!(orders.rows, [1, 0, 2, 3, 4]);
    assert_eq!(orders.columns[..3], [2, 0, 1]);
}

#[test]
fn grids_that_get_confused() {
    // Both rows sort to 012 first; only the second leads to the least arrangement.
    check_written("012/201", "012/120");
    for matrix in [
        "021201/022110/010212/001122",
        "001122/010212/021201/022110",
        "001122/010212/012021/022110",
    ] {
        check_written(matrix, "001122/010212/012021/021201");
    }
}

#[test]
fn calls_in_several_threads_do_not_disturb_each_other() {
    let mut random = Random::new(205);
    let grids: Vec<Vec<u8>> = (0..200).map(|_| random.cells(80, 1)).collect();
    let represented = |grid: &Vec<u8>| TERMINAL.represented(5, 16, 1, grid);
    let all = || -> Vec<Vec<u8>> { grids.iter().map(represented).collect() };
    let alone = all();
    thread::scope(|scope| {
        let started: Vec<_> = (0..4).map(|_| scope.spawn(all)).collect();
        for thread in started {
            assert_eq!(thread.join().expect("no call panics"), alone);
        }
    });
}
