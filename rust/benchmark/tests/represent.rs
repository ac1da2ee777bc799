//! The implementations of represent that the library is compared with do what it does.

use benchmark::call::Represent;
use benchmark::grids::inputs;
use benchmark::implementations::REPRESENT;
use benchmark::inputs::Input;
use benchmark::{branch_and_bound, packed_theorem_1, same_search, theorem_1};
use reference::designs::all;
use reference::examples::{every_grid, shapes_up_to};
use reference::grid::{arrangement, identity, is_permutation, least};
use reference::hills;
use reference::random::Random;

const WRITTEN_HERE: [Represent; 5] = [
    theorem_1::represent,
    packed_theorem_1::represent,
    same_search::represent,
    same_search::general_represent,
    branch_and_bound::represent,
];

/// Checks each on this grid: the least arrangement, and orders that produce it.
fn check(m: usize, n: usize, top: u8, grid: &[u8], least: &[u8]) {
    for represent in WRITTEN_HERE {
        let mut out = vec![255; m * n];
        let orders = represent(m, n, top.into(), grid, &mut out);
        assert_eq!(orders.number, 0, "{m}x{n}: {grid:?}");
        assert_eq!(out, least, "{m}x{n}: {grid:?}");
        assert!(is_permutation(&orders.rows[..m]));
        assert!(is_permutation(&orders.columns[..n]));
        assert_eq!(orders.rows[m..], identity(8)[m..]);
        assert_eq!(orders.columns[n..], identity(16)[n..]);
        assert_eq!(arrangement(m, n, &orders.rows, &orders.columns, grid), out);
    }
}

#[test]
fn every_grid_of_the_small_shapes() {
    for (m, n) in shapes_up_to(9).into_iter().filter(|&(m, _)| m <= 5) {
        for grid in every_grid(m * n, 1) {
            check(m, n, 1, &grid, &least(m, n, &grid));
        }
    }
}

#[test]
fn random_grids_of_every_shape() {
    let mut random = Random::new(51);
    for (m, n) in shapes_up_to(128) {
        let tries = if m < 7 { 8 } else { 1 };
        for top in [0, 1, 2, 15] {
            for _ in 0..tries {
                let grid = random.cells(m * n, top);
                check(m, n, top, &grid, &least(m, n, &grid));
            }
        }
    }
}

#[test]
fn greatest_cells() {
    for (m, n) in shapes_up_to(128) {
        let grid = vec![15; m * n];
        check(m, n, 15, &grid, &grid);
    }
}

#[test]
fn designs_and_shuffled_designs() {
    let mut random = Random::new(52);
    for design in all().into_iter().chain(hills::all()) {
        let (m, n, top) = (design.m, design.n, design.top);
        let least = least(m, n, &design.cells);
        check(m, n, top, &design.cells, &least);
        let shuffled = random.shuffled(m, n, &design.cells);
        check(m, n, top, &shuffled, &least);
    }
}

#[test]
fn the_same_search_finds_the_orders_of_the_library() {
    let mut random = Random::new(53);
    let check = |m: usize, n: usize, top: u8, grid: &[u8]| {
        let [found, expected] = [same_search::represent, plan_register::represent]
            .map(|represent| represent(m, n, top.into(), grid, &mut vec![255; m * n]));
        assert_eq!(found, expected, "{m}x{n}: {grid:?}");
    };
    for (m, n) in shapes_up_to(128) {
        for top in [0, 1, 2, 15] {
            for _ in 0..20 {
                check(m, n, top, &random.cells(m * n, top));
            }
        }
    }
    for design in all().into_iter().chain(hills::all()) {
        let (m, n, top) = (design.m, design.n, design.top);
        for _ in 0..20 {
            check(m, n, top, &random.shuffled(m, n, &design.cells));
        }
    }
}

#[test]
fn refusals_are_those_of_the_library() {
    for (m, n, top, cell, length, out_length) in [
        (0, 0, 16, 0, 0, 0),
        (9, 17, 16, 99, 0, 0),
        (8, 0, 16, 99, 0, 0),
        (8, 17, 16, 99, 136, 136),
        (2, 3, 16, 99, 6, 6),
        (2, 3, 15, 99, 5, 6),
        (2, 3, 15, 99, 6, 7),
        (2, 3, 15, 16, 6, 6),
        (2, 3, 15, 15, 6, 6),
    ] {
        let grid = vec![cell; length];
        let mut expected = vec![200; out_length];
        let orders = plan_register::represent(m, n, top, &grid, &mut expected);
        for represent in WRITTEN_HERE {
            let mut out = vec![200; out_length];
            let found = represent(m, n, top, &grid, &mut out);
            assert_eq!(found.number, orders.number);
            assert_eq!(out, expected);
        }
    }
}

#[test]
fn the_inputs_have_equal_outputs() {
    let inputs = inputs();
    assert_eq!(inputs.len(), 17);
    for input in inputs {
        input.check_equal_outputs(&REPRESENT.calls());
    }
}
