//! Represent and same on grids with much symmetry.

mod common;

use common::{check_one_class, check_same, represented};
use reference::designs::{
    all, circulant, cyclic_latin, identity, klein_latin, product_latin, Design,
};
use reference::grid::{arrangement, identity as in_order, least};
use reference::hills;
use reference::random::Random;

#[test]
fn the_representatives_of_the_designs() {
    for design in all().into_iter().chain(hills::all()) {
        let (m, n, top, name) = (design.m, design.n, design.top, &design.name);
        let representative = represented(m, n, top, &design.cells);
        assert_eq!(representative, least(m, n, &design.cells), "{name}");
        let again = represented(m, n, top, &representative);
        assert_eq!(again, representative, "{name}");
    }
}

#[test]
fn shuffled_designs_have_one_representative_and_one_class() {
    let mut random = Random::new(21);
    for design in all().into_iter().chain(hills::all()) {
        let (m, n, top, name) = (design.m, design.n, design.top, &design.name);
        let representative = represented(m, n, top, &design.cells);
        for _ in 0..4 {
            let other = random.shuffled(m, n, &design.cells);
            assert_eq!(represented(m, n, top, &other), representative, "{name}");
            check_one_class(m, n, top, &design.cells, &other);
            check_one_class(m, n, top, &other, &representative);
        }
    }
}

#[test]
fn a_permutation_matrix_has_the_opposite_diagonal() {
    let mut random = Random::new(22);
    for size in 1..=8 {
        let backwards: Vec<u8> = (0..size as u8).rev().collect();
        let diagonal = identity(size).cells;
        let opposite = arrangement(size, size, &in_order(size), &backwards, &diagonal);
        for _ in 0..10 {
            let columns = random.permutation(size);
            let grid = arrangement(size, size, &in_order(size), &columns, &diagonal);
            assert_eq!(represented(size, size, 1, &grid), opposite);
        }
    }
}

/// Checks that each of the designs, all of one shape, is in a class of its own.
fn check_distinct(designs: &[Design], random: &mut Random) {
    for (k, a) in designs.iter().enumerate() {
        for (l, b) in designs.iter().enumerate() {
            let (m, n, top) = (a.m, a.n, a.top.max(b.top));
            let one = random.shuffled(m, n, &a.cells);
            let other = random.shuffled(m, n, &b.cells);
            if k == l {
                check_one_class(m, n, top, &one, &other);
            } else {
                assert!(!check_same(m, n, top, &one, &other));
            }
        }
    }
}

#[test]
fn latin_squares_of_three_groups_are_in_three_classes() {
    let squares = [cyclic_latin(8), klein_latin(8), product_latin()];
    check_distinct(&squares, &mut Random::new(23));
}

#[test]
fn one_cycle_two_cycles_and_four_cycles_are_in_three_classes() {
    // Two ones in each row and in each column: a circle of all, two circles, four circles.
    let circles = [1, 2, 4].map(|step| circulant(8, &[0, step]));
    check_distinct(&circles, &mut Random::new(24));
}

#[test]
fn four_ones_in_each_row_and_column_do_not_make_a_class() {
    let regular = [
        circulant(8, &[0, 1, 2, 3]),
        circulant(8, &[0, 1, 2, 4]),
        circulant(8, &[0, 2, 4, 6]),
    ];
    check_distinct(&regular, &mut Random::new(25));
}
