//! Same against the reference: every pair of tiny grids, pairs in one class, and how far two plans
//! agree.

mod common;

use common::sets::ORDER_SYSTEM;
use common::{check_one_class, check_parting, check_same};
use common::{random_shape, represented, zeros_then_ones};
use plan_register::same;
use reference::examples::{plan, shapes_up_to};
use reference::grid::arrangement;
use reference::random::Random;

#[test]
fn every_pair_of_tiny_grids() {
    ORDER_SYSTEM.check_every_pair(1, 1, 15);
    for (m, n) in [(1, 2), (2, 1)] {
        ORDER_SYSTEM.check_every_pair(m, n, 3);
    }
    for (m, n) in [(1, 3), (3, 1), (2, 2)] {
        ORDER_SYSTEM.check_every_pair(m, n, 2);
    }
    for (m, n) in [(2, 3), (3, 2), (1, 8), (2, 4), (4, 2), (7, 1), (3, 3)] {
        ORDER_SYSTEM.check_every_pair(m, n, 1);
    }
}

#[test]
fn the_orders_lead_from_a_to_b() {
    // All rows and all columns differ, so that there is one pair only, and neither is its own reverse.
    let (m, n, a) = plan("0123/1234/2345");
    let (rows, columns) = ([1, 2, 0], [1, 2, 3, 0]);
    let b = arrangement(m, n, &rows, &columns, &a);
    let there = same(m, n, 5, &a, &b);
    assert_eq!(there.number, 0);
    assert_eq!(there.rows[..3], rows);
    assert_eq!(there.columns[..4], columns);
    let back = same(m, n, 5, &b, &a);
    assert_eq!(back.number, 0);
    assert_eq!(back.rows[..3], [2, 0, 1]);
    assert_eq!(back.columns[..4], [3, 0, 1, 2]);
}

#[test]
fn shuffled_copies_are_in_one_class() {
    let mut random = Random::new(31);
    for _ in 0..3000 {
        let (m, n) = random_shape(&mut random, 8);
        let top = random.between(0, 15) as u8;
        let a = random.cells(m * n, top);
        let b = random.shuffled(m, n, &a);
        check_one_class(m, n, top, &a, &b);
        check_one_class(m, n, top, &b, &a);
        check_one_class(m, n, top, &a, &represented(m, n, top, &a));
    }
}

#[test]
fn random_grids_are_in_one_class_where_the_reference_says_so() {
    let mut random = Random::new(32);
    let mut one_class = 0;
    for _ in 0..20_000 {
        let (m, n) = (random.between(1, 3) as usize, random.between(1, 4) as usize);
        let (a, b) = (random.cells(m * n, 1), random.cells(m * n, 1));
        one_class += usize::from(check_same(m, n, 1, &a, &b));
    }
    assert!((1000..19_000).contains(&one_class), "{one_class}");
}

#[test]
fn plans_of_every_shape_agree_in_every_number_of_cells() {
    let mut random = Random::new(34);
    for (m, n) in shapes_up_to(128) {
        let zeros = vec![0; m * n];
        check_one_class(m, n, 1, &zeros, &zeros);
        for k in 0..m * n {
            let other = random.shuffled(m, n, &zeros_then_ones(m * n, k));
            check_parting(m, n, 1, &zeros, &other, k);
        }
    }
}

#[test]
fn plans_that_differ_in_the_last_cell_only() {
    let mut random = Random::new(35);
    for (m, n) in shapes_up_to(128) {
        let (mut a, mut b) = (vec![0; m * n], vec![0; m * n]);
        (a[m * n - 1], b[m * n - 1]) = (14, 15);
        let (a, b) = (random.shuffled(m, n, &a), random.shuffled(m, n, &b));
        check_parting(m, n, 15, &a, &b, m * n - 1);
    }
}

#[test]
fn the_cells_are_counted_in_the_representatives() {
    // As sent the first two agree in 5 cells; their representatives are 001/121 and 002/121.
    check_parting(2, 3, 2, &[1, 2, 1, 0, 0, 1], &[1, 2, 1, 0, 0, 2], 2);
    check_parting(1, 2, 2, &[1, 0], &[1, 2], 0);
    check_parting(1, 3, 2, &[1, 0, 0], &[0, 2, 0], 2);
}

#[test]
fn arranging_the_plans_anew_changes_no_number() {
    let mut random = Random::new(36);
    for _ in 0..2000 {
        let (m, n) = random_shape(&mut random, 8);
        let top = random.between(0, 2) as u8;
        let (a, b) = (random.cells(m * n, top), random.cells(m * n, top));
        let found = same(m, n, top.into(), &a, &b);
        let (c, d) = (random.shuffled(m, n, &a), random.shuffled(m, n, &b));
        for (a, b) in [(&c, &d), (&d, &c), (&a, &d), (&c, &b)] {
            let again = same(m, n, top.into(), a, b);
            assert_eq!((again.number, again.agreed), (found.number, found.agreed));
        }
    }
}

#[test]
fn what_agrees_in_rows_and_cells() {
    let mut random = Random::new(37);
    for (m, n) in shapes_up_to(128) {
        let (a, b) = (random.cells(m * n, 1), random.cells(m * n, 1));
        let found = same(m, n, 1, &a, &b);
        let agreement = found.agreement(n);
        assert!(agreement.cells < n);
        assert_eq!(agreement.rows * n + agreement.cells, found.agreed as usize);
    }
    let refused = same(1, 0, 0, &[], &[]);
    assert_eq!(refused.agreement(0).to_string(), "no cell");
}

#[test]
fn one_slice_may_be_lent_as_both_grids() {
    let mut random = Random::new(33);
    for _ in 0..200 {
        let (m, n) = random_shape(&mut random, 8);
        let grid = random.cells(m * n, 2);
        let orders = same(m, n, 2, &grid, &grid);
        assert_eq!((orders.number, orders.agreed as usize), (0, m * n));
        let carried = arrangement(m, n, &orders.rows, &orders.columns, &grid);
        assert_eq!(carried, grid);
    }
}
