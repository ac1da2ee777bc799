//! A terminal's same beside the order system's and the reference: every pair of tiny grids, pairs in
//! one class, pairs that agree in much, and how far two plans agree.

mod common;

use common::sets::{ORDER_SYSTEM, TERMINAL};
use common::{random_shape, shapes_of, zeros_then_ones};
use plan_register::{same, terminal_same};
use reference::designs::all;
use reference::examples::{every_grid, plan};
use reference::grid::arrangement;
use reference::random::Random;

/// The shapes and tops of which all pairs of grids are tried.
const TINY: [(usize, usize, u8); 16] = [
    (1, 1, 15),
    (1, 2, 3),
    (2, 1, 3),
    (1, 3, 2),
    (3, 1, 2),
    (4, 1, 2),
    (5, 1, 2),
    (2, 2, 2),
    (2, 3, 1),
    (3, 2, 1),
    (1, 8, 1),
    (2, 4, 1),
    (4, 2, 1),
    (1, 4, 2),
    (3, 3, 1),
    (1, 9, 1),
];

#[test]
fn every_pair_of_tiny_grids() {
    for (m, n, top) in TINY {
        TERMINAL.check_every_pair(m, n, top);
    }
}

/// Checks that both sets answer alike, but for the pair of orders, in either order of the grids.
/// Returns the number.
fn check_alike(m: usize, n: usize, top: u8, a: &[u8], b: &[u8]) -> u32 {
    let top = usize::from(top);
    let answers = [(a, b), (b, a)].map(|(a, b)| {
        let (one, other) = (same(m, n, top, a, b), terminal_same(m, n, top, a, b));
        let answer = (one.number, one.agreed);
        assert_eq!((other.number, other.agreed), answer, "{m}x{n}: {a:?} {b:?}");
        answer
    });
    assert_eq!(answers[0], answers[1]);
    answers[0].0
}

#[test]
fn both_sets_answer_alike_on_every_pair_of_tiny_grids() {
    for (m, n, top) in TINY {
        let grids = every_grid(m * n, top);
        for (k, a) in grids.iter().enumerate() {
            for b in &grids[k..] {
                check_alike(m, n, top, a, b);
            }
        }
    }
}

#[test]
fn both_sets_answer_alike_on_random_pairs_of_every_shape() {
    let mut random = Random::new(211);
    let mut met = [0; 104];
    for (m, n) in shapes_of(5, 80) {
        for top in [0, 1, 2, 15] {
            for _ in 0..20 {
                let a = random.cells(m * n, top);
                let b = match random.once_in(2) {
                    true => random.shuffled(m, n, &a),
                    false => random.cells(m * n, top),
                };
                met[check_alike(m, n, top, &a, &b) as usize] += 1;
            }
        }
    }
    assert!(met[0] > 1000 && met[103] > 1000, "{met:?}");
}

#[test]
fn the_orders_lead_from_a_to_b() {
    // All rows and all columns differ, so that there is one pair only, and neither is its own reverse.
    let (m, n, a) = plan("0123/1234/2345/3456/4567");
    let (rows, columns) = ([1, 2, 3, 4, 0], [1, 2, 3, 0]);
    let b = arrangement(m, n, &rows, &columns, &a);
    let there = terminal_same(m, n, 7, &a, &b);
    assert_eq!(there.number, 0);
    assert_eq!(there.rows, rows);
    assert_eq!(there.columns[..4], columns);
    let back = terminal_same(m, n, 7, &b, &a);
    assert_eq!(back.number, 0);
    assert_eq!(back.rows, [4, 0, 1, 2, 3]);
    assert_eq!(back.columns[..4], [3, 0, 1, 2]);
}

#[test]
fn shuffled_copies_are_in_one_class() {
    let mut random = Random::new(212);
    for _ in 0..5000 {
        let (m, n) = random_shape(&mut random, 5);
        let top = random.between(0, 15) as u8;
        let a = random.cells(m * n, top);
        let b = random.shuffled(m, n, &a);
        TERMINAL.check_one_class(m, n, top, &a, &b);
        TERMINAL.check_one_class(m, n, top, &b, &a);
        let least = TERMINAL.represented(m, n, top, &a);
        TERMINAL.check_one_class(m, n, top, &a, &least);
    }
}

#[test]
fn designs_of_up_to_5_rows() {
    let mut random = Random::new(213);
    let designs: Vec<_> = all().into_iter().filter(|design| design.m <= 5).collect();
    for a in &designs {
        let (m, n) = (a.m, a.n);
        let one = random.shuffled(m, n, &a.cells);
        TERMINAL.check_one_class(m, n, a.top, &a.cells, &one);
        for b in designs.iter().filter(|b| (b.m, b.n) == (m, n)) {
            let top = a.top.max(b.top);
            let other = random.shuffled(m, n, &b.cells);
            TERMINAL.check_same(m, n, top, &one, &other);
        }
    }
}

#[test]
fn pairs_that_differ_in_one_cell_or_two() {
    let mut random = Random::new(214);
    let mut one_class = 0;
    for _ in 0..600 {
        let (m, n) = (random.between(2, 5) as usize, random.between(2, 8) as usize);
        let a = random.cells(m * n, 2);
        let places = random.permutation(m * n);
        let (k, l) = (usize::from(places[0]), usize::from(places[1]));
        let (mut changed, mut exchanged) = (a.clone(), a.clone());
        changed[k] = (a[k] + 1) % 3;
        exchanged.swap(k, l);
        let changed = random.shuffled(m, n, &changed);
        let exchanged = random.shuffled(m, n, &exchanged);
        assert!(!TERMINAL.check_same(m, n, 2, &a, &changed));
        one_class += usize::from(TERMINAL.check_same(m, n, 2, &a, &exchanged));
    }
    assert!((100..500).contains(&one_class), "{one_class}");
}

#[test]
fn plans_of_every_shape_agree_in_every_number_of_cells() {
    let mut random = Random::new(215);
    for (m, n) in shapes_of(5, 80) {
        let zeros = vec![0; m * n];
        TERMINAL.check_one_class(m, n, 1, &zeros, &zeros);
        for k in 0..m * n {
            let other = random.shuffled(m, n, &zeros_then_ones(m * n, k));
            TERMINAL.check_parting(m, n, 1, &zeros, &other, k);
            ORDER_SYSTEM.check_parting(m, n, 1, &zeros, &other, k);
        }
    }
}

#[test]
fn the_cells_are_counted_in_the_representatives() {
    // As sent the first two agree in 5 cells; their representatives are 001/121 and 002/121.
    TERMINAL.check_parting(2, 3, 2, &[1, 2, 1, 0, 0, 1], &[1, 2, 1, 0, 0, 2], 2);
    TERMINAL.check_parting(1, 2, 2, &[1, 0], &[1, 2], 0);
    TERMINAL.check_parting(1, 3, 2, &[1, 0, 0], &[0, 2, 0], 2);
    // M6: 00/11 and 01/01.
    TERMINAL.check_parting(2, 2, 3, &[0, 0, 1, 1], &[0, 1, 0, 1], 1);
}

#[test]
fn what_agrees_in_rows_and_cells() {
    let mut random = Random::new(216);
    for (m, n) in shapes_of(5, 80) {
        let (a, b) = (random.cells(m * n, 1), random.cells(m * n, 1));
        let found = terminal_same(m, n, 1, &a, &b);
        let agreement = found.agreement(n);
        assert!(agreement.cells < n);
        assert_eq!(agreement.rows * n + agreement.cells, found.agreed as usize);
        assert_eq!(agreement, same(m, n, 1, &a, &b).agreement(n));
    }
    let refused = terminal_same(6, 0, 0, &[], &[]);
    assert_eq!(refused.agreement(0).to_string(), "no cell");
}

#[test]
fn one_slice_may_be_lent_as_both_grids() {
    let mut random = Random::new(217);
    for _ in 0..200 {
        let (m, n) = random_shape(&mut random, 5);
        let grid = random.cells(m * n, 2);
        let orders = terminal_same(m, n, 2, &grid, &grid);
        assert_eq!((orders.number, orders.agreed as usize), (0, m * n));
        let carried = arrangement(m, n, &orders.rows, &orders.columns, &grid);
        assert_eq!(carried, grid);
    }
}
