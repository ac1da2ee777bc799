//! Prune against the reference: all bounds of tiny shapes, and random bounds of every shape.

mod common;

use common::check_prune;
use plan_register::{prune, Counted};
use reference::bounds::allperm;
use reference::examples::{every_grid, shapes_up_to};
use reference::forms::{
    around, close, drawn, every_form, grid_with_allperm, wide, without_allperm, Form,
};
use reference::random::Random;
use std::collections::BTreeSet;

#[test]
fn all_bounds_of_tiny_shapes() {
    for (m, n, top) in [
        (1, 1, 15),
        (2, 1, 15),
        (3, 1, 4),
        (4, 1, 2),
        (8, 1, 1),
        (1, 2, 3),
        (1, 4, 2),
        (2, 2, 3),
        (3, 2, 1),
        (4, 2, 1),
        (2, 3, 2),
        (3, 3, 1),
        (2, 4, 1),
    ] {
        for (low, high) in every_form(m * n, top) {
            let number = check_prune(m, n, top, &low, &high).number;
            assert!(number == 0 || number == 102);
        }
    }
}

/// What prune finds in bounds.
#[derive(Debug, PartialEq, Eq, PartialOrd, Ord)]
enum Found {
    NoGrid,
    NothingToRemove,
    ValuesToRemove,
}
use Found::{NoGrid, NothingToRemove, ValuesToRemove};

impl Found {
    fn by(pruned: Counted) -> Found {
        match (pruned.number, pruned.count) {
            (102, _) => NoGrid,
            (_, 0) => NothingToRemove,
            _ => ValuesToRemove,
        }
    }
}

/// Draws bounds of so many rows and columns with this top.
type Draw = fn(&mut Random, usize, usize, u8) -> Form;

/// Checks so many random bounds of every shape of two rows or more, for each of the tops.
/// Returns all that prune found.
fn check_every_shape(seed: u64, tops: &[u8], tries: usize, draw: Draw) -> BTreeSet<Found> {
    let mut random = Random::new(seed);
    let mut found = BTreeSet::new();
    for (m, n) in shapes_up_to(128).into_iter().filter(|&(m, _)| m > 1) {
        for &top in tops {
            for _ in 0..tries {
                let (low, high) = draw(&mut random, m, n, top);
                found.insert(Found::by(check_prune(m, n, top, &low, &high)));
            }
        }
    }
    found
}

#[test]
fn random_bounds_of_every_shape() {
    let draw: Draw = |random, m, n, top| drawn(random, m * n, top);
    let found = check_every_shape(61, &[0, 1, 2, 7, 15], 2, draw);
    assert_eq!(found, [NoGrid, NothingToRemove, ValuesToRemove].into());
}

#[test]
fn wide_bounds_of_every_shape() {
    let draw: Draw = |random, m, n, top| wide(random, m * n, top);
    let found = check_every_shape(62, &[4, 15], 2, draw);
    assert_eq!(found, [NothingToRemove, ValuesToRemove].into());
}

#[test]
fn one_or_two_values_for_each_cell_of_every_shape() {
    let draw: Draw = |random, m, n, top| {
        let grid = grid_with_allperm(random, m, n, top);
        around(random, top, &grid)
    };
    let found = check_every_shape(63, &[1, 3, 15], 4, draw);
    assert_eq!(found, [NothingToRemove, ValuesToRemove].into());
}

#[test]
fn one_value_for_each_cell_of_every_shape() {
    let draw: Draw = |random, m, n, top| {
        let grid = grid_with_allperm(random, m, n, top);
        (grid.clone(), grid)
    };
    let found = check_every_shape(64, &[0, 1, 3, 15], 4, draw);
    assert_eq!(found, [NothingToRemove].into());
}

#[test]
fn row_0_near_the_other_rows_in_every_shape() {
    let draw: Draw = |random, m, n, top| close(random, m, n, top);
    let found = check_every_shape(65, &[1, 2, 3, 7, 15], 6, draw);
    assert_eq!(found, [NoGrid, NothingToRemove, ValuesToRemove].into());
}

#[test]
fn no_grid_with_allperm_in_every_shape() {
    let draw: Draw = |random, m, n, top| without_allperm(random, m, n, top);
    let found = check_every_shape(66, &[1, 3, 15], 4, draw);
    assert_eq!(found, [NoGrid].into());
}

#[test]
fn a_single_grid_keeps_its_values_if_it_has_allperm() {
    for (m, n) in shapes_up_to(8) {
        for grid in every_grid(m * n, 2) {
            let expected = Counted {
                number: if allperm(m, n, &grid) { 0 } else { 102 },
                count: 0,
            };
            assert_eq!(check_prune(m, n, 2, &grid, &grid), expected);
        }
    }
}

#[test]
fn with_one_row_nothing_is_removed() {
    let mut random = Random::new(67);
    for n in 1..=16 {
        for top in 0..=15 {
            let (low, high) = drawn(&mut random, n, top);
            let pruned = check_prune(1, n, top, &low, &high);
            assert_eq!(Found::by(pruned), NothingToRemove);
        }
    }
}

#[test]
fn the_pruned_bounds_do_not_depend_on_top() {
    let mut random = Random::new(68);
    for (m, n) in shapes_up_to(128) {
        let sent = close(&mut random, m, n, 3);
        let pruned_with = |top: usize| {
            let (mut low, mut high) = sent.clone();
            (prune(m, n, top, &mut low, &mut high), low, high)
        };
        for top in 4..=15 {
            assert_eq!(pruned_with(top), pruned_with(3));
        }
    }
}

#[test]
fn many_values_are_counted() {
    // Row 0 begins with the greatest value, and the other rows keep that value alone.
    let (mut low, mut high) = (vec![0; 128], vec![15; 128]);
    low[0] = 15;
    let pruned = check_prune(8, 16, 15, &low, &high);
    assert_eq!((pruned.number, pruned.count), (0, 7 * 16 * 15));
    // The other rows are 0, and row 0 keeps that value alone.
    low[0] = 0;
    high[16..].fill(0);
    let pruned = check_prune(8, 16, 15, &low, &high);
    assert_eq!((pruned.number, pruned.count), (0, 16 * 15));
}
