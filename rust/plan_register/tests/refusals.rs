//! The questions of represent, same and prune: at and past every limit, every set of failures
//! at once, the first decides; and a refusal changes no byte.

mod common;

use common::limits::{BIT_32, BIT_63, ROWS};
use common::numbers::Numbers;
use common::sets::ORDER_SYSTEM;
use common::{check_prune, check_pruned};
use plan_register::{represent, Counted};
use reference::questions;
use std::collections::BTreeSet;

/// Checks a refusal by prune, or that there is none. Returns the questions that get a no.
fn check_prune_refusal(numbers: Numbers, low: &[u8], high: &[u8]) -> Vec<u32> {
    let Numbers { m, n, top } = numbers;
    let answers = numbers.answers(&[low, high], &[low, high]).into_iter();
    let answers = answers.chain([questions::bounds(low, high)]);
    let nos: Vec<u32> = answers.filter_map(Result::err).collect();
    match nos.first() {
        None => {
            let pruned = check_prune(m, n, top as u8, low, high);
            assert!([0, 102].contains(&pruned.number));
        }
        Some(&number) => {
            let refused = Counted { number, count: 0 };
            check_pruned(m, n, top, (low, high), refused, (low, high));
        }
    }
    nos
}

#[test]
fn represent_answers_the_first_no() {
    let mut met = BTreeSet::new();
    for numbers in Numbers::every(&ROWS) {
        for grid_length in numbers.lengths() {
            for grid in numbers.grids(grid_length) {
                for out_length in numbers.lengths() {
                    met.insert(ORDER_SYSTEM.check_represent_asks(numbers, &grid, out_length));
                }
            }
        }
    }
    assert_eq!(met.len(), 32, "every set of the five questions");
}

#[test]
fn same_answers_the_first_no() {
    let mut met = BTreeSet::new();
    for numbers in Numbers::every(&ROWS) {
        let [none, short, exact, long] = numbers.lengths().map(|length| numbers.grids(length));
        let grids = [none, short, exact, long].concat();
        for a in &grids {
            for b in &grids {
                met.insert(ORDER_SYSTEM.check_same_asks(numbers, a, b));
            }
        }
    }
    assert_eq!(met.len(), 32, "every set of the five questions");
}

#[test]
fn prune_answers_the_first_no() {
    let mut met = BTreeSet::new();
    for numbers in Numbers::every(&ROWS) {
        let lows = numbers.lengths().map(|length| numbers.grids(length));
        let highs = numbers.lengths().map(|length| numbers.highs(length));
        for low in lows.concat() {
            for high in highs.iter().flatten() {
                met.insert(check_prune_refusal(numbers, &low, high));
            }
        }
    }
    assert_eq!(met.len(), 64, "every set of the six questions");
}

#[test]
fn the_edges_of_document_01() {
    let number = |m: usize, n: usize, top: usize, cell: u8, length: usize| {
        let numbers = Numbers { m, n, top };
        let grid = vec![cell; length];
        let nos = ORDER_SYSTEM.check_represent_asks(numbers, &grid, m * n);
        assert_eq!(ORDER_SYSTEM.check_same_asks(numbers, &grid, &grid), nos);
        assert_eq!(check_prune_refusal(numbers, &grid, &grid), nos);
        nos.first().copied().unwrap_or(0)
    };
    assert_eq!(number(0, 0, 15, 0, 0), 1);
    assert_eq!(number(8, 16, 15, 15, 128), 0);
    assert_eq!(number(9, 16, 15, 15, 144), 1);
    assert_eq!(number(8, 17, 15, 15, 136), 2);
    assert_eq!(number(8, 16, 16, 15, 128), 3);
    assert_eq!(number(8, 16, 15, 15, 129), 6);
    assert_eq!(number(8, 16, 15, 15, 127), 6);
    assert_eq!(number(8, 16, 15, 16, 128), 7);
    assert_eq!(number(1, 1, 0, 0, 1), 0);
    assert_eq!(number(1, 1, 0, 1, 1), 7);
}

#[test]
fn products_that_wrap_around_are_no_lengths() {
    let third = usize::MAX / 3;
    for (m, n, wrapped, number) in [
        (BIT_63, 2, 0, 1),
        (BIT_63 + 3, 2, 6, 1),
        (BIT_32, BIT_32, 0, 1),
        (2, BIT_63 + 3, 6, 2),
        (3, 2 * third + 2, 4, 2),
    ] {
        assert_eq!(m.wrapping_mul(n), wrapped);
        let numbers = Numbers { m, n, top: 3 };
        let grid = vec![1; wrapped];
        assert_eq!(
            ORDER_SYSTEM.check_represent_asks(numbers, &grid, wrapped)[0],
            number
        );
        assert_eq!(
            ORDER_SYSTEM.check_same_asks(numbers, &grid, &grid)[0],
            number
        );
        assert_eq!(check_prune_refusal(numbers, &grid, &grid)[0], number);
    }
}

#[test]
fn a_passing_call_overwrites_what_the_output_held() {
    // The output is not a grid: question 7 is not asked of it.
    for old in [0, 3, 4, 255] {
        let mut out = [old; 6];
        assert_eq!(represent(2, 3, 3, &[1; 6], &mut out).number, 0);
        assert_eq!(out, [1; 6]);
    }
}

#[test]
fn every_cell_is_asked() {
    for top in 0..=14 {
        for k in 0..128 {
            let numbers = Numbers { m: 8, n: 16, top };
            let mut grid = vec![top as u8; 128];
            assert_eq!(ORDER_SYSTEM.check_represent_asks(numbers, &grid, 128), []);
            grid[k] += 1;
            assert_eq!(ORDER_SYSTEM.check_represent_asks(numbers, &grid, 128), [7]);
            assert_eq!(ORDER_SYSTEM.check_same_asks(numbers, &grid, &[0; 128]), [7]);
            assert_eq!(ORDER_SYSTEM.check_same_asks(numbers, &[0; 128], &grid), [7]);
        }
    }
}

#[test]
fn every_bound_is_asked() {
    for top in 1..=14 {
        for k in 0..128 {
            let numbers = Numbers { m: 8, n: 16, top };
            let at_top = vec![top as u8; 128];
            let (mut above, mut below) = (at_top.clone(), at_top.clone());
            above[k] += 1;
            below[k] -= 1;
            assert_eq!(check_prune_refusal(numbers, &above, &at_top), [7, 8]);
            assert_eq!(check_prune_refusal(numbers, &above, &above), [7]);
            assert_eq!(check_prune_refusal(numbers, &at_top, &above), [7]);
            assert_eq!(check_prune_refusal(numbers, &at_top, &below), [8]);
            assert_eq!(check_prune_refusal(numbers, &below, &at_top), []);
        }
    }
}
