//! Forms, allperm and prune.

mod common;

use common::form;
use reference::bounds::{
    allperm, allperm_by_listing, allperm_by_sorting, grids, kept_by_extremal, kept_by_listing,
    lies_in, number_of_grids, number_of_values, prune, prune_by_extremal, prune_by_listing,
    some_grid, values, Bounds, Counted, LISTED_GRIDS,
};
use reference::examples::{every_grid, shapes_up_to};
use reference::forms::{close, drawn, every_form, Form};
use reference::grid::rank;
use reference::random::Random;

/// The form with cells set to a single value until it has at most `limit` grids. In half of
/// the forms it is the extremal grid's value.
fn narrowed(random: &mut Random, n: usize, top: u8, form: Form, limit: u64) -> Form {
    let (mut low, mut high) = form;
    let to_extremal = random.once_in(2);
    while number_of_grids(top, &low, &high) > limit {
        let k = random.below(low.len() as u64) as usize;
        let to_low = if to_extremal {
            k < n
        } else {
            random.once_in(2)
        };
        if to_low {
            high[k] = low[k];
        } else {
            low[k] = high[k];
        }
    }
    (low, high)
}

/// Compares listing, the extremal grids and the call on one form.
fn check_form(m: usize, n: usize, top: u8, low: &[u8], high: &[u8]) {
    let kept = kept_by_listing(m, n, top, low, high);
    assert_eq!(kept_by_extremal(m, n, top, low, high), kept);
    let listed = prune_by_listing(m, n, top, low, high);
    assert_eq!(prune_by_extremal(m, n, top, low, high), listed);
    assert_eq!(some_grid(m, n, top, low, high), listed.is_some());
    match listed {
        None => check_none(m, n, top, low, high),
        Some(bounds) => check_pruned(m, n, top, (low, high), &kept, &bounds),
    }
}

fn check_none(m: usize, n: usize, top: u8, low: &[u8], high: &[u8]) {
    let (mut new_low, mut new_high) = (low.to_vec(), high.to_vec());
    let pruned = prune(m as u64, n as u64, top.into(), &mut new_low, &mut new_high);
    let expected = Counted {
        number: 102,
        count: 0,
    };
    assert_eq!(pruned, expected);
    assert_eq!((&new_low[..], &new_high[..]), (low, high));
}

fn check_pruned(
    m: usize,
    n: usize,
    top: u8,
    sent: (&[u8], &[u8]),
    kept: &[Vec<u8>],
    bounds: &Bounds,
) {
    let (mut low, mut high) = (sent.0.to_vec(), sent.1.to_vec());
    let pruned = prune(m as u64, n as u64, top.into(), &mut low, &mut high);
    let removed: usize = (0..m * n)
        .map(|k| values(top, sent.0[k], sent.1[k]).len() - kept[k].len())
        .sum();
    assert_eq!((pruned.number, pruned.count), (0, removed as u64));
    assert_eq!((&low, &high), (&bounds.low, &bounds.high));
    for k in 0..m * n {
        assert_eq!(values(top, low[k], high[k]), kept[k]);
    }
    let again = prune(m as u64, n as u64, top.into(), &mut low, &mut high);
    assert_eq!((again.number, again.count), (0, 0));
    assert_eq!((&low, &high), (&bounds.low, &bounds.high));
}

#[test]
fn a_grid_lies_in_a_form_with_both_bounds_included() {
    let (low, high) = form(&[(1, 3), (2, 2)]);
    assert!(lies_in(&low, &high, &[1, 2]));
    assert!(lies_in(&low, &high, &[3, 2]));
    assert!(!lies_in(&low, &high, &[0, 2]));
    assert!(!lies_in(&low, &high, &[4, 2]));
    assert!(!lies_in(&low, &high, &[1, 1]));
}

#[test]
fn grids_lists_the_grids_in_the_form() {
    for (low, high) in every_form(3, 2) {
        let mut expected = every_grid(3, 2);
        expected.retain(|g| lies_in(&low, &high, g));
        let mut listed = grids(2, &low, &high);
        assert_eq!(listed.len() as u64, number_of_grids(2, &low, &high));
        expected.sort();
        listed.sort();
        assert_eq!(listed, expected);
    }
}

#[test]
fn allperm_by_listing_and_by_sorting_agree() {
    for (m, n) in shapes_up_to(6) {
        for grid in every_grid(m * n, 2) {
            let listed = allperm_by_listing(m, n, &grid);
            assert_eq!(allperm_by_sorting(m, n, &grid), listed);
            assert_eq!(allperm(m, n, &grid), listed);
        }
    }
    let mut random = Random::new(7);
    for _ in 0..300 {
        let (m, n) = (random.between(2, 3) as usize, random.between(3, 6) as usize);
        let mut grid = random.cells(m * n, 3);
        grid[0] = 0;
        let listed = allperm_by_listing(m, n, &grid);
        assert_eq!(allperm_by_sorting(m, n, &grid), listed);
    }
}

#[test]
fn allperm_sorts_only_the_other_rows() {
    assert!(!allperm(2, 2, &[1, 0, 0, 1]));
    assert!(!allperm(2, 2, &[0, 1, 0, 0]));
    assert!(allperm(2, 2, &[0, 1, 1, 0]));
    assert!(!allperm(2, 5, &[0, 1, 1, 1, 1, 1, 1, 1, 0, 0]));
    assert!(allperm(2, 5, &[0, 0, 1, 1, 1, 1, 1, 1, 0, 0]));
}

#[test]
fn allperm_always_holds_with_one_row() {
    assert!(every_grid(3, 2).iter().all(|g| allperm(1, 3, g)));
    assert!(allperm(1, 16, &[15; 16]));
}

#[test]
fn all_forms_of_tiny_shapes() {
    let shapes = [
        (1, 1, 3),
        (1, 2, 2),
        (2, 1, 3),
        (3, 1, 2),
        (2, 2, 2),
        (4, 1, 2),
        (1, 4, 1),
        (5, 1, 1),
        (2, 3, 1),
        (3, 2, 1),
        (2, 4, 1),
        (4, 2, 1),
    ];
    for (m, n, top) in shapes {
        for (low, high) in every_form(m * n, top) {
            check_form(m, n, top, &low, &high);
        }
    }
}

#[test]
fn every_eleventh_form_of_larger_shapes() {
    for (m, n, top) in [(2, 3, 2), (3, 2, 2), (3, 3, 1)] {
        for (low, high) in every_form(m * n, top).into_iter().step_by(11) {
            check_form(m, n, top, &low, &high);
        }
    }
}

#[test]
fn random_forms() {
    let mut random = Random::new(8);
    for _ in 0..3000 {
        let (m, n) = (random.between(2, 4) as usize, random.between(1, 6) as usize);
        let top = random.between(1, 5) as u8;
        let form = drawn(&mut random, m * n, top);
        let (low, high) = narrowed(&mut random, n, top, form, 150);
        check_form(m, n, top, &low, &high);
    }
}

/// Checks random forms with row 0 near the other rows, so that pruning reaches far, and with
/// at most `limit` grids.
fn check_close_forms(seed: u64, times: usize, rows: u64, columns: u64, limit: u64) {
    let mut random = Random::new(seed);
    for _ in 0..times {
        let m = random.between(2, rows) as usize;
        let n = random.between(2, columns) as usize;
        let top = random.between(1, 5) as u8;
        let form = close(&mut random, m, n, top);
        let (low, high) = narrowed(&mut random, n, top, form, limit);
        check_form(m, n, top, &low, &high);
    }
}

#[test]
fn random_forms_with_row_0_near_the_other_rows() {
    check_close_forms(9, 3000, 3, 5, 100);
}

#[test]
fn random_forms_of_all_shapes_with_few_grids() {
    check_close_forms(12, 1500, 8, 16, 20);
}

/// The value of the lowest rank.
fn lowest(top: u8) -> u8 {
    (0..=top).min_by_key(|&v| rank(v)).unwrap()
}

#[test]
fn the_call_prunes_large_forms_by_extremal_grids() {
    let mut random = Random::new(10);
    let mut met = [0, 0, 0];
    for _ in 0..300 {
        let (m, n) = (
            random.between(2, 8) as usize,
            random.between(4, 16) as usize,
        );
        let (mut low, high) = drawn(&mut random, m * n, 15);
        if random.once_in(2) {
            low[0] = lowest(15);
        }
        let (mut new_low, mut new_high) = (low.clone(), high.clone());
        let pruned = prune(m as u64, n as u64, 15, &mut new_low, &mut new_high);
        match prune_by_extremal(m, n, 15, &low, &high) {
            None => {
                assert_eq!((pruned.number, pruned.count), (102, 0));
                assert_eq!((new_low, new_high), (low, high));
                met[0] += 1;
            }
            Some(bounds) => {
                let kept = kept_by_extremal(m, n, 15, &low, &high);
                let kept: u64 = kept.iter().map(|values| values.len() as u64).sum();
                let removed = number_of_values(15, &low, &high) - kept;
                assert_eq!((pruned.number, pruned.count), (0, removed));
                met[if removed == 0 { 1 } else { 2 }] += 1;
                assert_eq!((new_low, new_high), (bounds.low, bounds.high));
            }
        }
    }
    // Forms without such a grid, forms that lose nothing and forms that lose values.
    assert!(met.iter().all(|&times| times > 0), "{met:?}");
}

#[test]
fn a_form_above_the_listed_number_of_grids_agrees_with_listing() {
    let (low, high) = (vec![0, 0, 1, 0, 0, 0], vec![3, 3, 3, 3, 2, 3]);
    assert!(number_of_grids(3, &low, &high) > LISTED_GRIDS);
    check_form(2, 3, 3, &low, &high);
    check_form(3, 2, 3, &low, &high);
    let (low, high) = (vec![2, 0, 0, 0, 0, 0], vec![3, 3, 3, 3, 3, 3]);
    check_form(2, 3, 3, &low, &high);
    check_form(3, 2, 3, &low, &high);
}

#[test]
fn with_one_row_nothing_is_removed() {
    let mut random = Random::new(11);
    for n in 1..=16 {
        let (low, high) = drawn(&mut random, n, 15);
        let (mut new_low, mut new_high) = (low.clone(), high.clone());
        let pruned = prune(1, n as u64, 15, &mut new_low, &mut new_high);
        assert_eq!((pruned.number, pruned.count), (0, 0));
        assert_eq!((new_low, new_high), (low, high));
    }
}

#[test]
fn the_other_row_is_sorted_for_pruning() {
    // Unsorted, row 0's first cell would be compared with 3 and keep its 2 and 3.
    let (mut low, mut high) = form(&[(0, 3), (0, 3), (3, 3), (1, 1)]);
    let pruned = prune(2, 2, 3, &mut low, &mut high);
    assert_eq!((pruned.number, pruned.count), (0, 2));
    assert_eq!((low, high), form(&[(0, 1), (0, 3), (3, 3), (1, 1)]));
}

#[test]
fn the_largest_form_is_pruned() {
    let (mut low, mut high) = (vec![0; 128], vec![15; 128]);
    let pruned = prune(8, 16, 15, &mut low, &mut high);
    assert_eq!((pruned.number, pruned.count), (0, 0));
    low[0] = 15;
    let pruned = prune(8, 16, 15, &mut low, &mut high);
    assert_eq!((pruned.number, pruned.count), (0, 7 * 16 * 15));
    assert!(low[16..].iter().all(|&v| v == 15));
    assert!(low[1..16].iter().all(|&v| v == 0));
    assert!(high.iter().all(|&v| v == 15));
}
