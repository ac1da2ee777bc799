//! M1 to M10 of document 01.

mod common;

use common::form;
use reference::bounds::{allperm, allperm_by_listing, allperm_by_sorting, prune, Counted};
use reference::examples::{cells, plan};
use reference::grid::arrangement;
use reference::grid_calls::{represent, same, Arranged, Matched};

/// The representative and the orders of a grid with top 3.
fn represented(text: &str) -> (Vec<u8>, Arranged) {
    let (m, n, grid) = plan(text);
    let mut out = vec![255; grid.len()];
    let orders = represent(m as u64, n as u64, 3, &grid, &mut out);
    assert_eq!(orders.number, 0);
    assert_eq!(arrangement(m, n, &orders.rows, &orders.columns, &grid), out);
    (out, orders)
}

fn has_allperm(text: &str) -> bool {
    let (m, n, grid) = plan(text);
    let answer = allperm(m, n, &grid);
    assert_eq!(allperm_by_listing(m, n, &grid), answer);
    assert_eq!(allperm_by_sorting(m, n, &grid), answer);
    answer
}

#[test]
fn m1_223_231_gives_123_322_with_its_orders() {
    let (least, orders) = represented("223/231");
    assert_eq!(least, cells("123/322"));
    assert_eq!(orders.rows, [1, 0, 2, 3, 4, 5, 6, 7]);
    let columns = [2, 0, 1, 3, 4, 5, 6, 7, 8, 9, 10, 11, 12, 13, 14, 15];
    assert_eq!(orders.columns, columns);
}

#[test]
fn m2_10_01_gives_01_10() {
    assert_eq!(represented("10/01").0, cells("01/10"));
}

#[test]
fn m3_112_010_gives_001_121() {
    assert_eq!(represented("112/010").0, cells("001/121"));
}

#[test]
fn m4_12_12_gives_itself() {
    assert_eq!(represented("12/12").0, cells("12/12"));
}

#[test]
fn m5_302_gives_023() {
    assert_eq!(represented("302").0, cells("023"));
}

#[test]
fn m6_same_of_00_11_and_01_01_is_103() {
    let orders = same(2, 2, 3, &cells("00/11"), &cells("01/01"));
    assert_eq!(orders, Matched::starting(103, 1));
}

#[test]
fn m7_allperm_fails_for_223_231() {
    assert!(!has_allperm("223/231"));
}

#[test]
fn m8_allperm_holds_for_123_322() {
    assert!(has_allperm("123/322"));
}

#[test]
fn m9_prune_removes_5() {
    let (mut low, mut high) = form(&[(1, 3), (0, 3), (0, 1), (0, 2)]);
    let pruned = prune(2, 2, 3, &mut low, &mut high);
    assert_eq!(
        pruned,
        Counted {
            number: 0,
            count: 5
        }
    );
    assert_eq!((low, high), form(&[(1, 1), (0, 2), (1, 1), (1, 2)]));
}

#[test]
fn m10_prune_says_102() {
    let (mut low, mut high) = form(&[(2, 3), (0, 1)]);
    let pruned = prune(2, 1, 3, &mut low, &mut high);
    assert_eq!(
        pruned,
        Counted {
            number: 102,
            count: 0
        }
    );
    assert_eq!((low, high), form(&[(2, 3), (0, 1)]));
}
