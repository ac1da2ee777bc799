//! Examples of the source documents 000 and 002.

mod common;

use common::form;
use reference::bounds::{allperm, kept_by_extremal, kept_by_listing, prune};
use reference::examples::{cells, plan};
use reference::grid::{arrangement, arrangements, compare, least, least_brute};
use reference::grid_calls::same;
use std::collections::BTreeSet;

const A: &str = "021201/022110/010212/001122";
const B: &str = "001122/010212/021201/022110";
const C: &str = "001122/010212/012021/022110";

#[test]
fn matrices_a_b_c_of_document_002_are_in_one_class() {
    for a in [A, B, C] {
        for b in [A, B, C] {
            let (m, n, grid) = plan(a);
            let orders = same(4, 6, 2, &grid, &cells(b));
            assert_eq!(orders.number, 0);
            let carried = arrangement(m, n, &orders.rows, &orders.columns, &grid);
            assert_eq!(carried, cells(b));
        }
    }
}

#[test]
fn matrices_a_b_c_have_one_representative_which_is_none_of_them() {
    for text in [A, B, C] {
        let (m, n, grid) = plan(text);
        assert_eq!(least(m, n, &grid), cells("001122/010212/012021/021201"));
    }
    assert!(compare(&cells("001122/010212/012021/021201"), &cells(C)).is_lt());
    let (m, n, grid) = plan(C);
    assert_eq!(
        least_brute(m, n, &grid),
        cells("001122/010212/012021/021201")
    );
}

#[test]
fn document_000_section_1_two_matrices_of_one_class() {
    let (first, second) = (cells("223/231"), cells("123/322"));
    let orders = same(2, 3, 3, &first, &second);
    assert_eq!(orders.number, 0);
    // The rows swapped and the columns rotated to the right.
    assert_eq!(orders.rows[..2], [1, 0]);
    assert_eq!(orders.columns[..3], [2, 0, 1]);
    assert!(!allperm(2, 3, &first));
    assert!(allperm(2, 3, &second));
}

#[test]
fn document_000_section_3_the_twelve_arrangements() {
    let printed = [
        "ABCDEF", "ACBDFE", "BACEDF", "BCAEFD", "CBAFED", "CABFDE", "DEFABC", "DFEACB", "EDFBAC",
        "EFDBCA", "FEDCBA", "FDECAB",
    ];
    let listed: BTreeSet<Vec<u8>> = printed.iter().map(|s| s.bytes().collect()).collect();
    assert_eq!(listed.len(), 12);
    let arranged: BTreeSet<Vec<u8>> = arrangements(2, 3, b"ABCDEF").into_iter().collect();
    assert_eq!(arranged, listed);
}

#[test]
fn document_000_section_3_allperm_does_not_make_classes_unique() {
    let (first, second) = (cells("123/312"), cells("123/231"));
    assert_eq!(same(2, 3, 3, &first, &second).number, 0);
    assert!(allperm(2, 3, &first));
    assert!(allperm(2, 3, &second));
    assert_eq!(least(2, 3, &first), second);
}

/// Prunes two rows and compares with the bounds expected and with both ways of pruning.
fn check_pruned(top: u8, before: &[(u8, u8)], after: &[(u8, u8)], removed: u64) {
    let n = before.len() / 2;
    let (mut low, mut high) = form(before);
    let kept: Vec<Vec<u8>> = after.iter().map(|&(l, h)| (l..=h).collect()).collect();
    assert_eq!(kept_by_listing(2, n, top, &low, &high), kept);
    assert_eq!(kept_by_extremal(2, n, top, &low, &high), kept);
    let pruned = prune(2, n as u64, top.into(), &mut low, &mut high);
    assert_eq!((pruned.number, pruned.count), (0, removed));
    assert_eq!((low, high), form(after));
}

#[test]
fn document_000_section_5_2_first_matrix_loses_nothing() {
    let bounds = [
        (1, 2),
        (1, 2),
        (4, 4),
        (4, 4),
        (3, 3),
        (3, 3),
        (2, 2),
        (2, 2),
    ];
    check_pruned(4, &bounds, &bounds, 0);
}

#[test]
fn document_000_section_5_2_second_matrix_loses_one_value() {
    let before = [
        (1, 1),
        (2, 2),
        (3, 4),
        (3, 4),
        (2, 2),
        (1, 1),
        (3, 3),
        (4, 4),
    ];
    let mut after = before;
    after[2] = (3, 3);
    check_pruned(4, &before, &after, 1);
}

#[test]
fn document_000_section_6_2_worked_example() {
    let before = [
        (2, 3),
        (3, 4),
        (4, 5),
        (6, 6),
        (4, 5),
        (1, 3),
        (1, 2),
        (4, 5),
    ];
    let after = [
        (2, 2),
        (3, 3),
        (4, 4),
        (6, 6),
        (5, 5),
        (3, 3),
        (2, 2),
        (5, 5),
    ];
    check_pruned(6, &before, &after, 8);
}
