//! The marked plans of document 01, its printed run as request 4 makes it, and examples of
//! documents 000 and 002.

mod common;

use common::calls::{answer, check_answer, check_call, opened};
use common::pruned::Pruned;
use common::{check_one_class, check_parting, check_prune, check_pruned, represented};
use plan_register::{represent, same, Counted};
use reference::calls::Call;
use reference::examples::{cells, plan, register};
use reference::forms::written;

/// Checks the representative of a written grid, with top 3.
fn check_represented(grid: &str, representative: &str) {
    let (m, n, grid) = plan(grid);
    assert_eq!(represented(m, n, 3, &grid), cells(representative));
}

/// Checks what prune makes of written bounds: the number, the bounds after, the count.
fn check_bounds(top: u8, before: &str, number: u32, after: &str, count: u32) {
    let (m, n, (low, high)) = written(before);
    let (_, _, (new_low, new_high)) = written(after);
    let pruned = Counted { number, count };
    check_pruned(
        m,
        n,
        top.into(),
        (&low, &high),
        pruned,
        (&new_low, &new_high),
    );
    assert_eq!(check_prune(m, n, top, &low, &high), pruned);
}

#[test]
fn m1_with_its_only_orders() {
    check_represented("223/231", "123/322");
    let orders = represent(2, 3, 3, &cells("223/231"), &mut [0; 6]);
    assert_eq!(orders.rows[..2], [1, 0]);
    assert_eq!(orders.columns[..3], [2, 0, 1]);
}

#[test]
fn m2_to_m5() {
    check_represented("10/01", "01/10");
    check_represented("112/010", "001/121");
    check_represented("12/12", "12/12");
    check_represented("302", "023");
}

#[test]
fn m6_equal_cells_do_not_make_a_class() {
    check_parting(2, 2, 1, &cells("00/11"), &cells("01/01"), 1);
}

#[test]
fn m9_loses_5_values() {
    check_bounds(3, "13 03/01 02", 0, "11 02/11 12", 5);
}

#[test]
fn m10_has_no_grid_with_allperm() {
    check_bounds(3, "23/01", 102, "23/01", 0);
}

#[test]
fn the_printed_run() {
    let mut bytes = opened(2, 2, 1, 2);
    // Command 3 prunes the form, and then counts.
    let form = Pruned::once(2, 2, 1, (cells("00/00"), cells("01/11")));
    let form = form.pruned.expect("a grid in the form has allperm");
    for (call, number, place) in [
        (Call::Enter(1, cells("10/01")), 0, 1),
        (Call::Enter(1, cells("01/10")), 101, 1),
        (Call::Strike(1, cells("00/11")), 10, 0),
        (Call::Count(form), 0, 1),
        (Call::Enter(1, cells("00/11")), 0, 1),
        (Call::Enter(1, cells("01/01")), 9, 0),
    ] {
        assert_eq!(check_call(&mut bytes, &call), answer(number, place));
    }
    let printed = b"     2     2     1     2     2
  0  0  1  1  1  0  0  0  0  0  0  0
  0  1  1  0  2  0  0  0  0  0  0  0
";
    assert_eq!(bytes, printed);
}

#[test]
fn a_strike_leaves_no_last_line_behind() {
    let before = register(2, 2, 1, 2, &["00/11", "01/10"]);
    let check = |text: &str, place: u32, other: &str| {
        let call = Call::Strike(1, cells(text));
        let left = register(2, 2, 1, 2, &[other]);
        check_answer(&before, &call, answer(0, place), &left);
    };
    check("11/00", 1, "01/10");
    check("10/01", 2, "00/11");
}

#[test]
fn the_other_row_is_sorted_for_pruning() {
    // Unsorted, row 0's first cell would be compared with 3 and keep its 2 and 3.
    check_bounds(3, "03 03/33 11", 0, "01 03/33 11", 2);
}

#[test]
fn equal_row_sums_do_not_make_a_class() {
    check_parting(1, 2, 2, &[0, 2], &[1, 1], 0);
    check_parting(2, 4, 1, &cells("0011/0011"), &cells("0011/0101"), 5);
}

#[test]
fn of_equally_good_rows_the_first_does_not_suffice() {
    check_represented("012/201", "012/120");
}

#[test]
fn document_000_two_matrices_of_one_class_have_one_pair_of_orders() {
    let (first, second) = (cells("223/231"), cells("123/322"));
    check_one_class(2, 3, 3, &first, &second);
    let orders = same(2, 3, 3, &first, &second);
    assert_eq!(orders.rows[..2], [1, 0]);
    assert_eq!(orders.columns[..3], [2, 0, 1]);
}

#[test]
fn document_000_section_5_2_first_matrix_loses_nothing() {
    let matrix = "12 12 44 44/33 33 22 22";
    check_bounds(4, matrix, 0, matrix, 0);
}

#[test]
fn document_000_section_5_2_second_matrix_loses_one_value() {
    let pruned = "11 22 33 34/22 11 33 44";
    check_bounds(4, "11 22 34 34/22 11 33 44", 0, pruned, 1);
}

#[test]
fn document_000_section_6_2_worked_example() {
    let pruned = "22 33 44 66/55 33 22 55";
    check_bounds(6, "23 34 45 66/45 13 12 45", 0, pruned, 8);
}

#[test]
fn document_002_matrices_a_b_c_are_in_one_class() {
    let matrices = [
        "021201/022110/010212/001122",
        "001122/010212/021201/022110",
        "001122/010212/012021/022110",
    ];
    for a in matrices {
        check_represented(a, "001122/010212/012021/021201");
        for b in matrices {
            check_one_class(4, 6, 2, &cells(a), &cells(b));
        }
    }
}
