//! The questions of a terminal's calls: at and past every limit, every set of failures at once, the
//! first decides, 14 directly after 1 or 5; and a refusal changes no byte.

mod common;

use common::calls::{answer, check_answer, check_call, contents_of};
use common::faults::{check, clients, holdings, registers, sets_of_enter, slices};
use common::limits::{BIT_32, BIT_63, TERMINAL_ROWS};
use common::numbers::Numbers;
use common::sets::TERMINAL;
use plan_register::{terminal_enter, terminal_represent, terminal_same};
use plan_register::{Client, Entered, Refusal, Register};
use reference::calls::Call;
use reference::layout::Contents;
use std::collections::BTreeSet;

#[test]
fn represent_answers_the_first_no() {
    let mut met = BTreeSet::new();
    for numbers in Numbers::every(&TERMINAL_ROWS) {
        for grid_length in numbers.lengths() {
            for grid in numbers.grids(grid_length) {
                for out_length in numbers.lengths() {
                    met.insert(TERMINAL.check_represent_asks(numbers, &grid, out_length));
                }
            }
        }
    }
    // No rows fail both 1 and 14.
    assert_eq!(met.len(), 3 * 16, "every set of the six questions");
}

#[test]
fn same_answers_the_first_no() {
    let mut met = BTreeSet::new();
    for numbers in Numbers::every(&TERMINAL_ROWS) {
        let [none, short, exact, long] = numbers.lengths().map(|length| numbers.grids(length));
        let grids = [none, short, exact, long].concat();
        for a in &grids {
            for b in &grids {
                met.insert(TERMINAL.check_same_asks(numbers, a, b));
            }
        }
    }
    assert_eq!(met.len(), 3 * 16, "every set of the six questions");
}

/// Checks represent and same with slices of this length and cells of this one value. Returns the
/// questions that get a no.
fn nos(m: usize, n: usize, top: usize, cell: u8, length: usize) -> Vec<u32> {
    let numbers = Numbers { m, n, top };
    let grid = vec![cell; length];
    let nos = TERMINAL.check_represent_asks(numbers, &grid, length);
    assert_eq!(TERMINAL.check_same_asks(numbers, &grid, &grid), nos);
    nos
}

#[test]
fn the_edges_of_the_rows() {
    assert_eq!(nos(5, 16, 15, 15, 80), []);
    assert_eq!(nos(6, 16, 15, 15, 96), [14]);
    assert_eq!(nos(7, 16, 15, 15, 112), [14]);
    assert_eq!(nos(8, 16, 15, 15, 128), [14]);
    assert_eq!(nos(9, 16, 15, 15, 144), [1]);
    assert_eq!(nos(0, 16, 15, 15, 0), [1]);
    assert_eq!(nos(1, 1, 0, 0, 1), []);
}

#[test]
fn rows_6_to_8_are_14_before_every_other_fault() {
    for m in 6..=8 {
        assert_eq!(nos(m, 17, 15, 15, 17 * m), [14, 2]);
        assert_eq!(nos(m, 0, 15, 15, 0), [14, 2]);
        assert_eq!(nos(m, 16, 16, 15, 16 * m), [14, 3]);
        assert_eq!(nos(m, 16, 15, 15, 16 * m - 1), [14, 6]);
        assert_eq!(nos(m, 16, 15, 16, 16 * m), [14, 7]);
        assert_eq!(nos(m, 17, 16, 17, 5), [14, 2, 3, 6, 7]);
    }
}

#[test]
fn other_rows_are_1_before_every_other_fault() {
    let last = usize::MAX;
    for m in [0, 9, 10, 14, BIT_32 + 6, BIT_63, last - 1, last] {
        for n in [0, 17, BIT_63, last] {
            assert_eq!(nos(m, n, 16, 17, 5), [1, 2, 3, 6, 7]);
            assert_eq!(nos(m, n, last, 255, 5), [1, 2, 3, 6]);
        }
    }
}

#[test]
fn products_that_wrap_around_are_no_lengths() {
    let third = usize::MAX / 3;
    for (m, n, wrapped, expected) in [
        (BIT_63, 2, 0, 1),
        (BIT_63 + 3, 2, 6, 1),
        (BIT_32, BIT_32, 0, 1),
        (6, BIT_63 + 1, 6, 14),
        (8, BIT_63, 0, 14),
        (2, BIT_63 + 3, 6, 2),
        (3, 2 * third + 2, 4, 2),
    ] {
        assert_eq!(m.wrapping_mul(n), wrapped);
        assert_eq!(nos(m, n, 3, 1, wrapped)[0], expected);
    }
}

#[test]
fn a_refusal_has_orders_of_5_and_16_positions() {
    let mut out = [9; 6];
    let orders = terminal_represent(6, 1, 3, &[0; 6], &mut out);
    assert_eq!((orders.number, out), (14, [9; 6]));
    assert_eq!(orders.rows, [0, 1, 2, 3, 4]);
    assert!(orders.columns.into_iter().eq(0..16));
    let orders = terminal_same(6, 1, 3, &[0; 6], &[0; 6]);
    assert_eq!((orders.number, orders.agreed), (14, 0));
    assert_eq!(orders.rows, [0, 1, 2, 3, 4]);
    assert!(orders.columns.into_iter().eq(0..16));
}

#[test]
fn every_cell_is_asked() {
    for top in 0..=14 {
        for k in 0..80 {
            let numbers = Numbers { m: 5, n: 16, top };
            let mut grid = vec![top as u8; 80];
            assert_eq!(TERMINAL.check_represent_asks(numbers, &grid, 80), []);
            grid[k] += 1;
            assert_eq!(TERMINAL.check_represent_asks(numbers, &grid, 80), [7]);
            assert_eq!(TERMINAL.check_same_asks(numbers, &grid, &[0; 80]), [7]);
            assert_eq!(TERMINAL.check_same_asks(numbers, &[0; 80], &grid), [7]);
        }
    }
}

/// The representative of so many rows and 3 columns with this as its last row, zeros above it.
fn last_row(m: usize, row: [u8; 3]) -> Vec<u8> {
    [vec![0; 3 * (m - 1)], row.to_vec()].concat()
}

/// A register of so many rows, 3 columns and top 3, full with two entries, the second held as the
/// questions ask that are to fail.
fn full(failed: &[u32], m: usize) -> Contents {
    let grids = [last_row(m, [0, 1, 1]), last_row(m, [0, 2, 3])];
    let mut contents = contents_of(m, 3, 3, 2, &grids);
    contents.entries[1].holdings = holdings(failed);
    contents
}

#[test]
fn enter_answers_the_first_no_of_5_14_6_7_15_9_16() {
    let sets = sets_of_enter([5, 14, 6, 7, 15, 9, 16]);
    assert_eq!(sets.len(), 96);
    for (failed, number) in sets {
        let rows = if failed.contains(&14) { 6..=8 } else { 1..=5 };
        for m in rows {
            let row = match failed.contains(&9) {
                true => [3, 0, 3],
                false => [3, 0, 2],
            };
            for register in registers(&failed, &full(&failed, m)) {
                for grid in slices(&failed, &last_row(m, row)) {
                    for client in clients(&failed) {
                        let call = Call::TerminalEnter(client, grid.clone());
                        check(&register, &call, number);
                    }
                }
            }
        }
    }
}

#[test]
fn enter_asks_every_length_and_every_cell() {
    let register = contents_of(5, 16, 14, 2, &[vec![0; 80]]).bytes();
    let large = contents_of(6, 16, 14, 2, &[vec![0; 96]]).bytes();
    for length in 0..200 {
        let call = Call::TerminalEnter(1, vec![0; length]);
        check(&register, &call, if length == 80 { 101 } else { 6 });
        check(&large, &call, 14);
    }
    for k in 0..80 {
        let mut grid = vec![0; 80];
        grid[k] = 15;
        check(&register, &Call::TerminalEnter(1, grid), 7);
    }
}

#[test]
fn where_a_terminal_is_refused_the_order_system_is_not() {
    for m in 6..=8 {
        let mut register = contents_of(m, 1, 3, 2, &[]).bytes();
        let grid: Vec<u8> = (0..m as u8).map(|cell| cell % 4).collect();
        let at_terminal = Call::TerminalEnter(1, grid.clone());
        check_answer(&register, &at_terminal, answer(14, 0), &register);
        assert_eq!(
            check_call(&mut register, &Call::Enter(1, grid.clone())),
            answer(0, 1)
        );
        // Held, and full: still 14, and nothing changes.
        check_answer(&register, &at_terminal, answer(14, 0), &register);
        check_call(&mut register, &Call::Enter(1, vec![0; m]));
        check_answer(&register, &at_terminal, answer(14, 0), &register);
        let new = Call::TerminalEnter(1, vec![3; m]);
        check_answer(&register, &new, answer(14, 0), &register);
        let strike = Call::Strike(1, grid);
        assert_eq!(check_call(&mut register, &strike), answer(0, 2));
    }
}

#[test]
fn a_register_that_owns_its_bytes_refuses_6_to_8_rows_too() {
    for m in 6..=8 {
        let mut register = Register::open(m, 2, 1, 1).unwrap();
        let before = register.clone();
        let grid = vec![0; 2 * m];
        for grid in [&grid[..], &grid[1..], &[2], &[]] {
            let entered = register.terminal_enter(Client::ALL[0], grid);
            assert_eq!(entered, Err(Refusal::TerminalRows));
        }
        assert_eq!(register, before);
    }
}

#[test]
fn a_register_that_owns_its_bytes_refuses_too() {
    for m in 1..=5 {
        let mut register = Register::open(m, 2, 1, 1).unwrap();
        let before = register.clone();
        let [zeros, ones, twos] = [0, 1, 2].map(|cell| vec![cell; 2 * m]);
        let enter = |register: &mut Register, grid: &[u8]| {
            let entered = register.terminal_enter(Client::ALL[0], grid);
            entered.map(Entered::place)
        };
        assert_eq!(enter(&mut register, &zeros[1..]), Err(Refusal::Length));
        assert_eq!(enter(&mut register, &twos), Err(Refusal::Cell));
        assert_eq!(register, before);
        for _ in 0..999 {
            assert_eq!(enter(&mut register, &zeros), Ok(1));
        }
        let before = register.clone();
        assert_eq!(enter(&mut register, &ones), Err(Refusal::Full));
        assert_eq!(enter(&mut register, &zeros), Err(Refusal::Holding));
        assert_eq!(register, before);
    }
}

#[test]
fn no_bytes_at_all() {
    assert_eq!(terminal_enter(&mut [], 0, &[]).number, 5);
    assert_eq!(terminal_represent(0, 0, 0, &[], &mut []).number, 1);
    assert_eq!(terminal_represent(6, 0, 0, &[], &mut []).number, 14);
    assert_eq!(terminal_represent(5, 0, 0, &[], &mut []).number, 2);
    assert_eq!(terminal_same(6, 0, 0, &[], &[]).number, 14);
}
