//! What a terminal's represent is compared with does what it does.

use benchmark::call::{terminal_represent, Represent};
use benchmark::implementations::TERMINAL;
use benchmark::inputs::Input;
use benchmark::terminal_grids::inputs;
use plan_register::Arranged;
use reference::examples::shapes_up_to;
use reference::grid::{arrangement, identity, is_permutation, least};
use reference::random::Random;

/// Calls represent on a slice of this length. What it answers, and what it leaves.
fn called(
    represent: Represent,
    [m, n, top]: [usize; 3],
    grid: &[u8],
    length: usize,
) -> (Arranged, Vec<u8>) {
    let mut out = vec![200; length];
    let arranged = represent(m, n, top, grid, &mut out);
    (arranged, out)
}

#[test]
fn a_terminal_s_orders_produce_the_least_arrangement() {
    let mut random = Random::new(61);
    for (m, n) in shapes_up_to(80).into_iter().filter(|&(m, _)| m <= 5) {
        for top in [1, 15] {
            let grid = random.cells(m * n, top);
            let numbers = [m, n, top.into()];
            let (orders, out) = called(terminal_represent, numbers, &grid, m * n);
            assert_eq!((orders.number, &out), (0, &least(m, n, &grid)));
            assert!(is_permutation(&orders.rows[..m]));
            assert!(is_permutation(&orders.columns[..n]));
            assert_eq!(orders.rows[m..], identity(8)[m..]);
            assert_eq!(orders.columns[n..], identity(16)[n..]);
            assert_eq!(arrangement(m, n, &orders.rows, &orders.columns, &grid), out);
        }
    }
}

#[test]
fn refusals_are_those_of_the_order_system_and_14() {
    for (m, n, top, cell, length) in [
        (0, 0, 16, 0, 0),
        (9, 17, 16, 99, 0),
        (5, 17, 16, 99, 85),
        (5, 16, 16, 99, 80),
        (5, 16, 15, 99, 79),
        (5, 16, 15, 16, 80),
    ] {
        let grid = vec![cell; length];
        let numbers = [m, n, top];
        let expected = called(plan_register::represent, numbers, &grid, length);
        assert_ne!(expected.0.number, 0);
        assert_eq!(called(terminal_represent, numbers, &grid, length), expected);
    }
    let (orders, out) = called(terminal_represent, [6, 1, 1], &[0; 6], 6);
    assert_eq!((orders.number, out), (14, vec![200; 6]));
}

#[test]
fn the_inputs_have_equal_outputs() {
    let inputs = inputs();
    assert_eq!(inputs.len(), 10);
    for input in inputs {
        assert!(input.name().starts_with("terminal represent: "));
        assert!(input.grids.iter().all(|grid| grid.m == 5));
        input.check_equal_outputs(&TERMINAL.calls());
    }
}

#[test]
fn the_table_divides_by_the_terminal() {
    let heading = "| input | Theorem 1 / terminal | order system / terminal |\n";
    assert!(TERMINAL.heading().starts_with(heading));
}
