//! What nauty writes is in the grid's class, and one grid for all grids of a class.
#![cfg(nauty)]

use benchmark::grids::inputs;
use benchmark::implementations::NAUTY;
use benchmark::inputs::Input;
use benchmark::nauty::{represent, Labelled};
use reference::examples::shapes_up_to;
use reference::grid::{arrangement, identity, is_permutation};
use reference::random::Random;

/// What nauty writes for a grid. Checks that its orders produce it.
fn written(m: usize, n: usize, top: u8, grid: &[u8]) -> Vec<u8> {
    let mut out = vec![255; m * n];
    let orders = represent(m, n, top.into(), grid, &mut out);
    assert_eq!(orders.number, 0);
    assert!(is_permutation(&orders.rows[..m]));
    assert!(is_permutation(&orders.columns[..n]));
    assert_eq!(orders.rows[m..], identity(8)[m..]);
    assert_eq!(orders.columns[n..], identity(16)[n..]);
    assert_eq!(arrangement(m, n, &orders.rows, &orders.columns, grid), out);
    out
}

#[test]
fn shuffled_copies_are_written_alike() {
    let mut random = Random::new(54);
    for (m, n) in shapes_up_to(128) {
        for top in [0, 1, 2, 3, 7, 15] {
            for _ in 0..20 {
                let grid = random.cells(m * n, top);
                let out = written(m, n, top, &grid);
                assert_eq!(written(m, n, top, &out), out);
                let copy = random.shuffled(m, n, &grid);
                assert_eq!(written(m, n, top, &copy), out, "{m}x{n}: {grid:?}");
            }
        }
    }
}

#[test]
fn refusals_are_those_of_the_library() {
    for (m, n, top, cell, length) in [
        (0, 0, 16, 0, 0),
        (8, 17, 16, 99, 136),
        (2, 3, 16, 99, 6),
        (2, 3, 15, 99, 5),
        (2, 3, 15, 16, 6),
    ] {
        let [found, expected] = [represent, plan_register::represent].map(|represent| {
            let mut out = vec![200; length];
            let number = represent(m, n, top, &vec![cell; length], &mut out).number;
            (number, out)
        });
        assert_eq!(found, expected);
    }
}

#[test]
fn the_inputs_have_outputs_of_their_classes() {
    for input in inputs() {
        Labelled(&input).check_equal_outputs(&NAUTY.calls());
    }
}

#[test]
fn the_table_divides_by_nauty() {
    let heading = "| input | plan_register / nauty |\n";
    assert!(NAUTY.heading().starts_with(heading));
}
