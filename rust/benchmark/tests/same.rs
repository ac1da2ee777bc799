//! The implementation of same that the library is compared with does what it does.

use benchmark::implementations::SAME;
use benchmark::inputs::Input;
use benchmark::pairs::inputs;
use benchmark::same_search::same;
use reference::examples::{every_grid, shapes_up_to};
use reference::grid::{agreed, arrangement, least};
use reference::random::Random;

/// Checks same on two grids: their classes are one or two, so many cells agree, and the orders
/// carry one to the other.
fn check(m: usize, n: usize, top: u8, a: &[u8], b: &[u8]) {
    let (of_a, of_b) = (least(m, n, a), least(m, n, b));
    let one_class = of_a == of_b;
    let found = same(m, n, top.into(), a, b);
    assert_eq!(found.number, if one_class { 0 } else { 103 });
    assert_eq!(found.agreed as usize, agreed(&of_a, &of_b));
    let carried = arrangement(m, n, &found.rows, &found.columns, a);
    assert_eq!(carried == b, one_class, "{m}x{n}: {a:?} {b:?}");
}

#[test]
fn every_pair_of_tiny_grids() {
    for (m, n) in shapes_up_to(6) {
        let grids = every_grid(m * n, 1);
        for a in &grids {
            for b in &grids {
                check(m, n, 1, a, b);
            }
        }
    }
}

#[test]
fn shuffled_and_other_grids_of_every_shape() {
    let mut random = Random::new(81);
    for (m, n) in shapes_up_to(128).into_iter().filter(|&(m, _)| m < 7) {
        for top in [1, 15] {
            let a = random.cells(m * n, top);
            check(m, n, top, &a, &random.shuffled(m, n, &a));
            check(m, n, top, &a, &random.cells(m * n, top));
        }
    }
}

#[test]
fn refusals() {
    for (m, n, top, a, b) in [
        (0, 1, 1, vec![], vec![]),
        (1, 17, 1, vec![0; 17], vec![0; 17]),
        (1, 1, 16, vec![0], vec![0]),
        (1, 2, 3, vec![4, 4], vec![0]),
        (1, 2, 3, vec![0, 0], vec![0, 4]),
    ] {
        let found = same(m, n, top, &a, &b);
        assert_eq!(found, plan_register::same(m, n, top, &a, &b));
        assert_ne!(found.number, 0);
    }
}

#[test]
fn all_implementations_agree_on_the_inputs() {
    for input in inputs() {
        input.check_equal_outputs(&SAME.calls());
    }
}
