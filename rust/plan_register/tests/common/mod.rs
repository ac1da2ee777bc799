//! What several tests share: the calls, with all their promises checked but the least itself.
//!
//! | module       | what                                                           |
//! |--------------|----------------------------------------------------------------|
//! | `lent`       | a slice to lend, between margins that no call may touch        |
//! | `limits`     | numbers at and past the limits                                 |
//! | `numbers`    | rows, columns and top of a call, and grids that fail questions |
//! | `sets`       | represent and same, of the order system and of a terminal      |
//! | `calls`      | calls on a register, each compared with the reference          |
//! | `forms`      | bounds to count the entries of a register in                   |
//! | `pruned`     | bounds that are pruned once, and registers to count them in    |
//! | `met`        | what came up, and how often                                    |
//! | `lists`      | lists of calls on a register, against reference and machine    |
//! | `faults`     | registers and slices that fail questions                       |
//! | `question_5` | question 5 on bytes that may be no register                    |
//! | `book`       | a register beside what it is to hold, for shapes of many rows  |
#![allow(dead_code)]

pub mod book;
pub mod calls;
pub mod faults;
pub mod forms;
mod lent;
pub mod limits;
pub mod lists;
pub mod met;
pub mod numbers;
pub mod pruned;
pub mod question_5;
pub mod sets;

pub use lent::Lent;
use plan_register::{prune, Counted};
use reference::examples::shapes_up_to;
use reference::grid::agreed;
use reference::random::Random;
use sets::ORDER_SYSTEM;

/// Calls represent on a grid that passes, and returns what it wrote, which is in the grid's class.
pub fn represented(m: usize, n: usize, top: u8, grid: &[u8]) -> Vec<u8> {
    ORDER_SYSTEM.represented(m, n, top, grid)
}

/// Checks same on two grids that pass, against the reference. Are they in one class?
pub fn check_same(m: usize, n: usize, top: u8, a: &[u8], b: &[u8]) -> bool {
    ORDER_SYSTEM.check_same(m, n, top, a, b)
}

/// Checks same on two grids of one class.
pub fn check_one_class(m: usize, n: usize, top: u8, a: &[u8], b: &[u8]) {
    ORDER_SYSTEM.check_one_class(m, n, top, a, b);
}

/// Calls same on two grids of two classes. Checks its answer by what represent writes for them,
/// since the reference is slow on large ones.
pub fn check_two_classes(m: usize, n: usize, top: u8, a: &[u8], b: &[u8]) {
    let (of_a, of_b) = (represented(m, n, top, a), represented(m, n, top, b));
    check_parting(m, n, top, a, b, agreed(&of_a, &of_b));
}

/// Checks same on two grids of two classes, in either order: so many cells agree.
pub fn check_parting(m: usize, n: usize, top: u8, a: &[u8], b: &[u8], agreed: usize) {
    ORDER_SYSTEM.check_parting(m, n, top, a, b, agreed);
}

/// Calls prune on bounds that pass. Checks its answer and what it wrote against the reference,
/// that no other byte changed, and that prune finds nothing to remove from what it wrote.
pub fn check_prune(m: usize, n: usize, top: u8, low: &[u8], high: &[u8]) -> Counted {
    let (mut new_low, mut new_high) = (low.to_vec(), high.to_vec());
    let expected =
        reference::bounds::prune(m as u64, n as u64, top.into(), &mut new_low, &mut new_high);
    let pruned = Counted {
        number: expected.number,
        count: expected.count as u32,
    };
    let new = (&new_low[..], &new_high[..]);
    check_pruned(m, n, top.into(), (low, high), pruned, new);
    let again = Counted { count: 0, ..pruned };
    check_pruned(m, n, top.into(), new, again, new);
    pruned
}

/// Calls prune. Checks that it answers this and leaves these new lows and highs, and that no
/// other byte changed.
pub fn check_pruned(
    m: usize,
    n: usize,
    top: usize,
    (low, high): (&[u8], &[u8]),
    pruned: Counted,
    (new_low, new_high): (&[u8], &[u8]),
) {
    let (mut lent_low, mut lent_high) = (Lent::holding(low), Lent::holding(high));
    let found = prune(m, n, top, lent_low.slice_mut(), lent_high.slice_mut());
    assert_eq!(found, pruned, "{m}x{n} top {top}: {low:?} {high:?}");
    lent_low.check(new_low);
    lent_high.check(new_high);
}

/// A representative: so many cells are 0, and the others, which follow, are 1.
pub fn zeros_then_ones(cells: usize, zeros: usize) -> Vec<u8> {
    (0..cells).map(|k| u8::from(k >= zeros)).collect()
}

/// A number of rows and one of columns within the limits, the rows at most `rows`.
pub fn random_shape(random: &mut Random, rows: u64) -> (usize, usize) {
    let (m, n) = (random.between(1, rows), random.between(1, 16));
    (m as usize, n as usize)
}

/// Every shape of at most so many rows and so many cells.
pub fn shapes_of(rows: usize, cells: usize) -> Vec<(usize, usize)> {
    let shapes = shapes_up_to(cells).into_iter();
    shapes.filter(|&(m, _)| m <= rows).collect()
}

/// Up to this many grids of one shape and top are all tried.
const ALL_TRIED: u32 = 1 << 16;

/// Every shape of at most so many rows with every top of which all grids are tried.
pub fn small_shapes(rows: usize) -> Vec<(usize, usize, u8)> {
    let few = |cells: usize, top: u8| {
        let grids = (u32::from(top) + 1).checked_pow(cells as u32);
        grids.is_some_and(|grids| grids <= ALL_TRIED)
    };
    let shapes = shapes_of(rows, 16).into_iter();
    let every_top = |(m, n)| (0..=15).map(move |top| (m, n, top));
    let shapes = shapes.flat_map(every_top);
    shapes.filter(|&(m, n, top)| few(m * n, top)).collect()
}
