//! The pairs of grids on which same is timed.

use crate::call::Same;
use crate::inputs::Input;
use plan_register::numbers::{DONE, TWO_CLASSES};
use reference::grid::arrangement;
use reference::random::Random;
use std::hint::black_box;

const M: usize = 8;
const N: usize = 16;

/// The pairs of one input.
const PAIRS: usize = 20;

/// Pairs that are timed together.
pub struct Pairs {
    name: String,
    top: u8,
    /// What same answers, 0 or 103.
    number: u32,
    pairs: Vec<(Vec<u8>, Vec<u8>)>,
}

/// All inputs, the same in every run.
pub fn inputs() -> Vec<Pairs> {
    vec![
        Pairs::drawn("one class", 1, 15, DONE, shuffled),
        Pairs::drawn("one class", 2, 1, DONE, shuffled),
        Pairs::drawn("two classes", 3, 15, TWO_CLASSES, another),
    ]
}

/// Draws the other grid of a pair.
type Draw = fn(&mut Random, u8, &[u8]) -> Vec<u8>;

/// The grid with its rows and its columns shuffled.
fn shuffled(random: &mut Random, _: u8, grid: &[u8]) -> Vec<u8> {
    random.shuffled(M, N, grid)
}

fn another(random: &mut Random, top: u8, _: &[u8]) -> Vec<u8> {
    random.cells(M * N, top)
}

impl Pairs {
    fn drawn(name: &str, seed: u64, top: u8, number: u32, draw: Draw) -> Pairs {
        let mut random = Random::new(seed);
        let pair = |_| {
            let grid = random.cells(M * N, top);
            let other = draw(&mut random, top, &grid);
            (grid, other)
        };
        Pairs {
            name: format!("same: {name} {M}x{N}, top {top}"),
            top,
            number,
            pairs: (0..PAIRS).map(pair).collect(),
        }
    }
}

impl Input for Pairs {
    type Call = Same;

    fn name(&self) -> &str {
        &self.name
    }

    fn calls(&self) -> u32 {
        self.pairs.len() as u32
    }

    /// The answer is this input's number, as many cells as the first implementation counts and,
    /// with 0, orders that carry one grid to the other.
    fn check_equal_outputs(&self, calls: &[Same]) {
        for same in calls {
            for (a, b) in &self.pairs {
                let found = same(M, N, self.top.into(), a, b);
                let first = calls[0](M, N, self.top.into(), a, b);
                let expected = (self.number, first.agreed);
                assert_eq!((found.number, found.agreed), expected, "{}", self.name);
                let carried = arrangement(M, N, &found.rows, &found.columns, a);
                assert_eq!(carried == *b, self.number == DONE, "{}", self.name);
            }
        }
    }

    fn pass(&self, same: Same) {
        for (a, b) in &self.pairs {
            let (m, n, top) = black_box((M, N, self.top.into()));
            let _ = black_box(same(m, n, top, black_box(a), black_box(b)));
        }
    }
}
