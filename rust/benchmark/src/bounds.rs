//! The bounds on which prune is timed.

use crate::call::Prune;
use crate::inputs::{check_equal, Input};
use plan_register::numbers::{DONE, NO_GRID};
use plan_register::Counted;
use reference::bounds::some_grid;
use reference::forms::{around, close, grid_with_allperm, wide, Form};
use reference::random::Random;
use std::hint::black_box;
use std::iter::repeat_with;

/// Rows, columns and top.
#[derive(Clone, Copy)]
struct Shape {
    m: usize,
    n: usize,
    top: u8,
}

const LARGEST: Shape = Shape {
    m: 8,
    n: 16,
    top: 15,
};

const SMALL: Shape = Shape { m: 4, n: 6, top: 3 };

/// Bounds that are timed together.
pub struct Bounds {
    name: String,
    shape: Shape,
    /// What prune answers, 0 or 102.
    number: u32,
    forms: Vec<Form>,
}

/// The forms of one input.
const FORMS: usize = 20;

/// All inputs, the same in every run.
pub fn inputs() -> Vec<Bounds> {
    vec![
        Bounds::drawn("wide", LARGEST, DONE, wide_form),
        Bounds::drawn("wide, row 0 near the others", LARGEST, DONE, close_form),
        Bounds::drawn("one or two values", LARGEST, DONE, tight_form),
        Bounds::drawn("one value", LARGEST, DONE, single_form),
        Bounds::drawn("no grid, by the last row", LARGEST, NO_GRID, low_last_row),
        Bounds::drawn("row 0 near the others", SMALL, DONE, close_form),
    ]
}

/// Draws a form of this shape.
type Draw = fn(&mut Random, Shape) -> Form;

fn wide_form(random: &mut Random, shape: Shape) -> Form {
    wide(random, shape.m * shape.n, shape.top)
}

fn close_form(random: &mut Random, shape: Shape) -> Form {
    close(random, shape.m, shape.n, shape.top)
}

/// One or two values for each cell of a grid with allperm.
fn tight_form(random: &mut Random, shape: Shape) -> Form {
    let grid = grid(random, shape);
    around(random, shape.top, &grid)
}

/// A grid with allperm.
fn single_form(random: &mut Random, shape: Shape) -> Form {
    let grid = grid(random, shape);
    (grid.clone(), grid)
}

/// Wide but for the last row, which is at its lows.
fn low_last_row(random: &mut Random, shape: Shape) -> Form {
    let (low, mut high) = wide_form(random, shape);
    let last = (shape.m - 1) * shape.n;
    high[last..].copy_from_slice(&low[last..]);
    (low, high)
}

fn grid(random: &mut Random, shape: Shape) -> Vec<u8> {
    grid_with_allperm(random, shape.m, shape.n, shape.top)
}

impl Bounds {
    /// Of the forms drawn, the first to which prune answers this number.
    fn drawn(name: &str, shape: Shape, number: u32, draw: Draw) -> Bounds {
        let Shape { m, n, top } = shape;
        let mut random = Random::new(1);
        let forms = repeat_with(|| draw(&mut random, shape));
        let answered = |(low, high): &Form| some_grid(m, n, top, low, high) == (number == DONE);
        Bounds {
            name: format!("prune: {name} {m}x{n}, top {top}"),
            shape,
            number,
            forms: forms.filter(answered).take(FORMS).collect(),
        }
    }
}

impl Input for Bounds {
    type Call = Prune;

    fn name(&self) -> &str {
        &self.name
    }

    fn calls(&self) -> u32 {
        self.forms.len() as u32
    }

    /// The answer is this input's number, a count and bounds.
    fn check_equal_outputs(&self, calls: &[Prune]) {
        for form in &self.forms {
            let outputs = calls.iter().map(|&prune| {
                let (mut low, mut high) = form.clone();
                let pruned = call(prune, self.shape, &mut low, &mut high);
                assert_eq!(pruned.number, self.number, "{}", self.name);
                (pruned, low, high)
            });
            check_equal(&self.name, outputs);
        }
    }

    /// Prune writes to its slices, so each call is lent copies.
    fn pass(&self, prune: Prune) {
        let (mut lows, mut highs) = ([0; 128], [0; 128]);
        for (low, high) in &self.forms {
            let (lows, highs) = (&mut lows[..low.len()], &mut highs[..high.len()]);
            lows.copy_from_slice(low);
            highs.copy_from_slice(high);
            let _ = black_box(call(
                prune,
                black_box(self.shape),
                black_box(lows),
                black_box(highs),
            ));
        }
    }
}

fn call(prune: Prune, shape: Shape, low: &mut [u8], high: &mut [u8]) -> Counted {
    prune(shape.m, shape.n, shape.top.into(), low, high)
}
