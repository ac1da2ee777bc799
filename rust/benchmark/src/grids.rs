//! The grids on which represent is timed.

use crate::call::Represent;
use crate::inputs::{check_equal, Input};
use plan_register::numbers::DONE;
use reference::designs::{
    cyclic_latin, efpa, fano, half_hadamard, identity, near_identity, two_rows, zero, Design,
};
use reference::hills;
use reference::random::Random;
use reference::two_valued::{identity_rows_and_one, regular, with_random_columns};
use std::hint::black_box;

/// Grids that are timed together.
pub struct Grids {
    name: String,
    pub grids: Vec<Design>,
}

/// The random grids of one input.
const RANDOM_GRIDS: usize = 20;

/// All inputs, the same in every run.
pub fn inputs() -> Vec<Grids> {
    let mut inputs = vec![
        Grids::random("represent", 1, 8, 16, 15),
        Grids::random("represent", 2, 8, 16, 1),
        Grids::random("represent", 3, 5, 16, 15),
    ];
    let designs = [
        zero(8, 16),
        two_rows(8, 16),
        half_hadamard(),
        cyclic_latin(8),
        identity(8),
        near_identity(8),
        fano(),
        efpa(),
    ];
    inputs.extend(designs.map(|design| Grids::one("represent", design)));
    inputs.extend(drawn_by_two_values());
    let climbed = [hills::square(), hills::wide(), hills::with_random_columns()];
    inputs.extend(climbed.map(|designs| Grids::several("represent", designs)));
    inputs
}

/// Random grids of 0 and 1 that are nearly alike in all rows and columns, or in most.
fn drawn_by_two_values() -> [Grids; 3] {
    let drawn = |seed, name: &str, n: usize, draw: fn(&mut Random) -> Vec<u8>| {
        Grids::drawn(format!("represent: {name} 8x{n}"), seed, 8, n, 1, draw)
    };
    [
        drawn(4, "regular 0-1", 16, |random| regular(random, 8, 16, 4)),
        drawn(5, "seven identity rows and a random one", 8, |random| {
            identity_rows_and_one(random, 8)
        }),
        drawn(6, "the same with random columns", 16, |random| {
            let grid = identity_rows_and_one(random, 8);
            with_random_columns(random, 8, &grid, 8)
        }),
    ]
}

impl Grids {
    /// This grid alone, for the call of this name.
    pub fn one(call: &str, design: Design) -> Grids {
        Grids::several(call, vec![design])
    }

    /// These grids, which have one name, for the call of this name.
    fn several(call: &str, designs: Vec<Design>) -> Grids {
        Grids {
            name: format!("{call}: {}", designs[0].name),
            grids: designs,
        }
    }

    /// Random grids for the call of this name.
    pub fn random(call: &str, seed: u64, m: usize, n: usize, top: u8) -> Grids {
        let name = format!("{call}: random {m}x{n}, top {top}");
        let draw = |random: &mut Random| random.cells(m * n, top);
        Grids::drawn(name, seed, m, n, top, draw)
    }

    /// Grids of this shape that are drawn one after another, for the line of this name.
    fn drawn(
        name: String,
        seed: u64,
        m: usize,
        n: usize,
        top: u8,
        draw: impl Fn(&mut Random) -> Vec<u8>,
    ) -> Grids {
        let mut random = Random::new(seed);
        let grid = |_| Design {
            name: name.clone(),
            m,
            n,
            top,
            cells: draw(&mut random),
        };
        Grids {
            grids: (0..RANDOM_GRIDS).map(grid).collect(),
            name,
        }
    }
}

impl Input for Grids {
    type Call = Represent;

    fn name(&self) -> &str {
        &self.name
    }

    fn calls(&self) -> u32 {
        self.grids.len() as u32
    }

    /// The answer is number 0 and a grid.
    fn check_equal_outputs(&self, calls: &[Represent]) {
        for grid in &self.grids {
            let outputs = calls.iter().map(|represent| {
                let mut out = vec![255; grid.m * grid.n];
                let arranged = represent(grid.m, grid.n, grid.top.into(), &grid.cells, &mut out);
                assert_eq!(arranged.number, DONE, "{}", grid.name);
                out
            });
            check_equal(&grid.name, outputs);
        }
    }

    fn pass(&self, represent: Represent) {
        let mut out = [0; 128];
        for grid in &self.grids {
            let (m, n, top) = black_box((grid.m, grid.n, grid.top.into()));
            let out = &mut out[..grid.cells.len()];
            let _ = black_box(represent(m, n, top, black_box(&grid.cells), out));
            black_box(out);
        }
    }
}
