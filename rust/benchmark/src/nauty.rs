//! Represent by nauty's canonical labelling, where nauty is installed.
//!
//! nauty labels graphs. A grid becomes one so: there is a vertex for each row and each bit that
//! the values up to top have, and one for each column, and a row's vertex of a bit is joined to a
//! column's where their cell has that bit. A row's vertices are joined to a path, bit after bit.
//! The vertices of each bit have one colour, and those of columns another. Where it takes fewer
//! vertices, it is the columns that have one for each bit, and the rows have one each. There are 48
//! vertices at most.
//!
//! The grid is then arranged by the labelling: in the order of the rows' vertices of the lowest
//! bit, and of the columns'. That gives one grid for all grids of a class, but not the least one.

use crate::call::{first_no, starting, Represent};
use crate::grids::Grids;
use crate::inputs::Input;
use plan_register::numbers::DONE;
use plan_register::Arranged;
use reference::random::Random;

/// How many shuffled copies of a grid must give what the grid gives.
const COPIES: usize = 4;

extern "C" {
    /// The C function, in c/nauty_represent.c.
    fn nauty_represent(
        m: usize,
        n: usize,
        top: usize,
        grid: *const u8,
        out: *mut u8,
        rows: *mut u8,
        columns: *mut u8,
    );
}

/// The questions of represent, and then nauty's arrangement instead of the least one.
pub fn represent(m: usize, n: usize, top: usize, grid: &[u8], out: &mut [u8]) -> Arranged {
    let mut orders = starting(first_no(m, n, top, grid, out));
    if orders.number == DONE {
        let [rows, columns] = [orders.rows.as_mut_ptr(), orders.columns.as_mut_ptr()];
        // SAFETY: the shape is within the limits, the grid and the output have m * n cells, and
        // m and n numbers are written to the two orders, which have room for 8 and 16.
        unsafe { nauty_represent(m, n, top, grid.as_ptr(), out.as_mut_ptr(), rows, columns) };
    }
    orders
}

/// Grids whose arrangements may differ from implementation to implementation.
pub struct Labelled<'a>(pub &'a Grids);

impl Input for Labelled<'_> {
    type Call = Represent;

    fn name(&self) -> &str {
        self.0.name()
    }

    fn calls(&self) -> u32 {
        self.0.calls()
    }

    /// Each output is in the grid's class, which the library decides, and shuffled copies of the
    /// grid have the same output.
    fn check_equal_outputs(&self, calls: &[Represent]) {
        let mut random = Random::new(1);
        for grid in &self.0.grids {
            let (m, n, top) = (grid.m, grid.n, grid.top);
            let written = |represent: Represent, cells: &[u8]| {
                let mut out = vec![255; m * n];
                let arranged = represent(m, n, top.into(), cells, &mut out);
                assert_eq!(arranged.number, DONE, "{}", grid.name);
                out
            };
            let least = written(plan_register::represent, &grid.cells);
            for &represent in calls {
                let out = written(represent, &grid.cells);
                let least_of_out = written(plan_register::represent, &out);
                assert_eq!(least_of_out, least, "{}", grid.name);
                for _ in 0..COPIES {
                    let copy = random.shuffled(m, n, &grid.cells);
                    assert_eq!(written(represent, &copy), out, "{}", grid.name);
                }
            }
        }
    }

    fn pass(&self, represent: Represent) {
        self.0.pass(represent);
    }
}
