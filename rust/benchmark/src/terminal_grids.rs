//! The grids on which a terminal's represent is timed, of 5 rows, the most that it takes.

use crate::grids::Grids;
use reference::designs::{cyclic, identity_rows, two_rows, zero};

/// The name of the call, which its lines begin with.
const CALL: &str = "terminal represent";

/// All inputs, the same in every run.
pub fn inputs() -> Vec<Grids> {
    let shapes = [(1, 5, 16), (2, 5, 5)].into_iter();
    shapes
        .flat_map(|(seed, m, n)| of_shape(seed, m, n))
        .collect()
}

/// Random grids and designs of this shape.
fn of_shape(seed: u64, m: usize, n: usize) -> Vec<Grids> {
    let designs = [
        zero(m, n),
        two_rows(m, n),
        cyclic(m, n),
        identity_rows(m, n),
    ];
    let designs = designs.map(|design| Grids::one(CALL, design)).into_iter();
    let random = Grids::random(CALL, seed, m, n, 15);
    [random].into_iter().chain(designs).collect()
}
