//! The call on bounds. The bounds of a grid of m rows and n columns are a low and a high for
//! each cell, m times n of each, row after row.
#![allow(unsafe_code)]

use crate::sys::plan_register_prune;
use crate::Counted;

/// Prune: keeps the values that allperm allows.
///
/// A grid has allperm if row 0 is at most every permutation of every other row. For each cell
/// the values that some grid within the bounds, with allperm, has there are an interval, which
/// is written to `low` and `high`.
///
/// `m` rows 1 to 8, `n` columns 1 to 16, bounds 0 to `top`, which is at most 15; `low` and
/// `high` have m times n bytes each. Number 0 with the count of values removed; 102 where no
/// grid within the bounds has allperm. Otherwise a refusal, 1, 2, 3, 6, 7 or 8. With any
/// number but 0 both slices keep their bytes.
///
/// ```
/// use plan_register::numbers::{DONE, NO_GRID};
///
/// let (mut low, mut high) = ([1, 0, 0, 0], [3, 3, 1, 2]);
/// let pruned = plan_register::prune(2, 2, 3, &mut low, &mut high);
/// assert_eq!((pruned.number, pruned.count), (DONE, 5));
/// assert_eq!((low, high), ([1, 0, 1, 1], [1, 2, 1, 2]));
/// let none = plan_register::prune(2, 1, 3, &mut [2, 0], &mut [3, 1]);
/// assert_eq!(none.number, NO_GRID);
/// ```
pub fn prune(m: usize, n: usize, top: usize, low: &mut [u8], high: &mut [u8]) -> Counted {
    let (lows, highs) = (low.as_mut_ptr(), high.as_mut_ptr());
    // SAFETY: as `sys` says of every call.
    unsafe { plan_register_prune(m, n, top, lows, low.len(), highs, high.len()) }
}
