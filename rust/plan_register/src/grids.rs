//! The calls on grids. A grid of m rows and n columns is m times n cells, row after row.
#![allow(unsafe_code)]

use crate::sys::{plan_register_represent, plan_register_same};
use crate::{Arranged, Matched};

/// Represent: writes the least arrangement of the grid's class to `out`.
///
/// `m` rows 1 to 8, `n` columns 1 to 16, cells 0 to `top`, which is at most 15; `grid` and
/// `out` have m times n bytes each. Number 0 with orders by which `out` is the arrangement of
/// `grid`; where several pairs of orders are, which pair is free. Otherwise a refusal,
/// 1, 2, 3, 6 or 7, and `out` keeps its bytes.
///
/// ```
/// use plan_register::numbers::DONE;
///
/// let mut out = [0; 6];
/// let arranged = plan_register::represent(2, 3, 3, &[2, 2, 3, 2, 3, 1], &mut out);
/// assert_eq!(arranged.number, DONE);
/// assert_eq!(out, [1, 2, 3, 3, 2, 2]);
/// assert_eq!(arranged.rows[..2], [1, 0]);
/// assert_eq!(arranged.columns[..3], [2, 0, 1]);
/// ```
pub fn represent(m: usize, n: usize, top: usize, grid: &[u8], out: &mut [u8]) -> Arranged {
    let (from, to) = (grid.as_ptr(), out.as_mut_ptr());
    // SAFETY: as `sys` says of every call.
    unsafe { plan_register_represent(m, n, top, from, grid.len(), to, out.len()) }
}

/// Same: are the grids `a` and `b` in one class?
///
/// The numbers and the slices are as for [`represent`]. Number 0 with orders by which `b` is
/// the arrangement of `a`, any such pair; 103 where the grids are in two classes. With either, how
/// many leading cells of the two least arrangements agree. Otherwise a refusal, 1, 2, 3, 6 or 7.
///
/// ```
/// use plan_register::numbers::{DONE, TWO_CLASSES};
///
/// let one = plan_register::same(1, 3, 3, &[3, 0, 2], &[0, 2, 3]);
/// assert_eq!((one.number, one.agreed), (DONE, 3));
/// assert_eq!(one.columns[..3], [1, 2, 0]);
/// let two = plan_register::same(2, 2, 1, &[0, 0, 1, 1], &[0, 1, 0, 1]);
/// assert_eq!((two.number, two.agreed), (TWO_CLASSES, 1));
/// ```
pub fn same(m: usize, n: usize, top: usize, a: &[u8], b: &[u8]) -> Matched {
    // SAFETY: as `sys` says of every call.
    unsafe { plan_register_same(m, n, top, a.as_ptr(), a.len(), b.as_ptr(), b.len()) }
}
