//! The calls of the shop terminals, for grids of at most 5 rows. There they answer as the order
//! system's calls of these names do, but which pair of orders is returned is free. A register may
//! be used through both sets of calls.
#![allow(unsafe_code)]

use crate::sys::{
    plan_register_terminal_enter, plan_register_terminal_represent, plan_register_terminal_same,
};
use crate::{Placed, TerminalArranged, TerminalMatched};

/// A terminal's represent: writes the least arrangement of the grid's class to `out`.
///
/// `m` rows 1 to 5, `n` columns 1 to 16, cells 0 to `top`, which is at most 15; `grid` and
/// `out` have m times n bytes each. Number 0 with orders by which `out` is the arrangement of
/// `grid`; where several pairs of orders are, which pair is free. Otherwise a refusal,
/// 1, 14, 2, 3, 6 or 7, and `out` keeps its bytes.
///
/// ```
/// use plan_register::numbers::{DONE, TERMINAL_ROWS};
///
/// let mut out = [0; 6];
/// let arranged = plan_register::terminal_represent(2, 3, 3, &[2, 2, 3, 2, 3, 1], &mut out);
/// assert_eq!(arranged.number, DONE);
/// assert_eq!(out, [1, 2, 3, 3, 2, 2]);
/// assert_eq!(arranged.rows, [1, 0, 2, 3, 4]);
/// assert_eq!(arranged.columns[..3], [2, 0, 1]);
/// let refused = plan_register::terminal_represent(6, 1, 3, &[0; 6], &mut out);
/// assert_eq!(refused.number, TERMINAL_ROWS);
/// ```
pub fn terminal_represent(
    m: usize,
    n: usize,
    top: usize,
    grid: &[u8],
    out: &mut [u8],
) -> TerminalArranged {
    let (from, to) = (grid.as_ptr(), out.as_mut_ptr());
    // SAFETY: as `sys` says of every call.
    unsafe { plan_register_terminal_represent(m, n, top, from, grid.len(), to, out.len()) }
}

/// A terminal's same: are the grids `a` and `b` in one class?
///
/// The numbers and the slices are as for [`terminal_represent`]. Number 0 with orders by which `b`
/// is the arrangement of `a`, any such pair; 103 where the grids are in two classes. With either,
/// how many leading cells of the two least arrangements agree. Otherwise a refusal, 1, 14, 2, 3, 6
/// or 7.
///
/// ```
/// use plan_register::numbers::{DONE, TERMINAL_ROWS, TWO_CLASSES};
///
/// let one = plan_register::terminal_same(1, 3, 3, &[3, 0, 2], &[0, 2, 3]);
/// assert_eq!((one.number, one.agreed), (DONE, 3));
/// assert_eq!(one.columns[..3], [1, 2, 0]);
/// let two = plan_register::terminal_same(2, 2, 1, &[0, 0, 1, 1], &[0, 1, 0, 1]);
/// assert_eq!((two.number, two.agreed), (TWO_CLASSES, 1));
/// let refused = plan_register::terminal_same(6, 1, 1, &[0; 6], &[0; 6]);
/// assert_eq!((refused.number, refused.agreed), (TERMINAL_ROWS, 0));
/// ```
pub fn terminal_same(m: usize, n: usize, top: usize, a: &[u8], b: &[u8]) -> TerminalMatched {
    // SAFETY: as `sys` says of every call.
    unsafe { plan_register_terminal_same(m, n, top, a.as_ptr(), a.len(), b.as_ptr(), b.len()) }
}

/// A terminal's enter: the client holds one more of the grid's class.
///
/// `client` is 1 to 8. `grid` has m times n cells of 0 to top, as `register` states them; m is at
/// most 5. Number 0 if the class is new: its representative is now an entry, with 1 as this
/// client's holding and 0 as the others'. 101 if some client held it already: this client's holding
/// is 1 more. With either the place is the entry's line, the first entry's being 1. Otherwise a
/// refusal, 5, 14, 6, 7, 15, 9 or 16, with place 0, and `register` keeps its bytes.
///
/// ```
/// use plan_register::numbers::{DONE, HELD, TERMINAL_ROWS};
///
/// let mut register = [0; 31 + 37];
/// assert_eq!(plan_register::open(2, 2, 1, 1, &mut register).number, DONE);
/// let entered = plan_register::terminal_enter(&mut register, 2, &[1, 0, 0, 1]);
/// assert_eq!((entered.number, entered.place), (DONE, 1));
/// assert_eq!(&register[31..], b"  0  1  1  0  0  1  0  0  0  0  0  0\n");
/// let again = plan_register::enter(&mut register, 2, &[0, 1, 1, 0]);
/// assert_eq!((again.number, again.place), (HELD, 1));
/// assert_eq!(&register[31..], b"  0  1  1  0  0  2  0  0  0  0  0  0\n");
///
/// let mut large = [0; 31 + 43];
/// assert_eq!(plan_register::open(6, 1, 1, 1, &mut large).number, DONE);
/// let refused = plan_register::terminal_enter(&mut large, 2, &[0; 6]);
/// assert_eq!(refused.number, TERMINAL_ROWS);
/// ```
pub fn terminal_enter(register: &mut [u8], client: usize, grid: &[u8]) -> Placed {
    let (lines, length) = (register.as_mut_ptr(), register.len());
    // SAFETY: as `sys` says of every call.
    unsafe { plan_register_terminal_enter(lines, length, client, grid.as_ptr(), grid.len()) }
}
