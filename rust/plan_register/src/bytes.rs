//! The calls on a register's bytes. A register of m rows, n columns and a capacity is
//! 31 + capacity * (3 * m * n + 25) bytes of plain text: line 1 states rows, columns, top,
//! capacity and count, the next lines hold an entry each, ascending, and the others are blank.
//! An entry's line has its cells and then the holdings of clients 1 to 8.
#![allow(unsafe_code)]

use crate::sys::{
    plan_register_count, plan_register_enter, plan_register_open, plan_register_strike,
};
use crate::{Counted, Placed};

/// Open: writes an empty register, with count 0 and blank lines.
///
/// `m` rows 1 to 8, `n` columns 1 to 16, `top` 0 to 15, `capacity` 1 to 500; `register` has
/// exactly a register's length, and what it held does not matter. Number 0. Otherwise a
/// refusal, 1, 2, 3, 4 or 6, and `register` keeps its bytes. The place is 0.
///
/// ```
/// use plan_register::numbers::{CAPACITY, DONE};
///
/// let mut register = [0; 31 + 2 * 37];
/// assert_eq!(plan_register::open(2, 2, 1, 2, &mut register).number, DONE);
/// assert_eq!(&register[..31], b"     2     2     1     2     0\n");
/// assert_eq!(&register[31..68], b"                                    \n");
/// assert_eq!(&register[68..], b"                                    \n");
/// assert_eq!(plan_register::open(2, 2, 1, 501, &mut register).number, CAPACITY);
/// ```
pub fn open(m: usize, n: usize, top: usize, capacity: usize, register: &mut [u8]) -> Placed {
    let lines = register.as_mut_ptr();
    // SAFETY: as `sys` says of every call.
    unsafe { plan_register_open(m, n, top, capacity, lines, register.len()) }
}

/// Enter: the client holds one more of the grid's class.
///
/// `client` is 1 to 8. `grid` has m times n cells of 0 to top, as `register` states them. Number 0
/// if the class is new: its representative is now an entry, with 1 as this client's holding and 0
/// as the others'. 101 if some client held it already: this client's holding is 1 more. With either
/// the place is the entry's line, the first entry's being 1. Otherwise a refusal, 5, 6, 7, 15, 9
/// or 16, with place 0, and `register` keeps its bytes.
///
/// ```
/// use plan_register::numbers::{CLIENT, DONE, HELD};
///
/// let mut register = [0; 31 + 37];
/// assert_eq!(plan_register::open(2, 2, 1, 1, &mut register).number, DONE);
/// let entered = plan_register::enter(&mut register, 1, &[1, 0, 0, 1]);
/// assert_eq!((entered.number, entered.place), (DONE, 1));
/// assert_eq!(&register[31..], b"  0  1  1  0  1  0  0  0  0  0  0  0\n");
/// let again = plan_register::enter(&mut register, 8, &[0, 1, 1, 0]);
/// assert_eq!((again.number, again.place), (HELD, 1));
/// assert_eq!(&register[31..], b"  0  1  1  0  1  0  0  0  0  0  0  1\n");
/// let refused = plan_register::enter(&mut register, 9, &[0, 1, 1, 0]);
/// assert_eq!((refused.number, refused.place), (CLIENT, 0));
/// ```
pub fn enter(register: &mut [u8], client: usize, grid: &[u8]) -> Placed {
    let lines = register.as_mut_ptr();
    // SAFETY: as `sys` says of every call.
    unsafe { plan_register_enter(lines, register.len(), client, grid.as_ptr(), grid.len()) }
}

/// Strike: the client holds one less of the grid's class. Where nobody holds any then, the entry
/// goes, and the later ones move up.
///
/// `client` and `grid` are as for [`enter`]. Number 0 with the line that the entry had. Otherwise a
/// refusal, 5, 6, 7, 15 or 10, with place 0, and `register` keeps its bytes.
///
/// ```
/// use plan_register::numbers::{DONE, NOT_HELD};
///
/// let mut register = *b"     1     1     3     1     1\n  3  1  0  1  0  0  0  0  0\n";
/// let struck = plan_register::strike(&mut register, 1, &[3]);
/// assert_eq!((struck.number, struck.place), (DONE, 1));
/// assert_eq!(&register[31..], b"  3  0  0  1  0  0  0  0  0\n");
/// assert_eq!(plan_register::strike(&mut register, 1, &[3]).number, NOT_HELD);
/// let struck = plan_register::strike(&mut register, 3, &[3]);
/// assert_eq!((struck.number, struck.place), (DONE, 1));
/// assert_eq!(&register, b"     1     1     3     1     0\n                           \n");
/// ```
pub fn strike(register: &mut [u8], client: usize, grid: &[u8]) -> Placed {
    let lines = register.as_mut_ptr();
    // SAFETY: as `sys` says of every call.
    unsafe { plan_register_strike(lines, register.len(), client, grid.as_ptr(), grid.len()) }
}

/// Count: counts the entries within the bounds, both included. It prunes nothing.
///
/// `low` and `high` have m times n bounds of 0 to top each, as `register` states them. Number 0
/// with the count of entries, whoever holds them. Otherwise a refusal, 5, 6, 7 or 8, with count 0.
/// No byte changes.
///
/// ```
/// use plan_register::numbers::{BOUNDS, DONE};
///
/// let register = *b"     1     2     3     2     2
///   0  3  1  0  0  0  0  0  0  0
///   1  1  0  0  2  0  0  0  0  1
/// ";
/// let counted = plan_register::count(&register, &[0, 1], &[0, 3]);
/// assert_eq!((counted.number, counted.count), (DONE, 1));
/// let refused = plan_register::count(&register, &[0, 3], &[0, 1]);
/// assert_eq!((refused.number, refused.count), (BOUNDS, 0));
/// ```
///
/// On a register that only calls wrote, bounds that [`prune`] pruned with the register's rows,
/// columns and top have the count that they had before; where prune says 102, that count is 0.
///
/// ```
/// use plan_register::{count, prune};
///
/// let register = *b"     2     1     3     2     2
///   0  3  1  0  0  0  0  0  0  0
///   1  1  0  0  2  0  0  0  0  1
/// ";
/// let (mut low, mut high) = ([0, 0], [3, 1]);
/// assert_eq!(count(&register, &low, &high).count, 1);
/// assert_eq!(prune(2, 1, 3, &mut low, &mut high).count, 2);
/// assert_eq!((low, high), ([0, 0], [1, 1]));
/// assert_eq!(count(&register, &low, &high).count, 1);
/// ```
///
/// [`prune`]: crate::prune
pub fn count(register: &[u8], low: &[u8], high: &[u8]) -> Counted {
    let (lines, lows, highs) = (register.as_ptr(), low.as_ptr(), high.as_ptr());
    // SAFETY: as `sys` says of every call.
    unsafe { plan_register_count(lines, register.len(), lows, low.len(), highs, high.len()) }
}
