//! The numbers that the calls answer, those of documents 01 and 02.
//!
//! 1 to 10 and 14 to 16 are refusals: the number of the first question that gets a no. The others
//! are none.

/// The call is done.
pub const DONE: u32 = 0;
/// Refused: the rows are not 1 to 8.
pub const ROWS: u32 = 1;
/// Refused: the columns are not 1 to 16.
pub const COLUMNS: u32 = 2;
/// Refused: top is not 0 to 15.
pub const TOP: u32 = 3;
/// Refused: the capacity is not 1 to 500.
pub const CAPACITY: u32 = 4;
/// Refused: the bytes are not laid out as a register.
pub const LAYOUT: u32 = 5;
/// Refused: a slice has not its exact length.
pub const LENGTH: u32 = 6;
/// Refused: a cell or a bound is above top.
pub const CELL: u32 = 7;
/// Refused: a low is above its high.
pub const BOUNDS: u32 = 8;
/// Refused: nobody holds the class, and the register is full.
pub const FULL: u32 = 9;
/// Refused: this client holds none of the class.
pub const NOT_HELD: u32 = 10;
/// Refused: a terminal's rows are 6 to 8.
pub const TERMINAL_ROWS: u32 = 14;
/// Refused: the client is not 1 to 8.
pub const CLIENT: u32 = 15;
/// Refused: this client's holding of the class is 999 already.
pub const HOLDING: u32 = 16;
/// Enter: some client held the class already.
pub const HELD: u32 = 101;
/// Prune: no grid within the bounds has allperm.
pub const NO_GRID: u32 = 102;
/// Same: the two grids are in two classes.
pub const TWO_CLASSES: u32 = 103;
