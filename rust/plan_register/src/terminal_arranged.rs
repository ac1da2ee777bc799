//! What a terminal's represent returns.

/// A number, a row order P and a column order Q, as [`Arranged`] is, but P has 5 positions.
///
/// | `number` | what it means                                             |
/// |----------|-----------------------------------------------------------|
/// | 0        | done: the orders are the call's answer                    |
/// | 1        | refused: the rows are not 1 to 8                          |
/// | 14       | refused: the rows are 6 to 8                              |
/// | 2        | refused: the columns are not 1 to 16                      |
/// | 3        | refused: top is not 0 to 15                               |
/// | 6        | refused: a slice has not exactly rows times columns bytes |
/// | 7        | refused: a cell is above top                              |
///
/// Of several refusals the first in this list is returned. With any number but 0 both
/// orders are the starting ones: each position holds its own number.
///
/// [`Arranged`]: crate::Arranged
#[repr(C)]
#[must_use]
#[derive(Clone, Copy, Debug, PartialEq, Eq)]
pub struct TerminalArranged {
    /// 0, or what kept the call from an answer.
    pub number: u32,
    /// P: the first m positions list each row number below m once.
    /// Positions past these hold their own number.
    pub rows: [u8; 5],
    /// Q: the first n positions list each column number below n once.
    /// Positions past these hold their own number.
    pub columns: [u8; 16],
}
