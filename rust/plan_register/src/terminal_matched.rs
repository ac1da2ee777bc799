//! What a terminal's same returns.

use crate::Agreement;

/// A number, how many leading cells of the two least arrangements agree, a row order P and a
/// column order Q, as [`Matched`] is, but P has 5 positions.
///
/// | `number` | what it means                                             | `agreed`          |
/// |----------|-----------------------------------------------------------|-------------------|
/// | 0        | the two grids are in one class                            | all, m times n    |
/// | 103      | they are in two classes; this is no refusal               | below m times n   |
/// | 1        | refused: the rows are not 1 to 8                          | 0                 |
/// | 14       | refused: the rows are 6 to 8                              | 0                 |
/// | 2        | refused: the columns are not 1 to 16                      | 0                 |
/// | 3        | refused: top is not 0 to 15                               | 0                 |
/// | 6        | refused: a slice has not exactly rows times columns bytes | 0                 |
/// | 7        | refused: a cell is above top                              | 0                 |
///
/// Of several refusals the first in this list is returned. With any number but 0 both
/// orders are the starting ones: each position holds its own number.
///
/// [`Matched`]: crate::Matched
#[repr(C)]
#[must_use]
#[derive(Clone, Copy, Debug, PartialEq, Eq)]
pub struct TerminalMatched {
    /// 0, 103, or what kept the call from an answer.
    pub number: u32,
    /// How many leading cells of the least arrangements agree, row after row. However A and B are
    /// arranged, it is the same.
    pub agreed: u32,
    /// P: the first m positions list each row number below m once.
    /// Positions past these hold their own number.
    pub rows: [u8; 5],
    /// Q: the first n positions list each column number below n once.
    /// Positions past these hold their own number.
    pub columns: [u8; 16],
}

impl TerminalMatched {
    /// How far the least arrangements agree, in rows of `n` columns, to be told to a person. With a
    /// refusal it is no cell.
    ///
    /// ```
    /// let two = plan_register::terminal_same(2, 3, 2, &[0, 0, 1, 1, 2, 1], &[0, 0, 1, 1, 2, 2]);
    /// assert_eq!(two.agreed, 5);
    /// assert_eq!(two.agreement(3).to_string(), "1 full row and 2 cells of the next row");
    /// ```
    #[must_use]
    pub fn agreement(&self, n: usize) -> Agreement {
        Agreement::of(self.agreed as usize, n)
    }
}
