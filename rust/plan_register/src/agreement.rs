//! How far two plans agree, in words.

use std::fmt;

/// Leading cells that agree: full rows from the top, and cells of the row after them.
///
/// ```
/// use plan_register::Agreement;
///
/// let words = |rows, cells| Agreement { rows, cells }.to_string();
/// assert_eq!(words(0, 0), "no cell");
/// assert_eq!(words(0, 1), "1 cell of the first row");
/// assert_eq!(words(1, 0), "1 full row");
/// assert_eq!(words(2, 3), "2 full rows and 3 cells of the next row");
/// ```
#[derive(Clone, Copy, Debug, PartialEq, Eq)]
pub struct Agreement {
    /// Rows that agree in every cell.
    pub rows: usize,
    /// Leading cells that agree in the next row; fewer than it has.
    pub cells: usize,
}

impl Agreement {
    /// So many leading cells, in rows of `n` columns; where there is no column, none.
    pub(crate) fn of(agreed: usize, n: usize) -> Agreement {
        Agreement {
            rows: agreed.checked_div(n).unwrap_or(0),
            cells: agreed.checked_rem(n).unwrap_or(0),
        }
    }
}

impl fmt::Display for Agreement {
    fn fmt(&self, formatter: &mut fmt::Formatter) -> fmt::Result {
        let rows = counted(self.rows, "full row");
        let cells = counted(self.cells, "cell");
        match (self.rows, self.cells) {
            (0, 0) => write!(formatter, "no cell"),
            (0, _) => write!(formatter, "{cells} of the first row"),
            (_, 0) => write!(formatter, "{rows}"),
            _ => write!(formatter, "{rows} and {cells} of the next row"),
        }
    }
}

/// The number and the word, which takes an s unless the number is 1.
fn counted(number: usize, word: &str) -> String {
    let ending = if number == 1 { "" } else { "s" };
    format!("{number} {word}{ending}")
}
