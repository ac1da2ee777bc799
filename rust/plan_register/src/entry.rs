//! An entry of a register.

use crate::Client;

/// An entry as its line states it: a grid, and what each client holds of it.
#[derive(Clone, Debug, PartialEq, Eq)]
pub struct Entry {
    /// The cells, m times n, row after row.
    pub grid: Vec<u8>,
    /// The eight holdings, client 1's first: 0 to 999 each, and not all 0.
    pub holdings: [u16; 8],
}

impl Entry {
    /// What this client holds of the grid, 0 to 999, as the line states it.
    ///
    /// ```
    /// use plan_register::{Client, Register};
    ///
    /// let [anna, ben, ..] = Client::ALL;
    /// let mut register = Register::open(1, 2, 3, 5).unwrap();
    /// assert!(register.enter(anna, &[3, 0]).is_ok());
    /// assert!(register.enter(anna, &[0, 3]).is_ok());
    /// let entry = register.entry(1).unwrap();
    /// assert_eq!((entry.held_by(anna), entry.held_by(ben)), (2, 0));
    /// ```
    #[must_use]
    pub fn held_by(&self, client: Client) -> u16 {
        self.holdings[client.number() - 1]
    }
}
