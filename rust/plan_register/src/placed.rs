//! What open, enter, strike and a terminal's enter return.

/// A number and a place.
///
/// | `number` | what it means                                             | by which call  |
/// |----------|-----------------------------------------------------------|----------------|
/// | 0        | done: the register is open, the class entered or struck   | all            |
/// | 1        | refused: the rows are not 1 to 8                          | open           |
/// | 2        | refused: the columns are not 1 to 16                      | open           |
/// | 3        | refused: top is not 0 to 15                               | open           |
/// | 4        | refused: the capacity is not 1 to 500                     | open           |
/// | 5        | refused: the bytes are not laid out as a register         | enter, strike  |
/// | 14       | refused: the register's rows are 6 to 8                   | terminal enter |
/// | 6        | refused: a slice has not its exact length                 | all            |
/// | 7        | refused: a cell is above top                              | enter, strike  |
/// | 15       | refused: the client is not 1 to 8                         | enter, strike  |
/// | 9        | refused: nobody holds the class, and the register is full | enter          |
/// | 16       | refused: this client's holding is 999 already             | enter          |
/// | 10       | refused: this client holds none of the class              | strike         |
/// | 101      | done: entered, and some client held the class before      | enter          |
///
/// A terminal's enter answers what enter does too. Of several refusals the first in this list is
/// returned. With a refusal the register is unchanged.
#[repr(C)]
#[must_use]
#[derive(Clone, Copy, Debug, PartialEq, Eq)]
pub struct Placed {
    /// 0 or 101, or what kept the call from being done.
    pub number: u32,
    /// The line that the class's entry has, or had before the strike, the first entry's being 1.
    /// 0 by open, and with a refusal.
    pub place: u32,
}
