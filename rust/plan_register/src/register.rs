//! A register that owns its bytes.

use crate::fields::{entry, number};
use crate::numbers::{DONE, HELD};
use crate::{count, enter, open, strike, terminal_enter};
use crate::{Client, Entered, Entry, Placed, Refusal};
use std::fmt;

/// Line 1: five fields, each 6 wide, and a line feed.
const FIRST_LINE: usize = 31;
const FIELD: usize = 6;

/// An entry's line: the cells and the eight holdings, each 3 wide, and a line feed.
const fn line_length(m: usize, n: usize) -> usize {
    3 * (m * n + Client::ALL.len()) + 1
}

/// A register. Its bytes are always laid out as one, so no call on it is refused by number 5. Its
/// calls take a [`Client`], so none is refused by number 15.
///
/// Grids and bounds are m times n bytes, row after row, as for the calls on slices.
///
/// ```
/// use plan_register::{Client, Entered, Refusal, Register};
///
/// # fn main() -> Result<(), Refusal> {
/// let [anna, ben, ..] = Client::ALL;
/// let mut register = Register::open(2, 2, 1, 2)?;
/// assert_eq!(register.enter(anna, &[1, 0, 0, 1])?, Entered::New { place: 1 });
/// assert_eq!(register.enter(ben, &[0, 1, 1, 0])?, Entered::Held { place: 1 });
/// assert_eq!(register.strike(anna, &[0, 0, 1, 1]), Err(Refusal::NotHeld));
/// assert_eq!(register.count_within(&[0, 0, 0, 0], &[0, 1, 1, 1])?, 1);
/// assert_eq!(register.enter(ben, &[0, 0, 1, 1])?, Entered::New { place: 1 });
/// assert_eq!(register.enter(ben, &[0, 1, 0, 1]), Err(Refusal::Full));
/// assert_eq!(register.count(), 2);
/// assert_eq!(register.bytes(), b"     2     2     1     2     2
///   0  0  1  1  0  1  0  0  0  0  0  0
///   0  1  1  0  1  1  0  0  0  0  0  0
/// ");
/// # Ok(())
/// # }
/// ```
#[derive(Clone, PartialEq, Eq)]
pub struct Register {
    bytes: Vec<u8>,
}

impl Register {
    /// An empty register of `m` rows, `n` columns, cells of 0 to `top`, and this capacity.
    /// Refused by number 1, 2, 3 or 4.
    ///
    /// ```
    /// use plan_register::{Refusal, Register};
    ///
    /// let register = Register::open(8, 16, 15, 500).unwrap();
    /// assert_eq!((register.count(), register.bytes().len()), (0, 204_531));
    /// assert_eq!(Register::open(9, 16, 15, 500), Err(Refusal::Rows));
    /// ```
    pub fn open(m: usize, n: usize, top: usize, capacity: usize) -> Result<Register, Refusal> {
        // No register is empty, so an empty slice is refused by 6 where the limits are right.
        match Refusal::answered(open(m, n, top, capacity, &mut []).number) {
            Refusal::Length => {}
            limit => return Err(limit),
        }
        let mut bytes = vec![0; FIRST_LINE + capacity * line_length(m, n)];
        match open(m, n, top, capacity, &mut bytes).number {
            DONE => Ok(Register { bytes }),
            number => Err(Refusal::answered(number)),
        }
    }

    /// The register with these bytes. Refused by number 5 where they are not laid out as one.
    ///
    /// ```
    /// use plan_register::{Refusal, Register};
    ///
    /// let text = "     1     2     3     1     1\n  0  3  1  0  0  0  0  0  0  2\n";
    /// let register = Register::from_bytes(text.into()).unwrap();
    /// assert_eq!(register.entry(1).unwrap().grid, [0, 3]);
    /// assert_eq!(Register::from_bytes(text[1..].into()), Err(Refusal::Layout));
    /// ```
    pub fn from_bytes(bytes: Vec<u8>) -> Result<Register, Refusal> {
        // No grid is empty, so with empty bounds a register is refused by 6.
        match Refusal::answered(count(&bytes, &[], &[]).number) {
            Refusal::Length => Ok(Register { bytes }),
            layout => Err(layout),
        }
    }

    /// The bytes, plain text.
    ///
    /// ```
    /// let register = plan_register::Register::open(1, 1, 9, 1).unwrap();
    /// assert_eq!(&register.bytes()[..31], b"     1     1     9     1     0\n");
    /// assert_eq!(&register.bytes()[31..], b"                           \n");
    /// ```
    #[must_use]
    pub fn bytes(&self) -> &[u8] {
        &self.bytes
    }

    /// The bytes, to be kept or sent.
    ///
    /// ```
    /// use plan_register::Register;
    ///
    /// let register = Register::open(1, 1, 9, 2).unwrap();
    /// let kept = register.clone().into_bytes();
    /// assert_eq!(Register::from_bytes(kept), Ok(register));
    /// ```
    #[must_use]
    pub fn into_bytes(self) -> Vec<u8> {
        self.bytes
    }

    /// The rows of a grid, 1 to 8.
    ///
    /// ```
    /// let register = plan_register::Register::open(2, 3, 15, 500).unwrap();
    /// assert_eq!((register.rows(), register.columns()), (2, 3));
    /// assert_eq!((register.top(), register.capacity()), (15, 500));
    /// assert_eq!(register.count(), 0);
    /// ```
    #[must_use]
    pub fn rows(&self) -> usize {
        self.stated(0)
    }

    /// The columns of a grid, 1 to 16.
    #[must_use]
    pub fn columns(&self) -> usize {
        self.stated(1)
    }

    /// The greatest cell, 0 to 15.
    #[must_use]
    pub fn top(&self) -> usize {
        self.stated(2)
    }

    /// The most entries, 1 to 500.
    #[must_use]
    pub fn capacity(&self) -> usize {
        self.stated(3)
    }

    /// The number of entries, 0 to the capacity, as line 1 states it.
    #[must_use]
    pub fn count(&self) -> usize {
        self.stated(4)
    }

    /// The number in this field of line 1.
    fn stated(&self, field: usize) -> usize {
        number(&self.bytes[field * FIELD..(field + 1) * FIELD])
    }

    /// The entries, ascending by their grids.
    ///
    /// ```
    /// use plan_register::{Client, Register};
    ///
    /// let [anna, ben, ..] = Client::ALL;
    /// let mut register = Register::open(1, 2, 3, 5).unwrap();
    /// for (client, grid) in [(anna, [2, 1]), (anna, [3, 0]), (ben, [0, 0]), (ben, [0, 3])] {
    ///     assert!(register.enter(client, &grid).is_ok());
    /// }
    /// let grids = register.entries().map(|entry| entry.grid);
    /// assert!(grids.eq([[0, 0], [0, 3], [1, 2]]));
    /// let of_ben = register.entries().map(|entry| entry.held_by(ben));
    /// assert!(of_ben.eq([1, 1, 0]));
    /// ```
    #[must_use]
    pub fn entries(&self) -> impl DoubleEndedIterator<Item = Entry> + ExactSizeIterator + '_ {
        let (m, n) = (self.rows(), self.columns());
        let lines = self.bytes[FIRST_LINE..].chunks_exact(line_length(m, n));
        lines.take(self.count()).map(move |line| entry(line, m * n))
    }

    /// The entry with this place, the first entry's being 1. `None` where there is none.
    ///
    /// ```
    /// use plan_register::{Client, Register};
    ///
    /// let mut register = Register::open(1, 2, 3, 5).unwrap();
    /// let entered = register.enter(Client::ALL[2], &[3, 0]).unwrap();
    /// let entry = register.entry(entered.place()).unwrap();
    /// assert_eq!((entry.grid, entry.holdings), (vec![0, 3], [0, 0, 1, 0, 0, 0, 0, 0]));
    /// assert_eq!(register.entry(2), None);
    /// ```
    #[must_use]
    pub fn entry(&self, place: usize) -> Option<Entry> {
        self.entries().nth(place.checked_sub(1)?)
    }

    /// Enters the grid's class for this client, as [`enter`] does. Refused by number 6, 7, 9 or 16.
    ///
    /// ```
    /// use plan_register::{Client, Entered, Refusal, Register};
    ///
    /// let [anna, ben, ..] = Client::ALL;
    /// let mut register = Register::open(1, 2, 3, 1).unwrap();
    /// assert_eq!(register.enter(anna, &[3, 0]), Ok(Entered::New { place: 1 }));
    /// assert_eq!(register.enter(ben, &[0, 3]), Ok(Entered::Held { place: 1 }));
    /// assert_eq!(register.enter(ben, &[0, 0]), Err(Refusal::Full));
    /// assert_eq!(register.enter(ben, &[0, 4]), Err(Refusal::Cell));
    /// ```
    pub fn enter(&mut self, client: Client, grid: &[u8]) -> Result<Entered, Refusal> {
        entered(enter(&mut self.bytes, client.number(), grid))
    }

    /// Enters the grid's class for this client at a terminal, as [`terminal_enter`] does: where the
    /// register has at most 5 rows, as [`Register::enter`]. Refused by number 14, 6, 7, 9 or 16.
    ///
    /// ```
    /// use plan_register::{Client, Entered, Refusal, Register};
    ///
    /// let [anna, ..] = Client::ALL;
    /// let mut register = Register::open(1, 2, 3, 1).unwrap();
    /// assert_eq!(register.terminal_enter(anna, &[3, 0]), Ok(Entered::New { place: 1 }));
    /// assert_eq!(register.enter(anna, &[0, 3]), Ok(Entered::Held { place: 1 }));
    /// let mut large = Register::open(6, 1, 3, 1).unwrap();
    /// assert_eq!(large.terminal_enter(anna, &[0; 6]), Err(Refusal::TerminalRows));
    /// ```
    pub fn terminal_enter(&mut self, client: Client, grid: &[u8]) -> Result<Entered, Refusal> {
        entered(terminal_enter(&mut self.bytes, client.number(), grid))
    }

    /// Strikes the grid's class for this client, as [`strike`] does: the line that its entry had.
    /// The entry goes when nobody holds any of the class. Refused by number 6, 7 or 10.
    ///
    /// ```
    /// use plan_register::{Client, Refusal, Register};
    ///
    /// let [anna, ben, ..] = Client::ALL;
    /// let mut register = Register::open(1, 2, 3, 1).unwrap();
    /// assert!(register.enter(anna, &[0, 3]).is_ok());
    /// assert!(register.enter(ben, &[0, 3]).is_ok());
    /// assert_eq!(register.strike(anna, &[3, 0]), Ok(1));
    /// assert_eq!(register.strike(anna, &[3, 0]), Err(Refusal::NotHeld));
    /// assert_eq!(register.count(), 1);
    /// assert_eq!(register.strike(ben, &[3, 0]), Ok(1));
    /// assert_eq!(register.count(), 0);
    /// ```
    pub fn strike(&mut self, client: Client, grid: &[u8]) -> Result<usize, Refusal> {
        let struck = strike(&mut self.bytes, client.number(), grid);
        match struck.number {
            DONE => Ok(struck.place as usize),
            number => Err(Refusal::answered(number)),
        }
    }

    /// Counts the entries within the bounds, both included, as [`count`] does, whoever holds them.
    /// Refused by number 6, 7 or 8.
    ///
    /// ```
    /// use plan_register::{Client, Refusal, Register};
    ///
    /// let mut register = Register::open(2, 1, 3, 5).unwrap();
    /// assert!(register.enter(Client::ALL[0], &[0, 3]).is_ok());
    /// assert_eq!(register.count_within(&[0, 0], &[3, 3]), Ok(1));
    /// assert_eq!(register.count_within(&[0, 0], &[3, 2]), Ok(0));
    /// assert_eq!(register.count_within(&[2, 0], &[1, 1]), Err(Refusal::Bounds));
    /// ```
    ///
    /// Nothing is pruned. A laboratory that has pruned bounds once, by [`prune`], can count within
    /// them on several registers of the same rows, columns and top.
    ///
    /// ```
    /// use plan_register::{prune, Client, Refusal, Register};
    ///
    /// # fn main() -> Result<(), Refusal> {
    /// let client = Client::numbered(1)?;
    /// let mut spring = Register::open(2, 2, 3, 5)?;
    /// spring.enter(client, &[1, 1, 2, 1])?;
    /// spring.enter(client, &[1, 2, 1, 2])?;
    /// let mut autumn = Register::open(2, 2, 3, 5)?;
    /// autumn.enter(client, &[2, 1, 1, 0])?;
    ///
    /// let (mut low, mut high) = ([1, 0, 0, 0], [3, 3, 1, 2]);
    /// assert_eq!(prune(2, 2, 3, &mut low, &mut high).number, 0);
    /// assert_eq!((low, high), ([1, 0, 1, 1], [1, 2, 1, 2]));
    /// assert_eq!(spring.count_within(&low, &high)?, 2);
    /// assert_eq!(autumn.count_within(&low, &high)?, 0);
    /// # Ok(())
    /// # }
    /// ```
    ///
    /// [`prune`]: crate::prune
    pub fn count_within(&self, low: &[u8], high: &[u8]) -> Result<usize, Refusal> {
        let counted = count(&self.bytes, low, high);
        match counted.number {
            DONE => Ok(counted.count as usize),
            number => Err(Refusal::answered(number)),
        }
    }
}

/// What either enter answered.
fn entered(placed: Placed) -> Result<Entered, Refusal> {
    let place = placed.place as usize;
    match placed.number {
        DONE => Ok(Entered::New { place }),
        HELD => Ok(Entered::Held { place }),
        number => Err(Refusal::answered(number)),
    }
}

impl fmt::Debug for Register {
    fn fmt(&self, formatter: &mut fmt::Formatter) -> fmt::Result {
        let entries: Vec<Entry> = self.entries().collect();
        formatter
            .debug_struct("Register")
            .field("rows", &self.rows())
            .field("columns", &self.columns())
            .field("top", &self.top())
            .field("capacity", &self.capacity())
            .field("entries", &entries)
            .finish()
    }
}
