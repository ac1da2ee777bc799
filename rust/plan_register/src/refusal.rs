//! Why a call is refused.

use crate::numbers;
use std::error::Error;
use std::fmt;

/// The question that a call did not pass. Of several it is the first. They are asked by number, but
/// 14, which only terminals ask, directly after 1, or after 5 where the rows come from a register,
/// 15 after 7, and 16 after 9.
///
/// ```
/// use plan_register::{Refusal, Register};
///
/// let refusal = Register::open(2, 2, 16, 500).unwrap_err();
/// assert_eq!(refusal, Refusal::Top);
/// assert_eq!(refusal.number(), 3);
/// assert_eq!(refusal.to_string(), "top is not 0 to 15 (number 3)");
/// ```
#[derive(Clone, Copy, Debug, PartialEq, Eq, PartialOrd, Ord, Hash)]
#[repr(u32)]
pub enum Refusal {
    /// 1: the rows are not 1 to 8.
    Rows = numbers::ROWS,
    /// 2: the columns are not 1 to 16.
    Columns = numbers::COLUMNS,
    /// 3: top is not 0 to 15.
    Top = numbers::TOP,
    /// 4: the capacity is not 1 to 500.
    Capacity = numbers::CAPACITY,
    /// 5: the bytes are not laid out as a register.
    Layout = numbers::LAYOUT,
    /// 6: a slice has not its exact length.
    Length = numbers::LENGTH,
    /// 7: a cell or a bound is above top.
    Cell = numbers::CELL,
    /// 8: a low is above its high.
    Bounds = numbers::BOUNDS,
    /// 9: nobody holds the class, and the register is full.
    Full = numbers::FULL,
    /// 10: this client holds none of the class.
    NotHeld = numbers::NOT_HELD,
    /// 14: a terminal's rows are 6 to 8.
    TerminalRows = numbers::TERMINAL_ROWS,
    /// 15: the client is not 1 to 8.
    Client = numbers::CLIENT,
    /// 16: this client's holding of the class is 999 already.
    Holding = numbers::HOLDING,
}

impl Refusal {
    /// Every refusal, by number.
    pub const ALL: [Refusal; 13] = [
        Refusal::Rows,
        Refusal::Columns,
        Refusal::Top,
        Refusal::Capacity,
        Refusal::Layout,
        Refusal::Length,
        Refusal::Cell,
        Refusal::Bounds,
        Refusal::Full,
        Refusal::NotHeld,
        Refusal::TerminalRows,
        Refusal::Client,
        Refusal::Holding,
    ];

    /// The question's number, 1 to 10 or 14 to 16.
    #[must_use]
    pub fn number(self) -> u32 {
        self as u32
    }

    /// The refusal with this number. `None` where it is no refusal's, as 0, 101, 102 and 103.
    ///
    /// ```
    /// use plan_register::Refusal;
    ///
    /// let arranged = plan_register::represent(2, 2, 1, &[0, 0, 2, 1], &mut [0; 4]);
    /// assert_eq!(Refusal::numbered(arranged.number), Some(Refusal::Cell));
    /// assert_eq!(Refusal::numbered(0), None);
    /// ```
    #[must_use]
    pub fn numbered(number: u32) -> Option<Refusal> {
        Refusal::ALL.into_iter().find(|r| r.number() == number)
    }

    /// The refusal with this number, which a call answered.
    pub(crate) fn answered(number: u32) -> Refusal {
        Refusal::numbered(number).expect("the number is a refusal's")
    }

    fn words(self) -> &'static str {
        match self {
            Refusal::Rows => "the rows are not 1 to 8",
            Refusal::Columns => "the columns are not 1 to 16",
            Refusal::Top => "top is not 0 to 15",
            Refusal::Capacity => "the capacity is not 1 to 500",
            Refusal::Layout => "the bytes are not laid out as a register",
            Refusal::Length => "a slice has not its exact length",
            Refusal::Cell => "a cell or a bound is above top",
            Refusal::Bounds => "a low is above its high",
            Refusal::Full => "nobody holds the class, and the register is full",
            Refusal::NotHeld => "this client holds none of the class",
            Refusal::TerminalRows => "a terminal's rows are 6 to 8",
            Refusal::Client => "the client is not 1 to 8",
            Refusal::Holding => "this client's holding of the class is 999 already",
        }
    }
}

impl fmt::Display for Refusal {
    fn fmt(&self, formatter: &mut fmt::Formatter) -> fmt::Result {
        write!(formatter, "{} (number {})", self.words(), self.number())
    }
}

impl Error for Refusal {}
