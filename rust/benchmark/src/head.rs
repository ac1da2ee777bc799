//! Line 1 of a register in plain Rust.

use crate::line::HOLDINGS;
use plan_register::numbers::{CAPACITY, COLUMNS, DONE, ROWS, TOP};

/// The length of line 1: five numbers, each 6 wide, and a line feed.
const FIRST_LINE: usize = 31;
const FIELD: usize = 6;

/// What line 1 states.
#[derive(Clone, Copy)]
pub struct Head {
    pub m: usize,
    pub n: usize,
    pub top: usize,
    pub capacity: usize,
    pub count: usize,
}

impl Head {
    /// What line 1 states. `None` where it is not laid out, or past the limits.
    pub fn read(register: &[u8]) -> Option<Head> {
        let line = register.get(..FIRST_LINE)?.strip_suffix(b"\n")?;
        let head = Head {
            m: number(&line[..6])?,
            n: number(&line[6..12])?,
            top: number(&line[12..18])?,
            capacity: number(&line[18..24])?,
            count: number(&line[24..])?,
        };
        head.within_limits().then_some(head)
    }

    /// Writes line 1.
    pub fn write(&self, register: &mut [u8]) {
        let numbers = [self.m, self.n, self.top, self.capacity, self.count];
        let fields = register[..FIRST_LINE - 1].chunks_exact_mut(FIELD);
        for (field, number) in fields.zip(numbers) {
            write_number(field, number);
        }
        register[FIRST_LINE - 1] = b'\n';
    }

    /// The length of an entry's cells, each 3 wide. Behind them are the holdings.
    pub fn cells(&self) -> usize {
        3 * self.m * self.n
    }

    /// The length of an entry's line.
    pub fn width(&self) -> usize {
        self.cells() + HOLDINGS + 1
    }

    /// Where line `k` begins, the first entry's being 0.
    pub fn start(&self, k: usize) -> usize {
        FIRST_LINE + k * self.width()
    }

    fn within_limits(&self) -> bool {
        self.first_no() == DONE && self.count <= self.capacity
    }

    /// The number of the first of questions 1 to 4 that gets a no, or 0.
    pub fn first_no(&self) -> u32 {
        if !(1..=8).contains(&self.m) {
            ROWS
        } else if !(1..=16).contains(&self.n) {
            COLUMNS
        } else if self.top > 15 {
            TOP
        } else if !(1..=500).contains(&self.capacity) {
            CAPACITY
        } else {
            DONE
        }
    }
}

/// Writes the number to the field: right-justified, padded by spaces.
pub fn write_number(field: &mut [u8], number: usize) {
    field.fill(b' ');
    let mut rest = number;
    for byte in field.iter_mut().rev() {
        *byte = b'0' + (rest % 10) as u8;
        rest /= 10;
        if rest == 0 {
            break;
        }
    }
}

/// The number in the field: spaces, then digits without a leading zero.
pub fn number(field: &[u8]) -> Option<usize> {
    let spaces = field.iter().take_while(|&&byte| byte == b' ').count();
    let digits = &field[spaces..];
    if digits.is_empty() || (digits[0] == b'0' && digits.len() > 1) {
        return None;
    }
    digits.iter().try_fold(0, |number, digit| {
        let is_digit = digit.is_ascii_digit();
        is_digit.then(|| 10 * number + usize::from(digit - b'0'))
    })
}
