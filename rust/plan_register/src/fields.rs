//! The numbers in a register's fields. Question 5 got a yes, so a field is spaces and then digits.

use crate::Entry;

/// The number in a field.
pub fn number(field: &[u8]) -> usize {
    let digits = field.iter().filter(|byte| byte.is_ascii_digit());
    digits.fold(0, |number, digit| 10 * number + usize::from(digit - b'0'))
}

/// The entry on a line: so many cells and then eight holdings, each 3 wide.
pub fn entry(line: &[u8], cells: usize) -> Entry {
    let mut numbers = line.chunks_exact(3).map(number);
    let grid = numbers.by_ref().take(cells).map(|value| value as u8);
    Entry {
        grid: grid.collect(),
        holdings: std::array::from_fn(|_| numbers.next().map_or(0, |holding| holding as u16)),
    }
}
