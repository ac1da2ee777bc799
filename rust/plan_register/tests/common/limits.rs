//! Numbers at and past the limits.

pub const BIT_32: usize = 1 << 32;
pub const BIT_63: usize = 1 << 63;

/// The last three of each are such that their low bits alone would pass.
pub const ROWS: [usize; 10] = [0, 1, 2, 8, 9, BIT_63, usize::MAX, 258, 65_538, BIT_32 + 2];
pub const COLUMNS: [usize; 10] = [0, 1, 3, 16, 17, BIT_63, usize::MAX, 259, 65_539, BIT_32 + 3];
pub const TOPS: [usize; 8] = [0, 3, 15, 16, usize::MAX, 256, 65_539, BIT_32 + 3];
const CAPACITIES: [usize; 8] = [0, 1, 500, 501, usize::MAX, BIT_63 + 2, 65_538, BIT_32 + 2];

/// Rows of a call at a terminal. By their low bits alone the last three would pass, or be 14.
pub const TERMINAL_ROWS: [usize; 10] = [0, 1, 5, 6, 8, 9, usize::MAX, 261, 65_542, BIT_32 + 5];

/// Rows, columns, top and capacity.
pub type Numbers = [usize; 4];

/// All of these with each other.
pub fn every_numbers() -> Vec<Numbers> {
    let mut every = Vec::new();
    for m in ROWS {
        for n in COLUMNS {
            for top in TOPS {
                every.extend(CAPACITIES.map(|capacity| [m, n, top, capacity]));
            }
        }
    }
    every
}

/// A length that can be lent: this one, or 6 where it is too long.
pub fn lendable(length: usize) -> usize {
    if length <= 210_000 {
        length
    } else {
        6
    }
}
