//! Pruning value by value: each value of each cell is tried in the extremal grid, row 0 at its
//! lows and the other rows at their highs, and kept if that grid has allperm.
//!
//! The other rows are sorted once. A value of row 0 is tried beside all of these, a value of
//! another row beside row 0 alone, with that row sorted anew.

use crate::call::{first_no_of_bounds, unpruned};
use crate::values::{at_most, sorted, within};
use plan_register::numbers::{DONE, NO_GRID};
use plan_register::Counted;

/// Prune value by value.
pub fn prune(m: usize, n: usize, top: usize, low: &mut [u8], high: &mut [u8]) -> Counted {
    let number = first_no_of_bounds(m, n, top, low, high);
    if number != DONE {
        return unpruned(number);
    }
    let extremal = Extremal::new(m, n, low, high);
    let (mut lows, mut highs, mut count) = ([0; 128], [0; 128], 0);
    for k in 0..m * n {
        let Some(kept) = extremal.kept(k, low[k], high[k]) else {
            return unpruned(NO_GRID);
        };
        (lows[k], highs[k]) = (kept.low, kept.high);
        count += kept.removed;
    }
    low.copy_from_slice(&lows[..m * n]);
    high.copy_from_slice(&highs[..m * n]);
    Counted {
        number: DONE,
        count,
    }
}

/// The extremal grid, and its rows past row 0 sorted.
struct Extremal {
    m: usize,
    n: usize,
    rows: [[u8; 16]; 8],
    sorted_rows: [[u8; 16]; 8],
}

/// The least and the greatest value that a cell keeps, and how many it loses.
struct Kept {
    low: u8,
    high: u8,
    removed: u32,
}

impl Extremal {
    fn new(m: usize, n: usize, low: &[u8], high: &[u8]) -> Extremal {
        let (mut rows, mut sorted_rows) = ([[0; 16]; 8], [[0; 16]; 8]);
        rows[0][..n].copy_from_slice(&low[..n]);
        for (i, highs) in high.chunks_exact(n).enumerate().skip(1) {
            rows[i][..n].copy_from_slice(highs);
            sorted_rows[i] = sorted(highs);
        }
        Extremal {
            m,
            n,
            rows,
            sorted_rows,
        }
    }

    /// What cell `k` with these bounds keeps. `None` where that is nothing.
    fn kept(&self, k: usize, low: u8, high: u8) -> Option<Kept> {
        let mut kept = None;
        let mut removed = 0;
        for value in within(low, high) {
            if self.has_allperm_with(k, value) {
                kept = Some((kept.map_or(value, |(least, _)| least), value));
            } else {
                removed += 1;
            }
        }
        kept.map(|(low, high)| Kept { low, high, removed })
    }

    /// Has the grid allperm with this value in cell `k`?
    fn has_allperm_with(&self, k: usize, value: u8) -> bool {
        let (i, n) = (k / self.n, self.n);
        let mut row = self.rows[i];
        row[k % n] = value;
        if i == 0 {
            let others = &self.sorted_rows[1..self.m];
            others.iter().all(|other| at_most(&row[..n], &other[..n]))
        } else {
            at_most(&self.rows[0][..n], &sorted(&row[..n])[..n])
        }
    }
}
