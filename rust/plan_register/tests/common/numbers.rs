//! Rows, columns and top of a call, and grids of every length that fail some question.

use super::limits::{COLUMNS, TOPS};
use reference::questions::{self, Asked};
use std::collections::BTreeSet;

/// The numbers m, n and top of a call.
#[derive(Clone, Copy, Debug)]
pub struct Numbers {
    pub m: usize,
    pub n: usize,
    pub top: usize,
}

impl Numbers {
    /// Each of these rows with all columns and tops at and past the limits.
    pub fn every(rows: &[usize]) -> Vec<Numbers> {
        let mut every = Vec::new();
        for &m in rows {
            for n in COLUMNS {
                every.extend(TOPS.map(|top| Numbers { m, n, top }));
            }
        }
        every
    }

    /// The exact length of a slice; where m times n is too long to lend, 6.
    fn length(self) -> usize {
        match self.m.wrapping_mul(self.n) {
            length if length <= 1000 => length,
            _ => 6,
        }
    }

    /// None, one short, exact, one long.
    pub fn lengths(self) -> [usize; 4] {
        let exact = self.length();
        [0, exact.saturating_sub(1), exact, exact + 1]
    }

    /// Grids of this length: all cells at top, then one above it as the first, the middle
    /// and the last cell.
    pub fn grids(self, length: usize) -> Vec<Vec<u8>> {
        [vec![self.at_top(length)], self.with_one_cell(length, 1)].concat()
    }

    /// Highs of this length: the grids, then all at top but one below it as the first, the
    /// middle and the last.
    pub fn highs(self, length: usize) -> Vec<Vec<u8>> {
        [self.grids(length), self.with_one_cell(length, -1)].concat()
    }

    fn at_top(self, length: usize) -> Vec<u8> {
        vec![self.top.min(254) as u8; length]
    }

    /// All cells at top, but the first, the middle or the last off by this step, if it can be.
    fn with_one_cell(self, length: usize, step: i8) -> Vec<Vec<u8>> {
        let at_top = self.at_top(length);
        let places = BTreeSet::from([0, length / 2, length.saturating_sub(1)]);
        let changed = places.into_iter().filter_map(|k| {
            let mut grid = at_top.clone();
            let cell = grid.get_mut(k)?;
            *cell = cell.checked_add_signed(step)?;
            Some(grid)
        });
        changed.collect()
    }

    /// What the reference answers to questions 1, 2, 3, 6 and 7.
    pub fn answers(self, slices: &[&[u8]], grids: &[&[u8]]) -> [Asked; 5] {
        let (m, n, top) = (self.m as u64, self.n as u64, self.top as u64);
        [
            questions::rows(m),
            questions::columns(n),
            questions::top(top),
            questions::lengths(slices, m.wrapping_mul(n)),
            questions::cells(grids, top),
        ]
    }
}
