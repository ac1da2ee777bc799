//! The entries within bounds, counted on their lines without reading the cells.
//!
//! A field's last byte, less the digit 0, and with 10 more after a ten's 1, is the cell, which is
//! held to its bounds by rank. The other bytes are held to nothing.

use crate::head::Head;
use reference::grid::rank;

/// For each byte of the most cells what it is held to.
pub struct Bounds {
    low: [u8; 384],
    span: [u8; 384],
}

/// The bytes that are looked at together.
const CHUNK: usize = 96;

impl Bounds {
    /// The bounds of each cell, each low at most its high.
    pub fn new(low: &[u8], high: &[u8]) -> Bounds {
        let mut bounds = Bounds {
            low: [0; 384],
            span: [255; 384],
        };
        for (k, (&low, &high)) in low.iter().zip(high).enumerate() {
            bounds.low[3 * k + 2] = rank(low);
            bounds.span[3 * k + 2] = rank(high) - rank(low);
        }
        bounds
    }

    /// The count of the register's entries whose cells are all within the bounds.
    pub fn count(&self, register: &[u8], head: Head) -> u32 {
        let fields = head.cells();
        let within = |&k: &usize| {
            let start = head.start(k);
            let line = &register[start..start + fields];
            let before = &register[start - 1..start - 1 + fields];
            self.hold(line, before)
        };
        (0..head.count).filter(within).count() as u32
    }

    /// Are all cells of the line within the bounds? `before` is the line a byte earlier.
    fn hold(&self, line: &[u8], before: &[u8]) -> bool {
        let lines = line.chunks(CHUNK).zip(before.chunks(CHUNK));
        let bounds = self.low.chunks(CHUNK).zip(self.span.chunks(CHUNK));
        lines
            .zip(bounds)
            .all(|((line, before), (low, span))| chunk_holds(line, before, low, span))
    }
}

fn chunk_holds(line: &[u8], before: &[u8], low: &[u8], span: &[u8]) -> bool {
    let width = line.len();
    let (before, low, span) = (&before[..width], &low[..width], &span[..width]);
    let mut outside = 0;
    for k in 0..width {
        let tens = if before[k] == b'1' { 10 } else { 0 };
        let value = line[k].wrapping_sub(b'0').wrapping_add(tens);
        outside |= rank(value).wrapping_sub(low[k]).saturating_sub(span[k]);
    }
    outside == 0
}
