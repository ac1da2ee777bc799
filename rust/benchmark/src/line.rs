//! An entry's line: its cells and the eight holdings, each 3 wide, and a line feed. Cells that are
//! compared are laid out.

use reference::grid::rank;
use std::cmp::Ordering;

/// The length of the eight holdings, each 3 wide.
pub const HOLDINGS: usize = 3 * 8;

/// The longest line: 128 cells, the holdings, and a line feed.
pub const LONGEST: usize = 3 * 128 + HOLDINGS + 1;

/// The line of these cells, each at most 19, of which this client holds one, in the first bytes.
/// Past it there are spaces.
pub fn written(cells: &[u8], client: usize) -> [u8; LONGEST] {
    let mut line = [b' '; LONGEST];
    for (field, &cell) in line.chunks_exact_mut(3).zip(cells) {
        if cell >= 10 {
            field[1] = b'1';
        }
        field[2] = b'0' + cell % 10;
    }
    let behind = 3 * cells.len();
    let holdings = line[behind..behind + HOLDINGS].chunks_exact_mut(3);
    for (k, field) in holdings.enumerate() {
        field[2] = b'0' + u8::from(k + 1 == client);
    }
    line[behind + HOLDINGS] = b'\n';
    line
}

/// The comparison of the cells of two lines: the first unequal cell decides.
pub fn compare(a: &[u8], b: &[u8]) -> Ordering {
    match first_unequal(a, b) {
        None => Ordering::Equal,
        Some(k) => {
            let field = k - k % 3;
            rank(cell(&a[field..])).cmp(&rank(cell(&b[field..])))
        }
    }
}

/// The cell in the field that stands first.
fn cell(fields: &[u8]) -> u8 {
    let tens = if fields[1] == b'1' { 10 } else { 0 };
    tens + (fields[2] - b'0')
}

/// The first byte in which the cells differ: equal blocks are passed over, and of the first block
/// that differs, or of the rest, eight bytes are looked at together.
fn first_unequal(a: &[u8], b: &[u8]) -> Option<usize> {
    let blocks = a.as_chunks::<32>().0.iter().zip(b.as_chunks::<32>().0);
    let equal = 32 * blocks.take_while(|(x, y)| x == y).count();
    let (a, b) = (&a[equal..], &b[equal..]);
    let words = a.as_chunks().0.iter().zip(b.as_chunks().0);
    for (k, (&x, &y)) in words.enumerate() {
        let difference = u64::from_le_bytes(x) ^ u64::from_le_bytes(y);
        if difference != 0 {
            return Some(equal + 8 * k + difference.trailing_zeros() as usize / 8);
        }
    }
    let rest = a.len() - a.len() % 8;
    let unequal = (rest..a.len()).find(|&k| a[k] != b[k]);
    unequal.map(|k| equal + k)
}
