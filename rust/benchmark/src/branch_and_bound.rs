//! An unverified, vectorised branch and bound over partial row orders, written for speed.
//!
//! Rows are placed one after another. The columns that the placed rows do not tell apart form
//! a block, and the blocks stand in ascending order. A row's cells, sorted within each block,
//! are the next row of the arrangement if that row is placed next. Only the unplaced rows with
//! the least next row are followed, of equal rows one, and none if the best arrangement known
//! has a lesser row at this depth. If its row is greater, the best becomes an arrangement that
//! begins with these rows.
//!
//! Columns, cells and places are the bytes of a number, so that all are worked on at once.

use crate::bitonic;
use crate::call::{first_no, starting};
use plan_register::numbers::DONE;
use plan_register::Arranged;
use std::cmp::Ordering;

/// Represent by branch and bound.
pub fn represent(m: usize, n: usize, top: usize, grid: &[u8], out: &mut [u8]) -> Arranged {
    let number = first_no(m, n, top, grid, out);
    if number != DONE {
        return starting(number);
    }
    match n {
        0..=8 => Search::<8>::new(m, n, grid).run(out),
        _ => Search::<16>::new(m, n, grid).run(out),
    }
}

/// For each column a byte, the first column the lowest.
type ByColumn = u128;

/// For each place of an arrangement's row a byte, the last place the lowest: so two rows
/// compare as numbers.
type ByPlace = u128;

/// The lower half of each byte, where a cell is.
const CELLS: u128 = u128::from_ne_bytes([15; 16]);

/// A partial row order, and what it says of the columns.
#[derive(Clone, Copy)]
struct Partial {
    /// The rows that are not placed, one bit each.
    unplaced: u8,
    rows: [u8; 8],
    /// 16 times the first place of the column's block.
    blocks: ByColumn,
}

impl Partial {
    /// All columns are one block. Past n there are blocks of one, which keep their places.
    fn none_placed(m: usize, n: usize, width: usize) -> Partial {
        let mut blocks = [0; 16];
        for (j, block) in blocks.iter_mut().enumerate().take(width).skip(n) {
            *block = 16 * j as u8;
        }
        Partial {
            unplaced: (0xFF_u16 >> (8 - m)) as u8,
            rows: starting(DONE).rows,
            blocks: ByColumn::from_le_bytes(blocks),
        }
    }

    /// Orders that begin with the rows placed, `depth` many, and have the columns sorted by them.
    fn orders(&self, depth: usize, n: usize) -> Arranged {
        let mut orders = starting(DONE);
        for (row, k) in members(self.unplaced).zip(depth..) {
            orders.rows[k] = row as u8;
        }
        orders.rows[..depth].copy_from_slice(&self.rows[..depth]);
        let mut next_places = starting(DONE).columns;
        for (column, block) in self.blocks.to_le_bytes().into_iter().enumerate().take(n) {
            let next_place = &mut next_places[usize::from(block / 16)];
            orders.columns[usize::from(*next_place)] = column as u8;
            *next_place += 1;
        }
        orders
    }
}

/// The best arrangement known.
struct Best {
    orders: Arranged,
    /// Its rows; those past the first `arranged` are not written yet.
    rows: [ByPlace; 8],
    arranged: usize,
}

impl Best {
    /// The arrangement by these orders is less, for this row of it is.
    fn lower(&mut self, depth: usize, row: ByPlace, orders: Arranged) {
        self.orders = orders;
        self.rows[depth] = row;
        self.arranged = depth + 1;
    }
}

/// The search over grids of up to `WIDTH` columns, 8 or 16.
struct Search<const WIDTH: usize> {
    m: usize,
    n: usize,
    rows: [ByColumn; 8],
    /// For each row the earlier rows that equal it, one bit each.
    earlier_equal: [u8; 8],
    best: Best,
    /// For each key of the row placed last its first place, times 16.
    first_places: [u8; 256],
}

impl<const WIDTH: usize> Search<WIDTH> {
    fn new(m: usize, n: usize, grid: &[u8]) -> Self {
        let mut rows = [0; 8];
        let mut earlier_equal = [0; 8];
        for (i, cells) in grid.chunks_exact(n).enumerate() {
            let mut bytes = [0; 16];
            bytes[..n].copy_from_slice(cells);
            rows[i] = ByColumn::from_le_bytes(bytes);
            for k in 0..i {
                earlier_equal[i] |= u8::from(rows[k] == rows[i]) << k;
            }
        }
        Search {
            m,
            n,
            rows,
            earlier_equal,
            best: Best {
                orders: starting(DONE),
                rows: [0; 8],
                arranged: 0,
            },
            first_places: [0; 256],
        }
    }

    fn run(mut self, out: &mut [u8]) -> Arranged {
        self.extend(0, &Partial::none_placed(self.m, self.n, WIDTH));
        for (depth, row) in out.chunks_exact_mut(self.n).enumerate() {
            row.copy_from_slice(&places::<WIDTH>(self.best_row(depth))[..self.n]);
        }
        self.best.orders
    }

    /// Takes up the partial row orders that place one row more than the `depth` that are placed.
    fn extend(&mut self, depth: usize, partial: &Partial) {
        let (next, rows) = self.least_next(partial);
        match (next & CELLS).cmp(&self.best_row(depth)) {
            Ordering::Greater => return,
            Ordering::Equal => {}
            Ordering::Less => {
                let row = rows.trailing_zeros() as usize;
                let longer = self.placed(depth, partial, row, next);
                self.best
                    .lower(depth, next & CELLS, longer.orders(depth + 1, self.n));
            }
        }
        if depth + 1 < self.m {
            for row in members(rows) {
                let longer = self.placed(depth, partial, row, next);
                self.extend(depth + 1, &longer);
            }
        }
    }

    /// The least next row, each cell with its block, and the rows that give it, one bit each.
    fn least_next(&self, partial: &Partial) -> (ByPlace, u8) {
        let mut least = (ByPlace::MAX, 0);
        for row in members(partial.unplaced) {
            if self.earlier_equal[row] & partial.unplaced != 0 {
                continue;
            }
            let next = bitonic::sorted::<WIDTH>(partial.blocks | self.rows[row]);
            match next.cmp(&least.0) {
                Ordering::Greater => {}
                Ordering::Equal => least.1 |= 1 << row,
                Ordering::Less => least = (next, 1 << row),
            }
        }
        least
    }

    /// This row of the best arrangement. It is asked for row after row.
    fn best_row(&mut self, depth: usize) -> ByPlace {
        if depth == self.best.arranged {
            let orders = &self.best.orders;
            let cells = self.rows[usize::from(orders.rows[depth])].to_le_bytes();
            let mut arranged = [0; 16];
            for (cell, &column) in arranged[16 - WIDTH..].iter_mut().zip(&orders.columns) {
                *cell = cells[usize::from(column)];
            }
            self.best.rows[depth] = ByPlace::from_be_bytes(arranged);
            self.best.arranged += 1;
        }
        self.best.rows[depth]
    }

    /// The partial row order with this row placed, which gives this next row.
    fn placed(&mut self, depth: usize, partial: &Partial, row: usize, next: ByPlace) -> Partial {
        let mut longer = *partial;
        longer.unplaced &= !(1 << row);
        longer.rows[depth] = row as u8;
        longer.blocks = self.refined(partial.blocks | self.rows[row], next);
        longer
    }

    /// The blocks of columns with equal keys. A key is a column's block and its cell in the row
    /// placed last.
    fn refined(&mut self, keys: ByColumn, sorted: ByPlace) -> ByColumn {
        for (place, key) in places::<WIDTH>(sorted).into_iter().enumerate().rev() {
            self.first_places[usize::from(key)] = 16 * place as u8;
        }
        let mut blocks = [0; 16];
        for (block, key) in blocks.iter_mut().zip(keys.to_le_bytes()).take(WIDTH) {
            *block = self.first_places[usize::from(key)];
        }
        ByColumn::from_le_bytes(blocks)
    }
}

/// The bytes of a row, the first place first.
fn places<const WIDTH: usize>(row: ByPlace) -> [u8; WIDTH] {
    let mut bytes = [0; WIDTH];
    bytes.copy_from_slice(&row.to_be_bytes()[16 - WIDTH..]);
    bytes
}

/// The numbers of the bits that are set, ascending.
fn members(mut bits: u8) -> impl Iterator<Item = usize> {
    std::iter::from_fn(move || {
        let member = bits.trailing_zeros() as usize;
        bits &= bits.wrapping_sub(1);
        (member < 8).then_some(member)
    })
}
