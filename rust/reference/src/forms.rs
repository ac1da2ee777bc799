//! Bounds for tests and benchmarks: written ones, every one of a small shape, and random ones.

use crate::bounds::sorted;
use crate::examples::every_grid;
use crate::grid::{compare, rank};
use crate::random::Random;

/// A low and a high for each cell.
pub type Form = (Vec<u8>, Vec<u8>);

/// The rows, columns and bounds of a form that is written with a slash between rows and a
/// space between cells, each cell as its low and its high.
pub fn written(text: &str) -> (usize, usize, Form) {
    let rows: Vec<&str> = text.split('/').collect();
    let cells: Vec<&[u8]> = rows
        .iter()
        .flat_map(|row| row.split(' ').map(str::as_bytes))
        .collect();
    let form = cells.iter().map(|cell| (cell[0] - b'0', cell[1] - b'0'));
    (rows.len(), cells.len() / rows.len(), form.unzip())
}

/// Every low and high of a cell with low at most high.
fn intervals(top: u8) -> Vec<(u8, u8)> {
    let pairs = (0..=top).flat_map(|l| (0..=top).map(move |h| (l, h)));
    pairs.filter(|&(l, h)| rank(l) <= rank(h)).collect()
}

/// Every form of `count` cells.
pub fn every_form(count: usize, top: u8) -> Vec<Form> {
    let intervals = intervals(top);
    let choices = every_grid(count, intervals.len() as u8 - 1);
    let bounds = |choice: Vec<u8>| -> Form {
        let cells = choice.iter().map(|&c| intervals[usize::from(c)]);
        cells.unzip()
    };
    choices.into_iter().map(bounds).collect()
}

/// A random form: two random bounds for each cell.
pub fn drawn(random: &mut Random, count: usize, top: u8) -> Form {
    ordered(random.cells(count, top), random.cells(count, top))
}

/// A random form of many values: lows up to a quarter of top, highs from half of top on.
pub fn wide(random: &mut Random, count: usize, top: u8) -> Form {
    let (lows, highs) = (top / 4, top / 2);
    let low = random.cells(count, lows);
    let high = random.cells(count, top - highs);
    ordered(low, high.iter().map(|&h| h + highs).collect())
}

/// A random grid with allperm: row 0 is the least of the rows, each sorted.
pub fn grid_with_allperm(random: &mut Random, m: usize, n: usize, top: u8) -> Vec<u8> {
    let mut grid = random.cells(m * n, top);
    let least = grid.chunks(n).map(sorted).min_by(|a, b| compare(a, b));
    grid[..n].copy_from_slice(&least.expect("there is a row"));
    grid
}

/// A random form of one or two values for each cell, the grid's own among them.
pub fn around(random: &mut Random, top: u8, grid: &[u8]) -> Form {
    let (mut low, mut high) = (grid.to_vec(), grid.to_vec());
    for (l, h) in low.iter_mut().zip(&mut high) {
        match random.below(3) {
            0 => *l = l.saturating_sub(1),
            1 => *h = (*h + 1).min(top),
            _ => {}
        }
    }
    ordered(low, high)
}

/// A random form of two rows or more, with top 1 or more, in which no grid has allperm. Up to
/// some place row 0's lows are another row's highs, sorted, and there one higher.
pub fn without_allperm(random: &mut Random, m: usize, n: usize, top: u8) -> Form {
    let (mut low, mut high) = drawn(random, m * n, top);
    let row = sorted(&random.cells(n, top - 1));
    let place = random.below(n as u64) as usize;
    low[..place].copy_from_slice(&row[..place]);
    low[place] = row[place] + 1;
    for (l, h) in low.iter().zip(&mut high[..n]) {
        *h = between(random, *l, top);
    }
    let other = random.between(1, m as u64 - 1) as usize * n;
    for (k, h) in random.shuffled(1, n, &row).into_iter().enumerate() {
        low[other + k] = between(random, 0, h);
        high[other + k] = h;
    }
    ordered(low, high)
}

/// A random form with much that is equal. The highs of the other rows are those of one row,
/// shuffled, a few of them one higher; row 0's lows are near that row sorted.
pub fn close(random: &mut Random, m: usize, n: usize, top: u8) -> Form {
    let row = sorted(&random.cells(n, top));
    let mut low = near(random, top, &row);
    let mut high: Vec<u8> = low.iter().map(|&l| between(random, l, top)).collect();
    for _ in 1..m {
        for value in random.shuffled(1, n, &row) {
            let raised = (value + u8::from(random.once_in(16))).min(top);
            low.push(between(random, 0, raised));
            high.push(raised);
        }
    }
    ordered(low, high)
}

/// A row near this sorted one: equal at first, then a value that is at most the row's, then the
/// row's values moved on by one, then equal again. Often one value is higher where they cease to
/// be moved on, and often one value is another somewhere.
fn near(random: &mut Random, top: u8, row: &[u8]) -> Vec<u8> {
    let n = row.len();
    let mut near = row.to_vec();
    if random.once_in(2) {
        let k = random.below(n as u64) as usize;
        near[k] = between(random, 0, top);
    }
    let first = random.below(n as u64 + 1) as usize;
    if first < n {
        near[first] = between(random, 0, row[first]);
        let next = random.between(first as u64 + 1, n as u64) as usize;
        near[first + 1..next].copy_from_slice(&row[first..next - 1]);
        if next < n && random.once_in(2) {
            near[next] = between(random, row[next - 1], top);
        }
    }
    near
}

fn between(random: &mut Random, low: u8, high: u8) -> u8 {
    random.between(low.into(), high.into()) as u8
}

/// The form with these bounds, those exchanged that are in the wrong order.
pub fn ordered(mut low: Vec<u8>, mut high: Vec<u8>) -> Form {
    for (l, h) in low.iter_mut().zip(&mut high) {
        if rank(*l) > rank(*h) {
            std::mem::swap(l, h);
        }
    }
    (low, high)
}
