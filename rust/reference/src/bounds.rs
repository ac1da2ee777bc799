//! Bounds, document 01's forms; allperm; the call prune.
//!
//! A form is two slices, low and high, of one bound for each cell.

use crate::grid::{compare, permutations, rank};
use crate::questions::{self, Asked};
use std::cmp::Ordering;

/// What prune returns: the number and the count of values removed.
#[derive(Clone, Copy, Debug, PartialEq, Eq)]
pub struct Counted {
    pub number: u32,
    pub count: u64,
}

/// A low and a high for each cell, document 01's form.
#[derive(Clone, Debug, PartialEq, Eq)]
pub struct Bounds {
    pub low: Vec<u8>,
    pub high: Vec<u8>,
}

/// Up to this many grids in a form are listed; above, the extremal grids are tested.
pub const LISTED_GRIDS: u64 = 1024;

/// Up to this many columns allperm lists the permutations of a row; above, it sorts the row.
const LISTED_COLUMNS: usize = 4;

/// Is the value within low to high, both included?
fn within(low: u8, high: u8, value: u8) -> bool {
    rank(low) <= rank(value) && rank(value) <= rank(high)
}

/// Does the grid lie in the form?
pub fn lies_in(low: &[u8], high: &[u8], grid: &[u8]) -> bool {
    (0..grid.len()).all(|k| within(low[k], high[k], grid[k]))
}

/// The values 0 to top that are within low to high.
pub fn values(top: u8, low: u8, high: u8) -> Vec<u8> {
    (0..=top).filter(|&v| within(low, high, v)).collect()
}

/// The number of values, summed over the cells.
pub fn number_of_values(top: u8, low: &[u8], high: &[u8]) -> u64 {
    (0..low.len())
        .map(|k| values(top, low[k], high[k]).len() as u64)
        .sum()
}

/// The number of grids in the form, or the greatest number there is.
pub fn number_of_grids(top: u8, low: &[u8], high: &[u8]) -> u64 {
    (0..low.len())
        .map(|k| values(top, low[k], high[k]).len() as u64)
        .fold(1, u64::saturating_mul)
}

/// Every grid in the form, listed cell after cell.
pub fn grids(top: u8, low: &[u8], high: &[u8]) -> Vec<Vec<u8>> {
    let mut partial = vec![Vec::new()];
    for k in 0..low.len() {
        let next = values(top, low[k], high[k]);
        partial = partial
            .iter()
            .flat_map(|grid: &Vec<u8>| next.iter().map(|&v| [grid.as_slice(), &[v]].concat()))
            .collect();
    }
    partial
}

/// Allperm: row 0 is at most every permutation of every other row.
pub fn allperm(m: usize, n: usize, grid: &[u8]) -> bool {
    if n <= LISTED_COLUMNS {
        allperm_by_listing(m, n, grid)
    } else {
        allperm_by_sorting(m, n, grid)
    }
}

/// Allperm with every permutation of every other row listed.
pub fn allperm_by_listing(m: usize, n: usize, grid: &[u8]) -> bool {
    let row = |i: usize| &grid[i * n..(i + 1) * n];
    let columns = permutations(n);
    (1..m).all(|i| {
        columns
            .iter()
            .all(|q| at_most(row(0), &permuted(row(i), q)))
    })
}

/// Allperm with every other row sorted: its least permutation.
pub fn allperm_by_sorting(m: usize, n: usize, grid: &[u8]) -> bool {
    let row = |i: usize| &grid[i * n..(i + 1) * n];
    (1..m).all(|i| at_most(row(0), &sorted(row(i))))
}

fn at_most(a: &[u8], b: &[u8]) -> bool {
    compare(a, b) != Ordering::Greater
}

fn permuted(row: &[u8], columns: &[u8]) -> Vec<u8> {
    columns.iter().map(|&j| row[usize::from(j)]).collect()
}

pub(crate) fn sorted(row: &[u8]) -> Vec<u8> {
    let mut result = row.to_vec();
    result.sort_by_key(|&value| rank(value));
    result
}

/// Does some grid in the form satisfy allperm?
pub fn some_grid(m: usize, n: usize, top: u8, low: &[u8], high: &[u8]) -> bool {
    if number_of_grids(top, low, high) <= LISTED_GRIDS {
        grids(top, low, high).iter().any(|g| allperm(m, n, g))
    } else {
        allperm(m, n, &extremal(n, low, high))
    }
}

/// For each cell the values that some grid in the form, with allperm true, has there,
/// by listing every grid in the form.
pub fn kept_by_listing(m: usize, n: usize, top: u8, low: &[u8], high: &[u8]) -> Vec<Vec<u8>> {
    let mut listed = grids(top, low, high);
    listed.retain(|g| allperm(m, n, g));
    let kept = |k: usize| {
        let mut kept = values(top, low[k], high[k]);
        kept.retain(|&v| listed.iter().any(|g| g[k] == v));
        kept
    };
    (0..m * n).map(kept).collect()
}

/// The same values, each tested on the extremal grid with that value. Allperm still holds
/// when cells of row 0 fall and cells of other rows rise, so no other grid need be tested.
pub fn kept_by_extremal(m: usize, n: usize, top: u8, low: &[u8], high: &[u8]) -> Vec<Vec<u8>> {
    let kept = |k: usize| {
        let mut kept = values(top, low[k], high[k]);
        kept.retain(|&v| allperm(m, n, &extremal_with(n, low, high, k, v)));
        kept
    };
    (0..m * n).map(kept).collect()
}

/// The extremal grid: row 0 at its lows, the other rows at their highs.
fn extremal(n: usize, low: &[u8], high: &[u8]) -> Vec<u8> {
    [&low[..n], &high[n..]].concat()
}

/// The extremal grid with the value `v` in cell `k`.
fn extremal_with(n: usize, low: &[u8], high: &[u8], k: usize, v: u8) -> Vec<u8> {
    let mut grid = extremal(n, low, high);
    grid[k] = v;
    grid
}

/// The least and the greatest kept value of each cell. `None` where a cell keeps none.
fn ends(kept: &[Vec<u8>]) -> Option<Bounds> {
    let low = kept
        .iter()
        .map(|v| v.iter().copied().min_by_key(|&x| rank(x)));
    let high = kept
        .iter()
        .map(|v| v.iter().copied().max_by_key(|&x| rank(x)));
    Some(Bounds {
        low: low.collect::<Option<_>>()?,
        high: high.collect::<Option<_>>()?,
    })
}

/// The pruned form by listing every grid in the form. `None` where none has allperm.
pub fn prune_by_listing(m: usize, n: usize, top: u8, low: &[u8], high: &[u8]) -> Option<Bounds> {
    ends(&kept_by_listing(m, n, top, low, high))
}

/// The pruned form by the extremal grids. `None` where no grid has allperm.
pub fn prune_by_extremal(m: usize, n: usize, top: u8, low: &[u8], high: &[u8]) -> Option<Bounds> {
    ends(&kept_by_extremal(m, n, top, low, high))
}

/// The pruned form: by listing where the form has few grids, else by the extremal grids.
fn pruned_form(m: usize, n: usize, top: u8, low: &[u8], high: &[u8]) -> Option<Bounds> {
    if number_of_grids(top, low, high) <= LISTED_GRIDS {
        prune_by_listing(m, n, top, low, high)
    } else {
        prune_by_extremal(m, n, top, low, high)
    }
}

/// Prune: writes the pruned form and returns the count of values removed, or 102.
pub fn prune(m: u64, n: u64, top: u64, low: &mut [u8], high: &mut [u8]) -> Counted {
    if let Err(number) = prune_questions(m, n, top, low, high) {
        return Counted { number, count: 0 };
    }
    let top = top as u8;
    let Some(form) = pruned_form(m as usize, n as usize, top, low, high) else {
        return Counted {
            number: 102,
            count: 0,
        };
    };
    let before = number_of_values(top, low, high);
    let after = number_of_values(top, &form.low, &form.high);
    low.copy_from_slice(&form.low);
    high.copy_from_slice(&form.high);
    Counted {
        number: 0,
        count: before - after,
    }
}

/// Prune passes 1, 2, 3, 6, 7, 8.
fn prune_questions(m: u64, n: u64, top: u64, low: &[u8], high: &[u8]) -> Asked {
    questions::rows(m)?;
    questions::columns(n)?;
    questions::top(top)?;
    questions::lengths(&[low, high], m * n)?;
    questions::cells(&[low, high], top)?;
    questions::bounds(low, high)
}
