//! Bounds to count the entries of a register in.

use reference::forms::{around, close, drawn, wide, without_allperm, Form};
use reference::grid::rank;
use reference::random::Random;

/// Bounds of one kind or another for a register with these entries, one at least.
pub fn form_for(random: &mut Random, m: usize, n: usize, top: u8, entries: &[Vec<u8>]) -> Form {
    match random.below(8) {
        0 => (vec![0; m * n], vec![top; m * n]),
        1 => drawn(random, m * n, top),
        2 => wide(random, m * n, top),
        3 => close(random, m, n, top),
        4 if m > 1 && top > 0 => without_allperm(random, m, n, top),
        5 => {
            let entry = one_of(random, entries);
            around(random, top, entry)
        }
        6 => hull_of_few(random, entries),
        _ => {
            let form = hull_of_few(random, entries);
            loosened(random, n, top, form)
        }
    }
}

fn one_of<'a>(random: &mut Random, grids: &'a [Vec<u8>]) -> &'a Vec<u8> {
    &grids[random.below(grids.len() as u64) as usize]
}

fn hull_of_few(random: &mut Random, entries: &[Vec<u8>]) -> Form {
    let few: Vec<&Vec<u8>> = (0..3).map(|_| one_of(random, entries)).collect();
    hull(&few)
}

/// The least bounds within which these grids are.
fn hull(grids: &[&Vec<u8>]) -> Form {
    let at = |k: usize| grids.iter().map(move |grid| grid[k]);
    let low = |k: usize| at(k).min_by_key(|&value| rank(value)).expect("a grid");
    let high = |k: usize| at(k).max_by_key(|&value| rank(value)).expect("a grid");
    (0..grids[0].len()).map(|k| (low(k), high(k))).unzip()
}

/// The bounds with highs of row 0 raised and lows of the other rows lowered: there prune removes.
fn loosened(random: &mut Random, n: usize, top: u8, (low, high): Form) -> Form {
    let any = random.cells(low.len(), top);
    let (lower, higher) = hull(&[&low, &high, &any]);
    (
        [&low[..n], &lower[n..]].concat(),
        [&higher[..n], &high[n..]].concat(),
    )
}
