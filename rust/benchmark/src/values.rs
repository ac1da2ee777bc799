//! Values by rank: the next ones, and rows of values sorted and compared.

use reference::grid::rank;
use std::iter::successors;

/// The value whose rank is one less.
pub fn next_below(value: u8) -> u8 {
    value - 1
}

/// The value whose rank is one more.
pub fn next_above(value: u8) -> u8 {
    value + 1
}

/// The values from low to high, both included, ascending.
pub fn within(low: u8, high: u8) -> impl Iterator<Item = u8> {
    successors(Some(low), move |&value| {
        (value != high).then(|| next_above(value))
    })
}

/// The lower of two values.
pub fn lower(a: u8, b: u8) -> u8 {
    if rank(b) < rank(a) {
        b
    } else {
        a
    }
}

/// The higher of two values.
pub fn higher(a: u8, b: u8) -> u8 {
    if rank(a) < rank(b) {
        b
    } else {
        a
    }
}

/// The row sorted. Each value's places are counted, by rank; past the row's end there are zeros.
pub fn sorted(row: &[u8]) -> [u8; 16] {
    let mut places = [0_u8; 16];
    for &value in row {
        places[usize::from(rank(value))] += 1;
    }
    let mut before = 0;
    for place in &mut places {
        before += std::mem::replace(place, before);
    }
    let mut sorted = [0; 16];
    for &value in row {
        let place = &mut places[usize::from(rank(value))];
        sorted[usize::from(*place)] = value;
        *place += 1;
    }
    sorted
}

/// How many values the rows begin with in common.
pub fn leading_equal(a: &[u8], b: &[u8]) -> usize {
    a.iter().zip(b).take_while(|(x, y)| x == y).count()
}

/// Is the row at most the other? The first unequal value decides.
pub fn at_most(a: &[u8], b: &[u8]) -> bool {
    let first = leading_equal(a, b);
    first == a.len() || rank(a[first]) < rank(b[first])
}
