//! The library's pruning in plain Rust, unverified: the same steps.
//!
//! A value is kept if the extremal grid, row 0 at its lows and the other rows at their highs, has
//! allperm with the value in its cell. So each other row's highs are sorted and compared with row
//! 0's lows. The first position where these differ, and after it the first where row 0's lows
//! differ from the sorted highs moved on by one, decide which values both rows keep.

use crate::call::{first_no_of_bounds, unpruned};
use crate::values::{at_most, higher, leading_equal, lower, next_above, next_below, sorted};
use plan_register::numbers::{DONE, NO_GRID};
use plan_register::Counted;
use reference::grid::rank;

/// Prune by the library's steps.
pub fn prune(m: usize, n: usize, top: usize, low: &mut [u8], high: &mut [u8]) -> Counted {
    let number = first_no_of_bounds(m, n, top, low, high);
    if number != DONE {
        return unpruned(number);
    }
    match Narrowed::of(m, n, low, high) {
        None => unpruned(NO_GRID),
        Some(narrowed) => Counted {
            number: DONE,
            count: narrowed.write(n, low, high),
        },
    }
}

/// The bounds that change: the highs of row 0 and the lows of the other rows.
struct Narrowed {
    highs: [u8; 16],
    lows: [u8; 128],
}

impl Narrowed {
    /// `None` where no grid within the bounds has allperm.
    fn of(m: usize, n: usize, low: &[u8], high: &[u8]) -> Option<Narrowed> {
        let mut narrowed = Narrowed {
            highs: [0; 16],
            lows: [0; 128],
        };
        narrowed.highs[..n].copy_from_slice(&high[..n]);
        for i in 1..m {
            let row = i * n..(i + 1) * n;
            let (lows, highs) = (&low[row.clone()], &high[row.clone()]);
            let sorted = sorted(highs);
            let pair = Pair::new(&low[..n], &sorted[..n])?;
            pair.lower_row_0(&mut narrowed.highs[..n]);
            let least = pair.least_values();
            for ((new, &low), &high) in narrowed.lows[row].iter_mut().zip(lows).zip(highs) {
                *new = higher(low, least.of(high));
            }
        }
        Some(narrowed)
    }

    /// Writes the changed bounds. Returns how many values were removed.
    fn write(&self, n: usize, low: &mut [u8], high: &mut [u8]) -> u32 {
        let (highs, lows) = (&self.highs[..n], &self.lows[n..low.len()]);
        let count = steps(highs, &high[..n]) + steps(&low[n..], lows);
        high[..n].copy_from_slice(highs);
        low[n..].copy_from_slice(lows);
        count
    }
}

/// The steps from lower to higher values, summed over the cells.
fn steps(lower: &[u8], higher: &[u8]) -> u32 {
    let pairs = lower.iter().zip(higher);
    pairs.map(|(&l, &h)| u32::from(rank(h) - rank(l))).sum()
}

/// Row 0's lows beside another row's highs, sorted.
struct Pair<'a> {
    lows: &'a [u8],
    sorted: &'a [u8],
    /// The first position where they differ, or n.
    first: usize,
}

impl Pair<'_> {
    /// `None` where row 0's lows are above the other row's sorted highs.
    fn new<'a>(lows: &'a [u8], sorted: &'a [u8]) -> Option<Pair<'a>> {
        let first = leading_equal(lows, sorted);
        let is_above = first < lows.len() && rank(sorted[first]) < rank(lows[first]);
        (!is_above).then_some(Pair {
            lows,
            sorted,
            first,
        })
    }

    /// Lowers row 0's highs to what the other row allows.
    fn lower_row_0(&self, highs: &mut [u8]) {
        let &Pair { lows, first, .. } = self;
        highs[..first].copy_from_slice(&lows[..first]);
        if first < lows.len() {
            highs[first] = lower(highs[first], self.cap());
        }
    }

    /// The greatest value of row 0 at the first position where the two differ.
    fn cap(&self) -> u8 {
        let value = self.sorted[self.first];
        let after = self.first + 1;
        if at_most(&self.lows[after..], &self.sorted[after..]) {
            value
        } else {
            next_below(value)
        }
    }

    /// The least values of the other row.
    fn least_values(&self) -> LeastValues {
        let &Pair {
            lows,
            sorted,
            first,
        } = self;
        let n = lows.len();
        if first > 0 && (first == n || rank(lows[first]) < rank(sorted[first - 1])) {
            return LeastValues::one(sorted[first - 1], sorted[first - 1]);
        }
        let (floor, least) = (sorted[first], lows[first]);
        let moved = first + 1 + leading_equal(&lows[first + 1..], &sorted[first..]);
        if moved == n || rank(lows[moved]) < rank(sorted[moved - 1]) {
            return LeastValues::one(floor, least);
        }
        let is_limited_late = at_most(&lows[moved..], &sorted[moved..]);
        LeastValues {
            floor,
            limit: sorted[if is_limited_late { moved } else { moved - 1 }],
            least,
            raised: next_above(least),
        }
    }
}

/// The least values that the cells of a row keep, by their highs: a high below `floor` itself,
/// a high below `limit` the value `least`, the others `raised`.
struct LeastValues {
    floor: u8,
    limit: u8,
    least: u8,
    raised: u8,
}

impl LeastValues {
    /// One value for the highs from `floor` on.
    fn one(floor: u8, least: u8) -> LeastValues {
        LeastValues {
            floor,
            limit: floor,
            least,
            raised: least,
        }
    }

    /// The least value of a cell with this high.
    fn of(&self, high: u8) -> u8 {
        if rank(high) < rank(self.floor) {
            high
        } else if rank(high) < rank(self.limit) {
            self.least
        } else {
            self.raised
        }
    }
}
