//! Permutations: document 01's row orders and column orders.

/// The most rows of a grid: the positions of a row permutation.
pub const ROW_LIMIT: usize = 8;

/// The most rows of a grid at a terminal: the positions of a row permutation there.
pub const TERMINAL_ROW_LIMIT: usize = 5;

/// The most columns of a grid: the positions of a column permutation.
const COLUMN_LIMIT: usize = 16;

/// Document 01's order: the first `size` positions of `at` list each number below `size` once.
#[derive(Clone, Copy, Debug, PartialEq, Eq)]
pub struct Permutation<const LIMIT: usize> {
    pub size: usize,
    pub at: [u8; LIMIT],
}

/// Document 01's row order.
pub type RowPermutation = Permutation<ROW_LIMIT>;

/// The row order of a terminal, document 02's request 2.
pub type TerminalRowPermutation = Permutation<TERMINAL_ROW_LIMIT>;

/// Document 01's column order.
pub type ColumnPermutation = Permutation<COLUMN_LIMIT>;

impl<const LIMIT: usize> Permutation<LIMIT> {
    /// Document 01's starting order: each position holds its own number.
    pub fn identity(size: usize) -> Self {
        let mut at = [0; LIMIT];
        for (i, number) in at.iter_mut().enumerate() {
            *number = i as u8;
        }
        Self { size, at }
    }

    /// The permutation listed in `numbers`; positions past its end hold their own number.
    /// At most `LIMIT` numbers are given.
    pub fn listed(numbers: &[u8]) -> Self {
        let mut result = Self::identity(numbers.len());
        result.at[..numbers.len()].copy_from_slice(numbers);
        result
    }

    /// Is the size within the limits, and is each number below it listed once?
    pub fn is_permutation(&self) -> bool {
        1 <= self.size && self.size <= LIMIT && is_permutation(&self.at[..self.size])
    }

    /// Document 01's "P followed by R", which sends i to P(R(i)).
    /// The identity where one is no permutation or the sizes differ.
    pub fn composed(self, other: Self) -> Self {
        let mut result = Self::identity(self.size);
        if self.size == other.size && self.is_permutation() && other.is_permutation() {
            for i in 0..self.size {
                result.at[i] = self.at[usize::from(other.at[i])];
            }
        }
        result
    }

    /// Document 01's reverse. The identity where this is no permutation.
    pub fn inverse(self) -> Self {
        let mut result = Self::identity(self.size);
        if self.is_permutation() {
            for i in 0..self.size {
                result.at[usize::from(self.at[i])] = i as u8;
            }
        }
        result
    }
}

/// Is each number below the list's length in the list once?
pub fn is_permutation(numbers: &[u8]) -> bool {
    (0..numbers.len()).all(|number| times_listed(numbers, number) == 1)
}

fn times_listed(numbers: &[u8], number: usize) -> usize {
    numbers
        .iter()
        .filter(|&&x| usize::from(x) == number)
        .count()
}

/// The numbers below `n`, ascending.
pub fn identity(n: usize) -> Vec<u8> {
    (0..n as u8).collect()
}

/// Every permutation of the numbers below `n`. Each partial one is extended by
/// each number that it does not list yet, `n` times.
pub fn permutations(n: usize) -> Vec<Vec<u8>> {
    let mut partial = vec![Vec::new()];
    for _ in 0..n {
        partial = partial.iter().flat_map(|p| extensions(p, n)).collect();
    }
    partial
}

fn extensions(partial: &[u8], n: usize) -> Vec<Vec<u8>> {
    identity(n)
        .into_iter()
        .filter(|number| !partial.contains(number))
        .map(|number| [partial, &[number]].concat())
        .collect()
}
