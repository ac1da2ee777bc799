//! A small deterministic generator for tests and benchmarks.

use crate::grid::arrangement;

/// Xorshift with 64 bits of state.
#[derive(Clone, Debug)]
pub struct Random {
    state: u64,
}

impl Random {
    /// The generator that starts from this seed.
    pub fn new(seed: u64) -> Random {
        Random {
            state: seed.wrapping_mul(0x9e37_79b9_7f4a_7c15) | 1,
        }
    }

    /// The next 64 bits.
    fn bits(&mut self) -> u64 {
        self.state ^= self.state << 13;
        self.state ^= self.state >> 7;
        self.state ^= self.state << 17;
        self.state
    }

    /// A number below `limit`, which is at least 1.
    pub fn below(&mut self, limit: u64) -> u64 {
        (self.bits() >> 20) % limit
    }

    /// A number from `low` to `high`, both included.
    pub fn between(&mut self, low: u64, high: u64) -> u64 {
        low + self.below(high - low + 1)
    }

    /// True once in `times`, on average.
    pub fn once_in(&mut self, times: u64) -> bool {
        self.below(times) == 0
    }

    /// Cells of 0 to top.
    pub fn cells(&mut self, count: usize, top: u8) -> Vec<u8> {
        (0..count)
            .map(|_| self.between(0, top.into()) as u8)
            .collect()
    }

    /// A permutation of the numbers below `n`.
    pub fn permutation(&mut self, n: usize) -> Vec<u8> {
        let mut result: Vec<u8> = (0..n as u8).collect();
        for i in (1..n).rev() {
            result.swap(i, self.below(i as u64 + 1) as usize);
        }
        result
    }

    /// The grid with its rows and its columns shuffled.
    pub fn shuffled(&mut self, m: usize, n: usize, grid: &[u8]) -> Vec<u8> {
        let (rows, columns) = (self.permutation(m), self.permutation(n));
        arrangement(m, n, &rows, &columns, grid)
    }
}
