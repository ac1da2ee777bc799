//! Random lists of calls for tests. The grids come from a pool of a few classes, so that a class
//! is often entered again, struck again, or entered into a full register.

use crate::bounds::prune;
use crate::calls::Call;
use crate::designs::{equal_columns, equal_rows, two_rows, zero};
use crate::forms::{around, close, drawn, ordered, Form};
use crate::holdings::{Holdings, CLIENTS, MOST};
use crate::random::Random;

/// The grids that the calls of a list send, each in any arrangement.
#[derive(Clone, Debug)]
pub struct Pool {
    pub m: usize,
    pub n: usize,
    pub top: u8,
    pub grids: Vec<Vec<u8>>,
}

impl Pool {
    /// A pool of so many grids: symmetric ones, random ones, and ones that differ from the one
    /// before in a cell.
    pub fn drawn(random: &mut Random, m: usize, n: usize, top: u8, size: usize) -> Pool {
        let mut grids: Vec<Vec<u8>> = Vec::new();
        for _ in 0..size {
            let grid = match (random.below(4), grids.last()) {
                (0, _) => symmetric(random, m, n, top),
                (1, Some(last)) => with_one_cell_drawn(random, top, last),
                _ => random.cells(m * n, top),
            };
            grids.push(grid);
        }
        Pool { m, n, top, grids }
    }

    /// A call that passes questions 6 to 8 and 15, most of the time.
    pub fn call(&self, random: &mut Random) -> Call {
        match random.below(8) {
            0..=2 => Call::Enter(client(random), self.sent(random)),
            3..=5 => Call::Strike(client(random), self.sent(random)),
            _ => Call::Count(self.sent_form(random)),
        }
    }

    /// A call of either set: half of the enters are a terminal's.
    pub fn call_of_either_set(&self, random: &mut Random) -> Call {
        let call = self.call(random);
        match random.once_in(2) {
            true => call.at_terminal(),
            false => call,
        }
    }

    /// A grid of the pool, its rows and columns shuffled.
    pub fn grid(&self, random: &mut Random) -> Vec<u8> {
        let grid = &self.grids[random.below(self.grids.len() as u64) as usize];
        random.shuffled(self.m, self.n, grid)
    }

    /// Bounds of one kind or another, each low at most its high.
    pub fn form(&self, random: &mut Random) -> Form {
        let (cells, top) = (self.m * self.n, self.top);
        match random.below(6) {
            0 => (vec![0; cells], vec![top; cells]),
            1 => (vec![0; cells], random.cells(cells, top)),
            2 => ordered(self.grid(random), self.grid(random)),
            3 => {
                let grid = self.grid(random);
                around(random, top, &grid)
            }
            4 => close(random, self.m, self.n, top),
            _ => drawn(random, cells, top),
        }
    }

    fn sent(&self, random: &mut Random) -> Vec<u8> {
        let mut grid = self.grid(random);
        spoil(random, self.top, &mut grid);
        grid
    }

    /// Bounds as they are drawn or, now and then, pruned, where prune does not say 102.
    fn sent_form(&self, random: &mut Random) -> Form {
        let (mut low, mut high) = self.form(random);
        if random.once_in(3) {
            let (m, n) = (self.m as u64, self.n as u64);
            prune(m, n, self.top.into(), &mut low, &mut high);
        }
        if random.once_in(10) {
            std::mem::swap(&mut low, &mut high);
        }
        spoil(random, self.top, &mut low);
        spoil(random, self.top, &mut high);
        (low, high)
    }
}

/// A client's number; half of the time 1 or 2, so that a client's holding is often above 1, and now
/// and then one that question 15 refuses.
pub fn client(random: &mut Random) -> u64 {
    match random.below(20) {
        0 => no_client(random),
        1..=10 => random.between(1, 2),
        _ => random.between(1, CLIENTS),
    }
}

/// A number that question 15 refuses: next to the limits, one whose low bits alone would pass, or
/// the largest.
fn no_client(random: &mut Random) -> u64 {
    let low = random.between(1, CLIENTS);
    let numbers = [0, CLIENTS + 1, (1 << 8) + low, (1 << 32) + low, u64::MAX];
    numbers[random.below(numbers.len() as u64) as usize]
}

/// Holdings that are not all 0: one held by client 1 or 2 alone, or holdings of every width, a few
/// of them 999.
pub fn drawn_holdings(random: &mut Random) -> Holdings {
    if random.once_in(2) {
        return Holdings::one_of(random.between(1, 2));
    }
    let mut holdings = Holdings::default();
    while holdings.are_all_0() {
        holdings = Holdings(std::array::from_fn(|_| match random.below(8) {
            0..=3 => 0,
            4 => random.between(1, 9),
            5 => random.between(10, 99),
            6 => random.between(100, MOST),
            _ => MOST,
        }));
    }
    holdings
}

fn symmetric(random: &mut Random, m: usize, n: usize, top: u8) -> Vec<u8> {
    let design = match random.below(4) {
        0 => zero(m, n),
        1 => equal_rows(m, n),
        2 => equal_columns(m, n),
        _ => two_rows(m, n),
    };
    design.cells.iter().map(|&cell| cell % (top + 1)).collect()
}

fn with_one_cell_drawn(random: &mut Random, top: u8, grid: &[u8]) -> Vec<u8> {
    let mut grid = grid.to_vec();
    let k = random.below(grid.len() as u64) as usize;
    grid[k] = random.between(0, top.into()) as u8;
    grid
}

/// Now and then takes a cell off, adds one, or puts one above top.
fn spoil(random: &mut Random, top: u8, slice: &mut Vec<u8>) {
    match random.below(40) {
        0 => slice.truncate(slice.len() - 1),
        1 => slice.push(0),
        2 | 3 => {
            let k = random.below(slice.len() as u64) as usize;
            slice[k] = random.between(u64::from(top) + 1, 255) as u8;
        }
        _ => {}
    }
}
