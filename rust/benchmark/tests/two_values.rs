//! Represent on grids with two values, which have a search of their own, against the general search.

use benchmark::call::Represent;
use benchmark::same_search;
use plan_register::Arranged;
use reference::designs::{self, Design};
use reference::examples::{every_grid, shapes_up_to};
use reference::grid::{arrangement, identity, is_permutation};
use reference::hills;
use reference::random::Random;
use reference::two_valued::{identity_rows_and_one, regular, with_random_columns};

/// How many grids of each kind are tried.
const TRIES: usize = 20_000;

/// A grid of 0 and 1.
struct Grid {
    m: usize,
    n: usize,
    cells: Vec<u8>,
}

impl Grid {
    /// The grid with these values in place of 0 and 1.
    fn with_values(&self, values: [u8; 2]) -> Grid {
        let cells = self.cells.iter();
        Grid {
            cells: cells.map(|&cell| values[usize::from(cell)]).collect(),
            ..*self
        }
    }

    fn shuffled(&self, random: &mut Random) -> Grid {
        Grid {
            cells: random.shuffled(self.m, self.n, &self.cells),
            ..*self
        }
    }

    /// What represent answers, and what it writes.
    fn arranged(&self, represent: Represent) -> (Arranged, Vec<u8>) {
        let mut out = vec![255; self.cells.len()];
        let top = 15;
        let orders = represent(self.m, self.n, top, &self.cells, &mut out);
        (orders, out)
    }

    /// Checks that the library writes what the general search does, with orders that produce it
    /// and are those of the same search in plain Rust. What is written.
    fn check(&self) -> Vec<u8> {
        let Grid { m, n, ref cells } = *self;
        let (orders, out) = self.arranged(plan_register::represent);
        let (general_orders, general_out) = self.arranged(same_search::general_represent);
        assert_eq!(general_orders.number, 0);
        assert_eq!(out, general_out, "{m}x{n}: {cells:?}");
        self.check_orders(&orders, &out);
        self.check_orders(&general_orders, &out);
        let found = self.arranged(same_search::represent);
        assert_eq!(found, (orders, out), "{m}x{n}: {cells:?}");
        found.1
    }

    /// Checks that these are orders that produce the output.
    fn check_orders(&self, orders: &Arranged, out: &[u8]) {
        let Grid { m, n, ref cells } = *self;
        assert_eq!(orders.number, 0);
        assert!(is_permutation(&orders.rows[..m]));
        assert!(is_permutation(&orders.columns[..n]));
        assert_eq!(orders.rows[m..], identity(8)[m..]);
        assert_eq!(orders.columns[n..], identity(16)[n..]);
        let produced = arrangement(m, n, &orders.rows, &orders.columns, cells);
        assert_eq!(produced, out, "{m}x{n}: {cells:?}");
    }
}

fn check_every_small_grid(cells: usize, values: [u8; 2]) {
    for (m, n) in shapes_up_to(cells) {
        for cells in every_grid(m * n, 1) {
            Grid { m, n, cells }.with_values(values).check();
        }
    }
}

#[test]
fn every_small_grid_of_0_and_1() {
    check_every_small_grid(14, [0, 1]);
}

#[test]
fn every_small_grid_of_two_other_values() {
    check_every_small_grid(12, [3, 7]);
    check_every_small_grid(12, [15, 0]);
}

/// Checks grids that are drawn so, with two values of 0 to 15, and that two shuffled copies of each
/// are represented alike.
fn check_drawn(seed: u64, draw: impl Fn(&mut Random) -> Grid) {
    let mut random = Random::new(seed);
    for _ in 0..TRIES {
        let values = [random.between(0, 15) as u8, random.between(0, 15) as u8];
        let grid = draw(&mut random).with_values(values);
        let [one, other] = [(); 2].map(|()| grid.shuffled(&mut random));
        let (orders, out) = other.arranged(plan_register::represent);
        other.check_orders(&orders, &out);
        assert_eq!(one.check(), out);
    }
}

/// A number of rows and one of columns within the limits.
fn shape(random: &mut Random) -> (usize, usize) {
    let (m, n) = (random.between(1, 8), random.between(1, 16));
    (m as usize, n as usize)
}

/// Each cell is 1 once in so many times.
fn scattered(random: &mut Random, cells: usize, times: u64) -> Vec<u8> {
    let one = |_| u8::from(random.once_in(times));
    (0..cells).map(one).collect()
}

#[test]
fn random_grids_of_several_densities() {
    check_drawn(91, |random| {
        let (m, n) = shape(random);
        let times = random.between(1, 10);
        let cells = scattered(random, m * n, times);
        Grid { m, n, cells }
    });
}

#[test]
fn repeated_rows_and_columns() {
    check_drawn(92, |random| {
        let (m, n) = shape(random);
        let [rows, columns] = [m, n].map(|most| random.between(1, most as u64) as u8);
        let few = random.cells(usize::from(rows * columns), 1);
        let (of_rows, of_columns) = (random.cells(m, rows - 1), random.cells(n, columns - 1));
        let cell = |k: usize| few[usize::from(of_rows[k / n] * columns + of_columns[k % n])];
        let cells = (0..m * n).map(cell).collect();
        Grid { m, n, cells }
    });
}

/// Rows of the identity matrix, with up to four cells changed.
fn near_identity(random: &mut Random) -> Grid {
    let (m, n) = shape(random);
    let Design { mut cells, .. } = designs::identity_rows(m, n);
    for _ in 0..random.below(5) {
        cells[random.below((m * n) as u64) as usize] ^= 1;
    }
    Grid { m, n, cells }
}

/// Seven rows of the identity matrix and a random one, with up to eight random columns besides.
fn near_identity_and_columns(random: &mut Random) -> Grid {
    let more = random.below(9) as usize;
    let square = identity_rows_and_one(random, 8);
    Grid {
        m: 8,
        n: 8 + more,
        cells: with_random_columns(random, 8, &square, more),
    }
}

#[test]
fn nearly_identity_matrices() {
    check_drawn(93, |random| match random.below(2) {
        0 => near_identity(random),
        _ => near_identity_and_columns(random),
    });
}

#[test]
fn equally_many_ones_in_each_row() {
    check_drawn(94, |random| {
        let (m, n) = shape(random);
        let ones = random.between(1, n as u64) as usize;
        let cells = regular(random, m, n, ones);
        Grid { m, n, cells }
    });
}

#[test]
fn shuffled_designs_and_their_like() {
    let listed = designs::all().into_iter().chain(hills::all());
    let listed: Vec<Design> = listed.filter(|design| design.top == 1).collect();
    check_drawn(95, |random| {
        let drawn = random.below(listed.len() as u64) as usize;
        let Design {
            m, n, ref cells, ..
        } = listed[drawn];
        let mut cells = cells.clone();
        if random.once_in(2) {
            cells[random.below((m * n) as u64) as usize] ^= 1;
        }
        Grid { m, n, cells }
    });
}

#[test]
fn the_hills() {
    let mut random = Random::new(96);
    for Design { m, n, cells, .. } in hills::all() {
        for values in [[0, 1], [1, 0], [9, 4]] {
            let grid = Grid {
                m,
                n,
                cells: cells.clone(),
            }
            .with_values(values);
            let out = grid.check();
            for _ in 0..20 {
                assert_eq!(grid.shuffled(&mut random).check(), out);
            }
        }
    }
}

#[test]
fn a_third_value_leaves_it_to_the_general_search() {
    let mut random = Random::new(97);
    for _ in 0..TRIES {
        let mut grid = match random.below(2) {
            0 => near_identity(&mut random),
            _ => near_identity_and_columns(&mut random),
        };
        let third = random.below(grid.cells.len() as u64) as usize;
        grid.cells[third] = random.between(2, 15) as u8;
        if grid.cells.contains(&0) && grid.cells.contains(&1) {
            let general = grid.arranged(same_search::general_represent);
            assert_eq!(grid.arranged(plan_register::represent), general);
            assert_eq!(grid.arranged(same_search::represent), general);
        }
    }
}
