//! Represent and same of the order system, and those of a terminal: two sets of calls that answer
//! alike, so that one check serves both. All promises of a call are checked but the least itself.

use super::numbers::Numbers;
use super::Lent;
use reference::examples::every_grid;
use reference::grid::{agreed, arrangement, identity, is_permutation, least};
use reference::grid_calls::{Arranged, Matched};
use reference::questions::{terminal_rows, Asked};

/// One set of the calls. Its row orders have so many positions.
pub struct Set<const LIMIT: usize> {
    represent: fn(usize, usize, usize, &[u8], &mut [u8]) -> Arranged<LIMIT>,
    same: fn(usize, usize, usize, &[u8], &[u8]) -> Matched<LIMIT>,
    /// What is asked of the rows directly after question 1.
    further_rows: fn(u64) -> Asked,
}

/// The calls of the order system.
pub const ORDER_SYSTEM: Set<8> = Set {
    represent: |m, n, top, grid, out| {
        let found = plan_register::represent(m, n, top, grid, out);
        Arranged {
            number: found.number,
            rows: found.rows,
            columns: found.columns,
        }
    },
    same: |m, n, top, a, b| {
        let found = plan_register::same(m, n, top, a, b);
        Matched {
            number: found.number,
            agreed: found.agreed,
            rows: found.rows,
            columns: found.columns,
        }
    },
    further_rows: |_| Ok(()),
};

/// The calls of a terminal.
pub const TERMINAL: Set<5> = Set {
    represent: |m, n, top, grid, out| {
        let found = plan_register::terminal_represent(m, n, top, grid, out);
        Arranged {
            number: found.number,
            rows: found.rows,
            columns: found.columns,
        }
    },
    same: |m, n, top, a, b| {
        let found = plan_register::terminal_same(m, n, top, a, b);
        Matched {
            number: found.number,
            agreed: found.agreed,
            rows: found.rows,
            columns: found.columns,
        }
    },
    further_rows: terminal_rows,
};

/// Calls represent of both sets on a grid of up to 5 rows that passes. Checks that they write the
/// same, and returns it.
pub fn represented_by_both(m: usize, n: usize, top: u8, grid: &[u8]) -> Vec<u8> {
    let written = ORDER_SYSTEM.represented(m, n, top, grid);
    let at_terminal = TERMINAL.represented(m, n, top, grid);
    assert_eq!(at_terminal, written, "{m}x{n} top {top}: {grid:?}");
    written
}

impl<const LIMIT: usize> Set<LIMIT> {
    /// Calls represent on a grid that passes. Checks that its orders are two permutations with
    /// their own numbers past m and n, that they produce what it wrote, and that no other byte
    /// changed. So what it wrote is in the grid's class.
    pub fn represented(&self, m: usize, n: usize, top: u8, grid: &[u8]) -> Vec<u8> {
        let (lent, mut out) = (Lent::holding(grid), Lent::sentinels(m * n));
        let orders = (self.represent)(m, n, top.into(), lent.slice(), out.slice_mut());
        assert_eq!(orders.number, 0, "{m}x{n} top {top}: {grid:?}");
        check_orders(m, n, orders.rows, orders.columns);
        let produced = arrangement(m, n, &orders.rows, &orders.columns, grid);
        lent.check(grid);
        out.check(&produced);
        produced
    }

    /// Checks same on two grids that pass, against the reference. Are they in one class?
    pub fn check_same(&self, m: usize, n: usize, top: u8, a: &[u8], b: &[u8]) -> bool {
        let (of_a, of_b) = (least(m, n, a), least(m, n, b));
        self.check_pair(m, n, top, (a, &of_a), (b, &of_b));
        of_a == of_b
    }

    /// Checks same on all pairs of grids of this shape and top, against the reference.
    pub fn check_every_pair(&self, m: usize, n: usize, top: u8) {
        let with_least = |grid: Vec<u8>| (least(m, n, &grid), grid);
        let grids: Vec<_> = every_grid(m * n, top).into_iter().map(with_least).collect();
        for (of_a, a) in &grids {
            for (of_b, b) in &grids {
                self.check_pair(m, n, top, (a, of_a), (b, of_b));
            }
        }
    }

    /// Checks same on two grids, each with its representative.
    fn check_pair(
        &self,
        m: usize,
        n: usize,
        top: u8,
        (a, of_a): (&[u8], &[u8]),
        (b, of_b): (&[u8], &[u8]),
    ) {
        if of_a == of_b {
            self.check_one_class(m, n, top, a, b);
        } else {
            self.check_parting(m, n, top, a, b, agreed(of_a, of_b));
        }
    }

    /// Calls same on two grids of one class. Checks that all cells agree, that its orders are two
    /// permutations with their own numbers past m and n, that they carry `a` to `b`, and that no
    /// byte changed.
    pub fn check_one_class(&self, m: usize, n: usize, top: u8, a: &[u8], b: &[u8]) {
        let orders = self.unchanging_same(m, n, top.into(), a, b);
        assert_eq!(orders.number, 0, "{m}x{n} top {top}: {a:?} {b:?}");
        assert_eq!(orders.agreed as usize, m * n);
        check_orders(m, n, orders.rows, orders.columns);
        assert_eq!(arrangement(m, n, &orders.rows, &orders.columns, a), b);
    }

    /// Calls same on two grids of two classes, in either order. Checks that it answers 103 with the
    /// starting orders and that so many cells agree, fewer than there are; and that no byte changed.
    pub fn check_parting(&self, m: usize, n: usize, top: u8, a: &[u8], b: &[u8], agreed: usize) {
        assert!(agreed < m * n);
        for (a, b) in [(a, b), (b, a)] {
            let found = self.unchanging_same(m, n, top.into(), a, b);
            let expected = Matched::starting(103, agreed as u32);
            assert_eq!(found, expected, "{m}x{n} top {top}: {a:?} {b:?}");
        }
    }

    /// Calls same. Checks that no byte changed.
    fn unchanging_same(
        &self,
        m: usize,
        n: usize,
        top: usize,
        a: &[u8],
        b: &[u8],
    ) -> Matched<LIMIT> {
        let (lent_a, lent_b) = (Lent::holding(a), Lent::holding(b));
        let orders = (self.same)(m, n, top, lent_a.slice(), lent_b.slice());
        lent_a.check(a);
        lent_b.check(b);
        orders
    }

    /// Checks a refusal by represent, or that there is none where all questions get a yes.
    /// Returns the questions that get a no.
    pub fn check_represent_asks(
        &self,
        numbers: Numbers,
        grid: &[u8],
        out_length: usize,
    ) -> Vec<u32> {
        let Numbers { m, n, top } = numbers;
        let (lent, mut out) = (Lent::holding(grid), Lent::sentinels(out_length));
        let nos = self.nos(numbers, &[grid, out.slice()], &[grid]);
        match nos.first() {
            None => assert_eq!(self.represented(m, n, top as u8, grid).len(), grid.len()),
            Some(&number) => {
                let orders = (self.represent)(m, n, top, lent.slice(), out.slice_mut());
                assert_eq!(orders, Arranged::starting(number), "{numbers:?} {grid:?}");
                lent.check(grid);
                out.check_sentinels();
            }
        }
        nos
    }

    /// Checks a refusal by same of two grids that are otherwise in one class, or that there is none.
    /// Returns the questions that get a no.
    pub fn check_same_asks(&self, numbers: Numbers, a: &[u8], b: &[u8]) -> Vec<u32> {
        let Numbers { m, n, top } = numbers;
        let nos = self.nos(numbers, &[a, b], &[a, b]);
        match nos.first() {
            None => self.check_one_class(m, n, top as u8, a, b),
            Some(&number) => {
                let orders = self.unchanging_same(m, n, top, a, b);
                let expected = Matched::starting(number, 0);
                assert_eq!(orders, expected, "{numbers:?} {a:?} {b:?}");
            }
        }
        nos
    }

    /// The numbers of the questions that get a no, in the order in which they are asked.
    fn nos(&self, numbers: Numbers, slices: &[&[u8]], grids: &[&[u8]]) -> Vec<u32> {
        let [rows, others @ ..] = numbers.answers(slices, grids);
        let further = (self.further_rows)(numbers.m as u64);
        let answers = [rows, further].into_iter().chain(others);
        answers.filter_map(Result::err).collect()
    }
}

fn check_orders<const LIMIT: usize>(m: usize, n: usize, rows: [u8; LIMIT], columns: [u8; 16]) {
    assert!(is_permutation(&rows[..m]), "{rows:?}");
    assert!(is_permutation(&columns[..n]), "{columns:?}");
    assert_eq!(rows[m..], identity(LIMIT)[m..]);
    assert_eq!(columns[n..], identity(16)[n..]);
}
