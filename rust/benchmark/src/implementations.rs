//! The implementations that are compared, and the ratios of their times.

use crate::call::{terminal_represent, Change, Count, Open, Prune, Represent, Same};
use crate::register_calls::Pass;
use crate::table::{self, Table};
use crate::{branch_and_bound, packed_theorem_1, same_search, theorem_1};
use crate::{plain_register, same_pruning, value_by_value};

/// Represent: in the first two ratios the library's time is the divisor.
pub const REPRESENT: Table<Represent, 5> = Table {
    implementations: [
        ("Theorem 1", theorem_1::represent),
        ("Theorem 1, packed", packed_theorem_1::represent),
        (table::LIBRARY, plan_register::represent),
        ("same search in plain Rust", same_search::represent),
        ("vectorised search", branch_and_bound::represent),
    ],
    ratios: &[(0, 2), (1, 2), (2, 3), (2, 4)],
};

/// Represent beside nauty, which writes another grid of the class than the least one.
#[cfg(nauty)]
pub const NAUTY: Table<Represent, 2> = Table {
    implementations: [
        (table::LIBRARY, plan_register::represent),
        ("nauty", crate::nauty::represent),
    ],
    ratios: &[(0, 1)],
};

/// Represent at a terminal: the terminal's time is the divisor.
pub const TERMINAL: Table<Represent, 3> = Table {
    implementations: [
        ("Theorem 1", theorem_1::represent),
        ("order system", plan_register::represent),
        (table::TERMINAL, terminal_represent),
    ],
    ratios: &[(0, 2), (1, 2)],
};

/// Same.
pub const SAME: Table<Same, 2> = Table {
    implementations: [
        (table::LIBRARY, plan_register::same),
        ("same search in plain Rust", same_search::same),
    ],
    ratios: &[(0, 1)],
};

/// Prune: in the first ratio the library's time is the divisor.
pub const PRUNE: Table<Prune, 3> = Table {
    implementations: [
        ("value by value", value_by_value::prune),
        (table::LIBRARY, plan_register::prune),
        ("same method in plain Rust", same_pruning::prune),
    ],
    ratios: &[(0, 1), (1, 2)],
};

/// Open.
pub const OPEN: Table<Open, 2> = Table {
    implementations: [
        (table::LIBRARY, plan_register::open),
        ("plain Rust", plain_register::open),
    ],
    ratios: &[(0, 1)],
};

/// The calls on a register by one implementation, and represent, which enter and strike rest on.
#[derive(Clone, Copy)]
pub struct RegisterCalls {
    pub enter: Change,
    pub strike: Change,
    pub count: Count,
    pub represent: Represent,
}

const LIBRARY: RegisterCalls = RegisterCalls {
    enter: plan_register::enter,
    strike: plan_register::strike,
    count: plan_register::count,
    represent: plan_register::represent,
};

pub const PLAIN: RegisterCalls = RegisterCalls {
    enter: plain_register::enter,
    strike: plain_register::strike,
    count: plain_register::count,
    represent: same_search::represent,
};

/// Question 5 and count, beside a copy of the register's bytes.
pub const READING: Table<Pass, 3> = Table {
    implementations: [
        ("memcpy", Pass::Copy),
        (table::LIBRARY, Pass::Call(LIBRARY)),
        ("plain Rust", Pass::Call(PLAIN)),
    ],
    ratios: &[(1, 0), (2, 0), (1, 2)],
};

/// Enter and strike, beside a copy of the register's bytes; then without their time in represent.
pub const WRITING: Table<Pass, 5> = Table {
    implementations: [
        ("memcpy", Pass::Copy),
        (table::LIBRARY, Pass::Call(LIBRARY)),
        ("plain Rust", Pass::Call(PLAIN)),
        ("plan_register besides represent", Pass::Besides(LIBRARY)),
        ("plain Rust besides represent", Pass::Besides(PLAIN)),
    ],
    ratios: &[(1, 0), (2, 0), (1, 2), (3, 0), (4, 0), (3, 4)],
};
