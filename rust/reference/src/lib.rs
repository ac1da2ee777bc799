//! A plain reference for the plan register: document 01 and requests 1 to 5 of document 02.
//!
//! It is written to be seen right: every row permutation is listed, the columns
//! are sorted, the least arrangement is taken; bounds are pruned by listing every
//! grid in them, and by the extremal grid where these are too many; the machine
//! is a set of least grids, each with its eight holdings.
//!
//! A module uses only modules above it in this table:
//!
//! | module         | part of these                                        |
//! |----------------|------------------------------------------------------|
//! | `permutation`  | orders: the starting one, following, reverse         |
//! | `grid`         | grids, arrangements, classes                         |
//! | `holdings`     | what the eight clients hold of a class               |
//! | `questions`    | the questions, one function each                     |
//! | `grid_calls`   | represent and same, also those of a terminal         |
//! | `bounds`       | forms and allperm; prune                             |
//! | `layout`       | the register's bytes, and question 5                 |
//! | `register`     | open, enter, strike, count, a terminal's enter       |
//! | `machine`      | the plain machine of demand 3                        |
//! | `planbook`     | the program, input bytes to output bytes             |
//! | `random`       | a small generator for tests and benchmarks           |
//! | `examples`     | grids and registers for tests                        |
//! | `designs`      | grids with much symmetry, for tests and benchmarks   |
//! | `two_valued`   | random grids of two values, for tests and benchmarks |
//! | `hills`        | grids that take long, for tests and benchmarks       |
//! | `forms`        | bounds, for tests and benchmarks                     |
//! | `calls`        | the calls of a list, on a register or on the machine |
//! | `lists`        | random lists of calls, for tests                     |
//! | `antt_records` | how records are read from the definitions' tables    |
//! | `worked_cases` | the worked cases of the definitions, for tests       |

mod antt_records;
pub mod bounds;
pub mod calls;
pub mod designs;
pub mod examples;
pub mod forms;
pub mod grid;
pub mod grid_calls;
pub mod hills;
pub mod holdings;
pub mod layout;
pub mod lists;
pub mod machine;
pub mod permutation;
pub mod planbook;
pub mod questions;
pub mod random;
pub mod register;
pub mod two_valued;
pub mod worked_cases;
