//! How fast the calls are: the verified library beside unverified implementations in Rust.
//!
//! | module             | what                                                         |
//! |--------------------|--------------------------------------------------------------|
//! | `theorem_1`        | represent by document 002's Theorem 1: every row permutation |
//! | `packed_theorem_1` | the same over columns packed into words                      |
//! | `same_search`      | the library's own search, written in plain Rust              |
//! | `two_values`       | the same on grids with two values                            |
//! | `domination`       | rows that it need not place next                             |
//! | `branch_and_bound` | the vectorised search: a similar one, written for speed      |
//! | `bitonic`          | its sorting of 8 or 16 bytes                                 |
//! | `nauty`            | represent by nauty's labelling, where nauty is installed     |
//! | `value_by_value`   | prune by trying each value                                   |
//! | `same_pruning`     | the library's own pruning, written in plain Rust             |
//! | `values`           | what these two share: values and rows by rank                |
//! | `plain_register`   | open, enter, strike and count in plain Rust                  |
//! | `scan`             | question 5 in these                                          |
//! | `head`             | line 1 of a register in these                                |
//! | `line`             | an entry's line in these, compared and written               |
//! | `within`           | the counting of entries within bounds in these               |
//! | `call`             | the calls and their questions                                |
//! | `implementations`  | what is compared                                             |
//! | `inputs`           | what the timing needs of inputs                              |
//! | `grids`            | the grids that are timed                                     |
//! | `terminal_grids`   | those that are timed at a terminal                           |
//! | `pairs`            | the pairs of grids that are timed                            |
//! | `bounds`           | the bounds that are timed                                    |
//! | `openings`         | the registers that are opened                                |
//! | `registers`        | the registers on which calls are timed                       |
//! | `register_calls`   | the calls on them that are timed                             |
//! | `timing`           | medians over interleaved rounds                              |
//! | `low_times`        | low percentiles over interleaved rounds                      |
//! | `table`            | the printed tables                                           |
//! | `digits`           | the numbers in them                                          |
//! | `lines`            | the lines of all tables, and those chosen                    |
//! | `options`          | what the command line asks for                               |

mod bitonic;
pub mod bounds;
pub mod branch_and_bound;
pub mod call;
mod digits;
mod domination;
pub mod grids;
mod head;
pub mod implementations;
pub mod inputs;
mod line;
pub mod lines;
mod low_times;
#[cfg(nauty)]
pub mod nauty;
pub mod openings;
pub mod options;
pub mod packed_theorem_1;
pub mod pairs;
pub mod plain_register;
pub mod register_calls;
pub mod registers;
pub mod same_pruning;
pub mod same_search;
mod scan;
pub mod table;
pub mod terminal_grids;
pub mod theorem_1;
pub mod timing;
mod two_values;
pub mod value_by_value;
mod values;
mod within;
