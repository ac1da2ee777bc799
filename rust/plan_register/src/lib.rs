//! The calls of the plan register for Rust programs.
//!
//! The calls themselves are verified code in a static library, which
//! `bash scripts/library` proves and writes. Here they are safe functions
//! on numbers and byte slices. Any numbers and any slices may be sent: what does
//! not pass a call's questions is refused by number, and a refusal changes no byte.
//! `docs/GUIDE.md` tells how to use them.
//!
//! | module              | what                                                      |
//! |---------------------|-----------------------------------------------------------|
//! | `numbers`           | the numbers that the calls answer                         |
//! | `grids`             | represent and same                                        |
//! | `arranged`          | what represent returns                                    |
//! | `matched`           | what same returns                                         |
//! | `agreement`         | how far two plans agree, in words                         |
//! | `bounds`            | prune                                                     |
//! | `bytes`             | open, enter, strike and count                             |
//! | `placed`            | what open, enter, strike and a terminal's enter return    |
//! | `client`            | the clients that both enters and strike name              |
//! | `counted`           | what prune and count return                               |
//! | `terminals`         | a shop terminal's represent, same and enter               |
//! | `terminal_arranged` | what a terminal's represent returns                       |
//! | `terminal_matched`  | what a terminal's same returns                            |
//! | `register`          | a register that owns its bytes                            |
//! | `entry`             | an entry of it: a grid and its eight holdings             |
//! | `entered`           | what it returns for a class entered                       |
//! | `fields`            | the numbers that it reads from its bytes                  |
//! | `refusal`           | the numbers of refusals, as errors                        |
//! | `sys`               | the library's declarations, and why calling them is sound |

#![deny(unsafe_code)]

mod agreement;
mod arranged;
mod bounds;
mod bytes;
mod client;
mod counted;
mod entered;
mod entry;
mod fields;
mod grids;
mod matched;
pub mod numbers;
mod placed;
mod refusal;
mod register;
#[allow(unsafe_code)]
mod sys;
mod terminal_arranged;
mod terminal_matched;
mod terminals;

pub use agreement::Agreement;
pub use arranged::Arranged;
pub use bounds::prune;
pub use bytes::{count, enter, open, strike};
pub use client::Client;
pub use counted::Counted;
pub use entered::Entered;
pub use entry::Entry;
pub use grids::{represent, same};
pub use matched::Matched;
pub use placed::Placed;
pub use refusal::Refusal;
pub use register::Register;
pub use terminal_arranged::TerminalArranged;
pub use terminal_matched::TerminalMatched;
pub use terminals::{terminal_enter, terminal_represent, terminal_same};

/// The examples of the guide.
#[cfg(doctest)]
#[doc = include_str!("../../../docs/GUIDE.md")]
pub struct Guide;

/// The example of the README.
#[cfg(doctest)]
#[doc = include_str!("../../../README.md")]
pub struct Readme;
