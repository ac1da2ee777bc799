//! Runs the built program `planbook`, tells whether what it prints is whole, and compares it with
//! the reference.
//!
//! The program is crates/planbook/out/planbook under the repository's root, which
//! `bash scripts/planbook` proves and builds. The environment variable PLANBOOK may name another
//! one, from the same root.
//!
//! | module      | what                                                        |
//! |-------------|-------------------------------------------------------------|
//! | `program`   | finds the program and runs it                               |
//! | `whole`     | whether an output is whole                                  |
//! | `checks`    | runs it and compares what it prints                         |
//! | `lines`     | the lines of inputs, as documents 01 and 02 lay them        |
//! | `inputs`    | inputs: random ones, edited ones                            |
//! | `malformed` | lines that are not laid as documents 01 and 02 say          |
//! | `outputs`   | the printed lines and the register of an output             |
//! | `book`      | an input beside its output, where representatives are known |
//! | `classes`   | classes of grids in which no two rows have the same cells   |

pub mod book;
mod checks;
pub mod classes;
pub mod inputs;
pub mod lines;
pub mod malformed;
pub mod outputs;
pub mod program;
pub mod whole;

pub use checks::{check, check_both, check_each, check_prints};
pub use program::run;
