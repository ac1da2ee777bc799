//! A register in a file, for any number of processes at once.
//!
//! A [`Book`] is the path of the file. Each call on it is one transaction: it locks the file, reads
//! it, makes the register's call, writes, syncs, and answers only then. So an order that was
//! answered is in the book, whatever ends the process or the machine a moment later, and a plan is
//! charged once, whoever else uses the book.
//!
//! | module      | what                                                        |
//! |-------------|-------------------------------------------------------------|
//! | `book`      | the book and its calls                                      |
//! | `error`     | why a call was not done                                     |
//! | `locked`    | the book's file, locked: how it is read and replaced        |
//! | `new_book`  | a book where there is none                                  |
//! | `temporary` | a file of its own name beside the book, for what is written |
//! | `leftovers` | the temporary files of processes that were killed           |
//! | `names`     | where a book is, its folder, and its temporary files' names |
//!
//! Linux, and the standard library alone.

#![forbid(unsafe_code)]

mod book;
mod error;
mod leftovers;
mod locked;
mod names;
mod new_book;
mod temporary;

pub use book::Book;
pub use error::{Error, Fault};
