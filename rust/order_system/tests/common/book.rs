//! Calls on a book of the program's plans, by client 1.

use order_system::Book;
use plan_register::Client;
use std::fs::File;
use std::path::Path;

pub const PLAN: [u8; 6] = [2, 2, 3, 2, 3, 1];

/// Enters the plan, which is or becomes the first entry.
pub fn enter(book: &Book) {
    let entered = book.enter(Client::ALL[0], &PLAN);
    assert_eq!(entered.expect("the order is taken").place(), 1);
}

/// What the client holds of the first entry.
pub fn held(book: &Book) -> u16 {
    let register = book.register().expect("a register");
    let entry = register.entry(1).expect("an entry");
    entry.held_by(Client::ALL[0])
}

/// The file, with a lock that keeps all others out.
pub fn locked(path: &Path) -> File {
    let file = File::options().read(true).write(true).open(path);
    let file = file.expect("the file is opened");
    file.lock().expect("the file is locked");
    file
}
