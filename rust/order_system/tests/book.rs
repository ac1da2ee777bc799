//! The calls of a book: what is refused writes nothing, and any plans may be kept.

mod common;

use common::book::{enter, PLAN};
use common::folder;
use order_system::{Book, Fault};
use plan_register::{Client, Entered, Refusal, Register};
use std::fs;

#[test]
fn a_refusal_writes_nothing() {
    let file = folder("refusal").join("register.txt");
    let book = Book::open_or_create(&file, 2, 3, 3, 1).expect("the book is made");
    enter(&book);
    let before = fs::metadata(&file)
        .expect("a file")
        .modified()
        .expect("a time");
    let [anna, ben, ..] = Client::ALL;
    let refusals = [
        (book.enter(ben, &[0; 6]).map(Entered::place), Refusal::Full),
        (book.enter(ben, &[4; 6]).map(Entered::place), Refusal::Cell),
        (book.strike(ben, &PLAN), Refusal::NotHeld),
        (book.strike(anna, &PLAN[1..]), Refusal::Length),
    ];
    for (answer, expected) in refusals {
        let error = answer.expect_err("refused");
        assert!(matches!(error.fault, Fault::Refused(refusal) if refusal == expected));
        assert!(error.to_string().starts_with(&file.display().to_string()));
    }
    let after = fs::metadata(&file)
        .expect("a file")
        .modified()
        .expect("a time");
    assert_eq!(before, after);
    let error = Book::open_or_create(&file, 9, 3, 3, 1).expect_err("nine rows");
    assert!(matches!(error.fault, Fault::Refused(Refusal::Rows)));
}

#[test]
fn a_book_of_any_plans_is_opened() {
    let file = folder("any_plans").join("register.txt");
    let error = Book::open(&file).expect_err("no file");
    assert!(matches!(error.fault, Fault::Failed { .. }));
    let register = Register::open(3, 1, 2, 2).expect("a register");
    fs::write(&file, register.bytes()).expect("the file is written");
    let book = Book::open(&file).expect("a book");
    let anna = Client::ALL[0];
    assert_eq!(
        book.enter(anna, &[2, 0, 1]).expect("entered"),
        Entered::New { place: 1 }
    );
    assert_eq!(book.strike(anna, &[0, 1, 2]).expect("struck"), 1);
    assert_eq!(book.register().expect("a register"), register);
    assert_eq!(book.path(), file);
}
