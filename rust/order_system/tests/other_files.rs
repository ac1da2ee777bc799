//! Files that are no book of these plans: they are named and left as they are.

mod common;

use common::{check_refuses, folder, names, text, HELD};
use order_system::{Book, Fault};
use std::fs;

#[test]
fn a_file_that_is_no_register_is_left_alone() {
    let folder = folder("no_register");
    let file = folder.join("register.txt");
    let without_holdings = "     2     3     3     1     1\n  0  0  0  1  1  1\n";
    let cut_off = &HELD[..HELD.len() - 1];
    let texts = [
        "",
        "not a register\n",
        &HELD[1..],
        cut_off,
        without_holdings,
    ];
    for bytes in texts {
        fs::write(&file, bytes).expect("the file is written");
        let reason = "the bytes are not laid out as a register (number 5)";
        check_refuses(&file, reason);
        let error = Book::open(&file).expect_err("no register");
        assert!(matches!(error.fault, Fault::NoRegister));
        assert_eq!(text(&file), bytes);
        assert_eq!(names(&folder), ["register.txt"]);
    }
}

#[test]
fn a_register_of_other_plans_is_left_alone() {
    let folder = folder("other_plans");
    let file = folder.join("register.txt");
    for (rows, columns, top) in [(3, 2, 3), (2, 4, 3), (2, 3, 2), (2, 3, 4)] {
        let width = 3 * (rows * columns + 8);
        let bytes = format!("{rows:6}{columns:6}{top:6}     1     0\n{:width$}\n", "");
        fs::write(&file, &bytes).expect("the file is written");
        let plans = format!("{rows} by {columns}, cells of 0 to {top}");
        check_refuses(&file, &format!("the register is for other plans: {plans}"));
        assert_eq!(text(&file), bytes);
        assert_eq!(names(&folder), ["register.txt"]);
    }
}

#[test]
fn a_book_that_others_replaced_by_one_of_other_plans_is_not_changed() {
    let file = folder("replaced_by_others").join("register.txt");
    let client = plan_register::Client::ALL[0];
    let book = Book::open_or_create(&file, 2, 3, 3, 1).expect("the book is made");
    let bytes = format!("     3     2     3     1     0\n{:42}\n", "");
    fs::write(&file, &bytes).expect("the file is written");
    let error = book.enter(client, &[0; 6]).expect_err("other plans");
    assert!(matches!(
        error.fault,
        Fault::OtherPlans {
            rows: 3,
            columns: 2,
            top: 3
        }
    ));
    assert!(book.register().is_err());
    assert_eq!(text(&file), bytes);

    fs::remove_file(&file).expect("the file is removed");
    let error = book.enter(client, &[0; 6]).expect_err("no file");
    let missing = format!(
        "{}: cannot be found: No such file or directory (os error 2)",
        file.display()
    );
    assert_eq!(error.to_string(), missing);
    assert!(!file.exists());
}
