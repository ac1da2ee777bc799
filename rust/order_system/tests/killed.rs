//! Processes that are killed: what they answered is in the book, and they leave nothing behind.

mod common;

use common::orders::{classes, enters, mixed, Order};
use common::running::Running;
use common::tally::Tally;
use common::{folder, names, roomy_book, run, ORDER};
use order_system::Book;
use plan_register::Register;
use reference::random::Random;
use std::path::Path;
use std::sync::atomic::{AtomicBool, Ordering::Relaxed};
use std::thread;

/// Runs the program on the file once more, and checks that there is no other file beside it.
fn check_nothing_is_left(file: &Path) {
    let output = run(file, ORDER);
    assert_eq!(String::from_utf8_lossy(&output.stderr), "");
    assert!(output.status.success());
    assert_eq!(names(file.parent().expect("a folder")), ["register.txt"]);
}

/// Checks that the answers are those of the register so far, which takes the orders in; and that
/// the file has the same register, or the one after the next order.
fn check_killed(book: &Book, expected: &mut Register, orders: &[Order], answers: &[String]) {
    for (line, answer) in (1..).zip(answers) {
        assert_eq!(*answer, orders[line - 1].settled(line, expected));
    }
    let found = book.register().expect("a whole register");
    if found != *expected {
        orders[answers.len()].settled(0, expected);
    }
    assert!(
        found == *expected,
        "neither before nor after the next order"
    );
}

#[test]
fn what_a_killed_process_answered_is_in_the_book() {
    let mut random = Random::new(4);
    let file = folder("killed").join("register.txt");
    let book = roomy_book(&file);
    let mut expected = book.register().expect("a register");
    let classes = classes(&mut random, 20);
    for _ in 0..250 {
        let orders = mixed(&mut random, &classes, [1, 8], 40);
        let running = Running::start(&file, &orders);
        let lines = random.below(6);
        let answers = running.kill_after(lines, 3000, &mut random);
        check_killed(&book, &mut expected, &orders, &answers);
    }
    check_nothing_is_left(&file);
}

#[test]
fn a_process_beside_killed_ones_loses_nothing() {
    let mut random = Random::new(5);
    let file = folder("killed_beside").join("register.txt");
    let book = roomy_book(&file);
    let classes = classes(&mut random, 30);
    let orders = enters(&mut random, &classes, [1, 4], 300);
    let mut tally = Tally::default();
    let is_over = AtomicBool::new(false);
    thread::scope(|scope| {
        let long = scope.spawn(|| {
            let mut running = Running::start(&file, &orders);
            while running.read() {}
            is_over.store(true, Relaxed);
            running.kill_after(0, 1, &mut Random::new(0))
        });
        while !is_over.load(Relaxed) {
            let orders = enters(&mut random, &classes, [5, 8], 40);
            let running = Running::start(&file, &orders);
            let lines = random.below(4);
            let answers = running.kill_after(lines, 3000, &mut random);
            tally.take(&orders, &answers);
            if let Some(order) = orders.get(answers.len()) {
                tally.leave_open(order);
            }
        }
        let answers = long.join().expect("no panic");
        assert_eq!(answers.len(), orders.len());
        tally.take(&orders, &answers);
    });
    let register = book.register().expect("a register");
    tally.check_holdings(&register);
    tally.check_charges(&register);
    check_nothing_is_left(&file);
}

#[test]
fn a_process_killed_while_it_makes_the_book_leaves_nothing() {
    let mut random = Random::new(6);
    for round in 0..60 {
        let file = folder(&format!("killed_early_{round}")).join("register.txt");
        Running::start(&file, &[]).kill_after(0, 3000, &mut random);
        if file.exists() {
            let book = Book::open(&file).expect("a whole register");
            assert_eq!(book.register().expect("a register").count(), 0);
        }
        check_nothing_is_left(&file);
    }
}
