//! Several processes at once on one file: nothing is lost, and each plan is charged once.

mod common;

use common::orders::{classes, enters, lines, mixed, Order};
use common::tally::Tally;
use common::{folder, names, roomy_book, run};
use order_system::Book;
use reference::random::Random;
use std::path::Path;
use std::thread;

/// Runs a process on each list of orders, all at once. Returns the answers of each.
fn answers(file: &Path, lists: &[Vec<Order>]) -> Vec<Vec<String>> {
    thread::scope(|scope| {
        let runs: Vec<_> = lists
            .iter()
            .map(|orders| scope.spawn(|| answers_of_one(file, orders)))
            .collect();
        let answers = runs.into_iter().map(|run| run.join().expect("no panic"));
        answers.collect()
    })
}

fn answers_of_one(file: &Path, orders: &[Order]) -> Vec<String> {
    let output = run(file, &lines(orders));
    assert_eq!(String::from_utf8_lossy(&output.stderr), "");
    assert!(output.status.success());
    let stdout = String::from_utf8(output.stdout).expect("text");
    let answers = stdout.lines().filter(|line| line.starts_with("line "));
    let answers: Vec<String> = answers.map(str::to_string).collect();
    assert_eq!(answers.len(), orders.len());
    answers
}

/// Runs the lists at once and checks all holdings.
fn check_at_once(file: &Path, lists: &[Vec<Order>]) -> Tally {
    let mut tally = Tally::default();
    for (orders, answers) in lists.iter().zip(answers(file, lists)) {
        tally.take(orders, &answers);
    }
    let register = Book::open(file).expect("a book").register();
    tally.check_holdings(&register.expect("a register"));
    assert_eq!(names(file.parent().expect("a folder")), ["register.txt"]);
    tally
}

#[test]
fn two_to_four_processes_lose_nothing_and_charge_once() {
    let mut random = Random::new(1);
    for processes in [2, 3, 4] {
        let file = folder(&format!("at_once_{processes}")).join("register.txt");
        let book = roomy_book(&file);
        let classes = classes(&mut random, 30);
        let lists: Vec<_> = (0..processes)
            .map(|_| enters(&mut random, &classes, [1, 8], 100))
            .collect();
        let tally = check_at_once(&file, &lists);
        tally.check_charges(&book.register().expect("a register"));
    }
}

#[test]
fn processes_that_withdraw_lose_nothing() {
    let mut random = Random::new(2);
    let file = folder("withdraw_at_once").join("register.txt");
    roomy_book(&file);
    let classes = classes(&mut random, 4);
    // Each for a client of its own, so that its answers do not depend on the others.
    let lists = [1, 2, 3].map(|client| mixed(&mut random, &classes, [client, client], 100));
    check_at_once(&file, &lists);
}

#[test]
fn processes_that_make_the_book_at_once_use_one_book() {
    let mut random = Random::new(3);
    for round in 0..25 {
        let file = folder(&format!("made_at_once_{round}")).join("register.txt");
        let classes = classes(&mut random, 3);
        let lists = [(); 4].map(|()| enters(&mut random, &classes, [1, 8], 2));
        let tally = check_at_once(&file, &lists);
        let register = Book::open(&file).expect("a book").register();
        tally.check_charges(&register.expect("a register"));
    }
}
