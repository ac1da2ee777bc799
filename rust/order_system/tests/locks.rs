//! The lock, among threads. This file starts no process: one that is just being started would keep
//! the locks of its parent for a moment.

mod common;

use common::book::{enter, held, locked, PLAN};
use common::{folder, names, roomy_book};
use order_system::Book;
use plan_register::{Client, Entered};
use std::fs;
use std::thread::{self, sleep};
use std::time::Duration;

#[test]
fn a_change_waits_for_the_lock_and_a_reading_does_not() {
    let file = folder("waits").join("register.txt");
    let book = roomy_book(&file);
    enter(&book);
    let lock = locked(&file);
    let meanwhile = thread::scope(|scope| {
        let waiting = scope.spawn(|| enter(&book));
        sleep(Duration::from_millis(100));
        let meanwhile = (held(&book), waiting.is_finished());
        lock.unlock().expect("it is unlocked");
        meanwhile
    });
    assert_eq!(meanwhile, (1, false));
    assert_eq!(held(&book), 2);
}

#[test]
fn a_file_that_took_the_place_meanwhile_is_the_one_changed() {
    let folder = folder("meanwhile");
    let (file, other) = (folder.join("register.txt"), folder.join("other.txt"));
    let book = roomy_book(&file);
    let newer = roomy_book(&other);
    (0..5).for_each(|_| enter(&newer));
    let lock = locked(&file);
    thread::scope(|scope| {
        scope.spawn(|| enter(&book));
        sleep(Duration::from_millis(100));
        fs::rename(&other, &file).expect("it is renamed");
        lock.unlock().expect("it is unlocked");
    });
    assert_eq!(held(&book), 6);
}

#[test]
fn threads_with_books_on_one_file_lose_nothing() {
    let file = folder("threads").join("register.txt");
    let first = roomy_book(&file);
    let second = Book::open(&file).expect("the same book");
    let charged = thread::scope(|scope| {
        let threads = [&first, &second].map(|book| {
            scope.spawn(move || {
                let entered = (0..100).map(|_| book.enter(Client::ALL[0], &PLAN));
                let new = |entered: &Entered| matches!(entered, Entered::New { .. });
                entered.map(Result::unwrap).filter(new).count()
            })
        });
        threads.map(|thread| thread.join().expect("no panic"))
    });
    assert_eq!(charged.iter().sum::<usize>(), 1);
    assert_eq!((held(&first), held(&second)), (200, 200));
    assert_eq!(names(file.parent().expect("a folder")), ["register.txt"]);
}

#[test]
fn threads_that_make_one_book_lose_nothing() {
    for round in 0..25 {
        let file = folder(&format!("made_by_threads_{round}")).join("register.txt");
        thread::scope(|scope| {
            for _ in 0..12 {
                scope.spawn(|| enter(&roomy_book(&file)));
            }
        });
        assert_eq!(held(&roomy_book(&file)), 12);
        assert_eq!(names(file.parent().expect("a folder")), ["register.txt"]);
    }
}
