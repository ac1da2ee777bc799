//! What killed processes leave, and the next change removes. This file starts no process: one that is
//! just being started would keep the locks of its parent for a moment.

mod common;

use common::book::{enter, locked};
use common::{folder, names, roomy_book};
use std::fs;
use std::os::unix::fs::symlink;

#[test]
fn what_nobody_has_locked_is_removed() {
    let folder = folder("leftovers");
    let book = roomy_book(&folder.join("register.txt"));
    let others = [
        ".other.txt.1.0.new",
        ".register.txt..0.new",
        ".register.txt.1.0.2.new",
        ".register.txt.1.0.old",
        ".register.txt.1.new",
        ".register.txt.1.x.new",
        ".register.txt.new",
        "register.txt",
        "register.txt.1.0.new",
    ];
    for name in others.iter().filter(|name| **name != "register.txt") {
        fs::write(folder.join(name), "left").expect("a file");
    }
    let left = [".register.txt.1.0.new", ".register.txt.99.123.new"];
    for name in left {
        fs::write(folder.join(name), "left").expect("a file");
    }
    let in_use = locked(&folder.join(left[1]));
    enter(&book);
    let mut expected = [&others[..], &left[1..]].concat();
    expected.sort();
    assert_eq!(names(&folder), expected);
    in_use.unlock().expect("it is unlocked");
    enter(&book);
    assert_eq!(names(&folder), others);
}

#[test]
fn what_is_no_file_is_not_removed() {
    let folder = folder("no_leftovers");
    let book = roomy_book(&folder.join("register.txt"));
    symlink("target.txt", folder.join(".register.txt.1.0.new")).expect("a link");
    fs::create_dir(folder.join(".register.txt.2.0.new")).expect("a folder");
    fs::write(folder.join("target.txt"), "").expect("a file");
    let before = names(&folder);
    enter(&book);
    assert_eq!(names(&folder), before);
}

/// As a process leaves it that is killed after a new file became the book.
#[test]
fn a_book_that_has_the_name_of_its_making_still_is_changed() {
    let folder = folder("half_made");
    let file = folder.join("register.txt");
    let book = roomy_book(&file);
    let left = folder.join(".register.txt.1.0.new");
    fs::hard_link(&file, &left).expect("a second name");
    enter(&book);
    assert_eq!(names(&folder), ["register.txt"]);
}

/// As a process leaves it that is killed before a new file became the book.
#[test]
fn what_is_left_of_a_book_that_was_not_made_is_removed() {
    let folder = folder("not_made");
    fs::write(folder.join(".register.txt.1.0.new"), "left").expect("a file");
    roomy_book(&folder.join("register.txt"));
    assert_eq!(names(&folder), ["register.txt"]);
}
