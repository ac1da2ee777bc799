//! The names of temporary files where some are in use, as by a process in another container that has
//! the same number. This test is alone in its process, so that the numbers begin at 0.

mod common;

use common::book::{enter, locked};
use common::{folder, names, roomy_book};
use std::fs::{self, File};

#[test]
fn a_name_that_is_in_use_is_not_taken() {
    let folder = folder("names_in_use");
    let book = roomy_book(&folder.join("register.txt"));
    let process = std::process::id();
    let name = |number: usize| folder.join(format!(".register.txt.{process}.{number}.new"));
    let in_use = |number: usize| {
        fs::write(name(number), "in use").expect("a file");
        locked(&name(number))
    };
    let files: Vec<File> = (0..20).map(in_use).collect();
    enter(&book);
    for (number, file) in files.iter().enumerate() {
        assert_eq!(fs::read(name(number)).expect("a file"), b"in use");
        file.unlock().expect("it is unlocked");
    }
    enter(&book);
    assert_eq!(names(&folder), ["register.txt"]);
}
