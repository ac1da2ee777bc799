//! Files and folders that the user may not change: the message names the file, and it is left alone.
//! The superuser may change all, so that the program is run by another user then.

mod common;

use common::{check, folder, names, output, program, text, HELD, ORDER};
use std::fs::{self, Permissions};
use std::os::unix::fs::{MetadataExt, PermissionsExt};
use std::os::unix::process::CommandExt;
use std::path::{Path, PathBuf};
use std::process::{Command, Stdio};

const NOBODY: u32 = 65534;

fn is_superuser(folder: &Path) -> bool {
    fs::metadata(folder).expect("a folder").uid() == 0
}

/// The program on this file, by a user who is not the superuser. `None` where that user may not
/// start it.
fn by_a_user(file: &Path) -> Option<Command> {
    let by_nobody = |command: &mut Command| {
        if is_superuser(file.parent().expect("a folder")) {
            command.uid(NOBODY).gid(NOBODY);
        }
    };
    let mut help = Command::new(env!("CARGO_BIN_EXE_order_system"));
    by_nobody(&mut help);
    help.arg("--help").output().ok()?;
    let mut command = program(file);
    by_nobody(&mut command);
    command.stdout(Stdio::piped());
    Some(command)
}

/// A folder with a book in it, each with its mode.
fn book(name: &str, folder_mode: u32, mode: u32) -> PathBuf {
    let folder = folder(name);
    let file = folder.join("register.txt");
    fs::write(&file, HELD).expect("the file is written");
    for (path, mode) in [(&file, mode), (&folder, folder_mode)] {
        fs::set_permissions(path, Permissions::from_mode(mode)).expect("the mode is set");
    }
    file
}

/// Checks that an order is not settled for this reason, and that nothing is changed.
fn check_not_settled(file: &Path, reason: &str) {
    let Some(mut command) = by_a_user(file) else {
        eprintln!("no other user may start the program: not looked at");
        return;
    };
    let path = file.display();
    let complaint = format!("order_system: line 1 is not settled: {path}: {reason}\n");
    let output = output(&mut command, ORDER);
    check(&output, "1 plans are held\n", &complaint, 1);
    assert_eq!(text(file), HELD);
    assert_eq!(names(file.parent().expect("a folder")), ["register.txt"]);
}

/// So that the folder can be removed by the next test.
fn open_up(file: &Path) {
    let folder = file.parent().expect("a folder");
    fs::set_permissions(folder, Permissions::from_mode(0o755)).expect("the mode is set");
}

#[test]
fn in_a_folder_that_cannot_be_changed_the_book_stays() {
    let file = book("read_only_folder", 0o555, 0o666);
    let reason = "no new file can be made beside it: Permission denied (os error 13)";
    check_not_settled(&file, reason);
    open_up(&file);
}

#[test]
fn in_a_folder_that_cannot_be_changed_no_book_is_made() {
    let folder = folder("read_only_new");
    fs::set_permissions(&folder, Permissions::from_mode(0o555)).expect("the mode is set");
    let file = folder.join("register.txt");
    if let Some(mut command) = by_a_user(&file) {
        let reason = "no new file can be made beside it: Permission denied (os error 13)";
        let complaint = format!("order_system: {}: {reason}\n", file.display());
        check(&output(&mut command, ORDER), "", &complaint, 1);
        assert_eq!(names(&folder), [""; 0]);
    }
    open_up(&file);
}

#[test]
fn a_file_that_cannot_be_written_stays() {
    let file = book("read_only_file", 0o777, 0o444);
    let reason = "cannot be opened: Permission denied (os error 13)";
    check_not_settled(&file, reason);
}

#[test]
fn a_file_of_another_user_is_not_taken_over() {
    let file = book("of_another", 0o777, 0o666);
    if is_superuser(&file) {
        let reason = "no new file can have its owner and mode: \
                      Operation not permitted (os error 1)";
        check_not_settled(&file, reason);
    }
}
