//! What a new file keeps of the former one: its mode, its owner, and the links to it.

mod common;

use common::{check, check_refuses, folder, names, output, run, text, HELD, ORDER};
use std::fs::{self, Permissions};
use std::os::unix::fs::{chown, symlink, MetadataExt, PermissionsExt};
use std::path::Path;
use std::process::Command;

fn check_order_is_taken(file: &Path) {
    let output = run(file, ORDER);
    assert_eq!(String::from_utf8_lossy(&output.stderr), "");
    assert!(output.status.success());
}

#[test]
fn the_mode_is_kept() {
    let file = folder("mode").join("register.txt");
    check_order_is_taken(&file);
    for mode in [0o640, 0o600, 0o666, 0o755] {
        fs::set_permissions(&file, Permissions::from_mode(mode)).expect("the mode is set");
        check_order_is_taken(&file);
        let metadata = fs::metadata(&file).expect("a file");
        assert_eq!(metadata.mode() & 0o7777, mode);
    }
}

#[test]
fn a_new_book_has_the_mode_of_any_new_file() {
    let folder = folder("new_mode");
    let file = folder.join("register.txt");
    let mut shell = Command::new("sh");
    shell.args(["-c", "umask 027; exec \"$0\" \"$1\""]);
    shell.arg(env!("CARGO_BIN_EXE_order_system")).arg(&file);
    assert!(output(shell.stdout(std::process::Stdio::piped()), ORDER)
        .status
        .success());
    let metadata = fs::metadata(&file).expect("a file");
    assert_eq!(metadata.mode() & 0o7777, 0o640);
}

#[test]
fn owner_and_group_are_kept() {
    let file = folder("owner").join("register.txt");
    check_order_is_taken(&file);
    if chown(&file, Some(1234), Some(5678)).is_err() {
        return; // Only the superuser can give a file away.
    }
    check_order_is_taken(&file);
    let metadata = fs::metadata(&file).expect("a file");
    assert_eq!((metadata.uid(), metadata.gid()), (1234, 5678));
}

#[test]
fn a_symbolic_link_stays_one_and_its_file_is_changed() {
    let folder = folder("symbolic");
    let (links, files) = (folder.join("links"), folder.join("files"));
    for folder in [&links, &files] {
        fs::create_dir(folder).expect("a folder");
    }
    let (first, second) = (links.join("first.txt"), links.join("second.txt"));
    symlink("second.txt", &first).expect("a link");
    symlink("../files/register.txt", &second).expect("a link");
    check_order_is_taken(&files.join("register.txt"));
    assert_eq!(text(&first), HELD);
    check_order_is_taken(&first);
    let twice = HELD.replace("2  2  1  0", "2  2  2  0");
    assert_eq!(text(&files.join("register.txt")), twice);
    assert_eq!(
        fs::read_link(&first).expect("a link"),
        Path::new("second.txt")
    );
    let target = fs::read_link(&second).expect("a link");
    assert_eq!(target, Path::new("../files/register.txt"));
    assert_eq!(names(&links), ["first.txt", "second.txt"]);
    assert_eq!(names(&files), ["register.txt"]);
}

#[test]
fn a_link_that_points_nowhere_is_named() {
    let folder = folder("nowhere");
    let link = folder.join("link.txt");
    symlink("nothing.txt", &link).expect("a link");
    check_refuses(&link, "the link points nowhere");
    assert_eq!(names(&folder), ["link.txt"]);
}

#[test]
fn a_file_with_two_names_is_not_parted() {
    let folder = folder("two_names");
    let (file, other) = (folder.join("register.txt"), folder.join("other.txt"));
    check_order_is_taken(&file);
    fs::hard_link(&file, &other).expect("a second name");
    let held = "1 plans are held\n";
    let reason = "the file has 2 names (hard links), and only one would be changed";
    let complaint = format!(
        "order_system: line 1 is not settled: {}: {reason}\n",
        file.display()
    );
    check(&run(&file, ORDER), held, &complaint, 1);
    let inode = |path: &Path| fs::metadata(path).expect("a file").ino();
    assert_eq!(inode(&file), inode(&other));
    assert_eq!(text(&file), HELD);
    assert_eq!(names(&folder), ["other.txt", "register.txt"]);

    fs::remove_file(&other).expect("it is removed");
    check_order_is_taken(&file);
}
