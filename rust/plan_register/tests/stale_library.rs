//! What the build says of a library that is missing, or older than its sources.

#[path = "../build/library.rs"]
mod library;

use std::fs::{self, File};
use std::path::{Path, PathBuf};
use std::time::{Duration, SystemTime};

/// A repository in a temporary folder of this name, which is removed at the end.
struct Repository {
    root: PathBuf,
}

impl Repository {
    /// The library at hour 5, crates.txt and all sources at hour 3.
    fn new(name: &str) -> Repository {
        let root = Path::new(env!("CARGO_TARGET_TMPDIR")).join(name);
        let _ = fs::remove_dir_all(&root);
        let repository = Repository { root };
        repository.write(
            "crates.txt",
            3,
            "# A comment.\nother:\nbelow: bytes\nused: below\nplan_register staticlib: used bytes\n",
        );
        repository.write("crates/plan_register/src/lib.rt", 3, "");
        repository.write("crates/used/src/lib.rt", 3, "");
        repository.write("crates/used/src/deep/part.rt", 3, "");
        repository.write("crates/below/src/lib.rt", 3, "");
        repository.write("crates/other/src/lib.rt", 3, "");
        repository.write("crates/plan_register/out/libplan_register.a", 5, "");
        repository
    }

    fn write(&self, file: &str, hour: u64, text: &str) {
        let path = self.root.join(file);
        fs::create_dir_all(path.parent().expect("a folder")).expect("the folder is made");
        fs::write(&path, text).expect("the file is written");
        let time = SystemTime::UNIX_EPOCH + Duration::from_secs(3600 * hour);
        let written = File::options().write(true).open(&path);
        let file = written.expect("the file is opened");
        file.set_modified(time).expect("the time is set");
    }

    /// What the build says, without the folder's name.
    fn complaint(&self) -> Option<String> {
        let root = format!("{}/", self.root.display());
        library::complaint(&self.root).map(|complaint| complaint.replace(&root, ""))
    }

    fn check_older_than(&self, file: &str) {
        let expected = format!(
            "crates/plan_register/out/libplan_register.a is older than {file}: \
             run `bash scripts/library` in the repository's root"
        );
        assert_eq!(self.complaint(), Some(expected));
    }
}

impl Drop for Repository {
    fn drop(&mut self) {
        let _ = fs::remove_dir_all(&self.root);
    }
}

#[test]
fn a_library_newer_than_its_sources_is_taken() {
    let repository = Repository::new("newer");
    assert_eq!(repository.complaint(), None);
    assert_eq!(library::sources(&repository.root).len(), 4);
}

#[test]
fn a_library_as_old_as_a_source_is_taken() {
    let repository = Repository::new("as_old");
    repository.write("crates/used/src/lib.rt", 5, "");
    assert_eq!(repository.complaint(), None);
}

#[test]
fn a_missing_library_is_noticed() {
    let repository = Repository::new("missing");
    let archive = library::archive(&repository.root);
    fs::remove_file(archive).expect("the library is removed");
    let expected = "crates/plan_register/out/libplan_register.a is missing: \
                    run `bash scripts/library` in the repository's root";
    assert_eq!(repository.complaint().as_deref(), Some(expected));
}

#[test]
fn each_newer_source_is_noticed() {
    for (name, file) in [
        ("newer_list", "crates.txt"),
        ("newer_own", "crates/plan_register/src/lib.rt"),
        ("newer_used", "crates/used/src/lib.rt"),
        ("newer_deep", "crates/used/src/deep/part.rt"),
        ("newer_file", "crates/used/src/added.rt"),
        ("newer_below", "crates/below/src/lib.rt"),
    ] {
        let repository = Repository::new(name);
        repository.write(file, 6, "used: below\nplan_register staticlib: used\n");
        repository.check_older_than(file);
    }
}

#[test]
fn other_files_do_not_matter() {
    let repository = Repository::new("others");
    repository.write("crates/other/src/lib.rt", 6, "");
    repository.write("crates/used/specs/Lib.antt", 6, "");
    repository.write("crates/used/src/notes", 6, "");
    assert_eq!(repository.complaint(), None);
}

#[test]
fn elsewhere_only_the_library_is_asked_for() {
    let repository = Repository::new("elsewhere");
    repository.write("crates/used/src/lib.rt", 6, "");
    fs::remove_file(repository.root.join("crates.txt")).expect("the list is removed");
    assert_eq!(repository.complaint(), None);
    assert_eq!(library::sources(&repository.root).len(), 0);
    fs::remove_file(library::archive(&repository.root)).expect("the library is removed");
    assert!(repository.complaint().is_some());
}
