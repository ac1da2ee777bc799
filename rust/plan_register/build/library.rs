//! The static library as the build finds it: is it there, and is it newer than its sources?

use std::fs;
use std::path::{Path, PathBuf};
use std::time::SystemTime;

/// The crate whose library it is.
const NAME: &str = "plan_register";

/// The folder of the library.
pub fn folder(root: &Path) -> PathBuf {
    root.join("crates").join(NAME).join("out")
}

/// The library.
pub fn archive(root: &Path) -> PathBuf {
    folder(root).join(format!("lib{NAME}.a"))
}

/// What the library is made of: crates.txt and the folder of each crate's source. Nothing where
/// this is not the repository, which is seen by crates.txt.
pub fn sources(root: &Path) -> Vec<PathBuf> {
    let list = root.join("crates.txt");
    let Ok(text) = fs::read_to_string(&list) else {
        return Vec::new();
    };
    let folders = crates(&text).into_iter();
    let folders = folders.map(|name| root.join("crates").join(name).join("src"));
    // A crate of the kit has no folder here.
    let folders = folders.filter(|folder| folder.is_dir());
    [list].into_iter().chain(folders).collect()
}

/// The crate and those that it is made of, directly or through others.
fn crates(text: &str) -> Vec<&str> {
    let mut found = vec![NAME];
    let mut at = 0;
    while at < found.len() {
        for used in used_by(text, found[at]) {
            if !found.contains(&used) {
                found.push(used);
            }
        }
        at += 1;
    }
    found
}

/// The crates that a crate names in its line of crates.txt, which begins with the crate's name.
fn used_by<'a>(text: &'a str, name: &str) -> impl Iterator<Item = &'a str> {
    let lines = text.lines().filter_map(|line| line.split_once(':'));
    let mut lines = lines.filter(move |(listed, _)| listed.split_whitespace().next() == Some(name));
    lines.next().map_or("", |(_, used)| used).split_whitespace()
}

/// What is wrong with the library, and what to do.
pub fn complaint(root: &Path) -> Option<String> {
    let archive = archive(root);
    let Some(written) = modified(&archive) else {
        return Some(format!("{} is missing: {REMEDY}", archive.display()));
    };
    let newer = sources(root).iter().find_map(|path| newer(path, written))?;
    Some(format!(
        "{} is older than {}: {REMEDY}",
        archive.display(),
        newer.display()
    ))
}

const REMEDY: &str = "run `bash scripts/library` in the repository's root";

fn modified(path: &Path) -> Option<SystemTime> {
    fs::metadata(path).ok()?.modified().ok()
}

/// The file, or a source file in the folder, that is newer than this.
fn newer(path: &Path, than: SystemTime) -> Option<PathBuf> {
    if let Ok(entries) = fs::read_dir(path) {
        let mut paths = entries.filter_map(|entry| Some(entry.ok()?.path()));
        return paths.find_map(|path| newer(&path, than));
    }
    let is_source = path
        .extension()
        .is_some_and(|end| end == "rt" || end == "txt");
    (is_source && modified(path)? > than).then(|| path.to_path_buf())
}
