//! No two modules use each other: each uses only modules above it in the table of lib.rs.

use std::fs;
use std::path::{Path, PathBuf};

fn source() -> PathBuf {
    Path::new(env!("CARGO_MANIFEST_DIR")).join("src")
}

/// The modules that the table of lib.rs lists, in its order.
fn listed() -> Vec<String> {
    let text = include_str!("../src/lib.rs");
    let names = text.lines().filter_map(|line| line.strip_prefix("//! | `"));
    names
        .filter_map(|line| line.split_once('`'))
        .map(|(name, _)| name.to_string())
        .collect()
}

/// The modules of this crate that the module names.
fn used(module: &str) -> Vec<String> {
    let path = source().join(format!("{module}.rs"));
    let text = fs::read_to_string(path).expect("a module is a file");
    let parts = text.split("crate::").skip(1);
    parts
        .filter_map(|part| {
            part.split(|c: char| !(c.is_alphanumeric() || c == '_'))
                .next()
        })
        .map(str::to_string)
        .collect()
}

#[test]
fn each_module_uses_only_modules_above_it() {
    let listed = listed();
    for (k, module) in listed.iter().enumerate() {
        for other in used(module) {
            assert!(listed[..k].contains(&other), "{module} uses {other}");
        }
    }
}

#[test]
fn the_table_lists_every_module() {
    let mut listed = listed();
    listed.sort();
    let files = fs::read_dir(source()).expect("the folder is read");
    let paths = files.map(|file| file.expect("a file").path());
    let mut modules: Vec<String> = paths
        .filter(|path| path.extension().is_some_and(|extension| extension == "rs"))
        .filter_map(|path| Some(path.file_stem()?.to_str()?.to_string()))
        .filter(|name| name != "lib")
        .collect();
    modules.sort();
    assert_eq!(listed, modules);
}
