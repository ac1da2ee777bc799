//! Links the verified static library, which stands in crates/plan_register/out under the
//! repository's root. The build fails where it is missing, or older than a source that it is made
//! of.

#[path = "build/library.rs"]
mod library;

use std::env;
use std::path::{Path, PathBuf};

fn main() {
    let root = repository_root();
    println!("cargo:rerun-if-changed=build.rs");
    println!("cargo:rerun-if-changed=build/library.rs");
    println!(
        "cargo:rerun-if-changed={}",
        library::archive(&root).display()
    );
    for source in library::sources(&root) {
        println!("cargo:rerun-if-changed={}", source.display());
    }
    if let Some(complaint) = library::complaint(&root) {
        println!("cargo::error={complaint}");
    }
    println!(
        "cargo:rustc-link-search=native={}",
        library::folder(&root).display()
    );
    println!("cargo:rustc-link-lib=static=plan_register");
}

/// This package is the folder rust/plan_register of the repository.
fn repository_root() -> PathBuf {
    let package = env::var_os("CARGO_MANIFEST_DIR").expect("cargo sets CARGO_MANIFEST_DIR");
    let root = Path::new(&package).ancestors().nth(2);
    root.expect("the package is two folders deep").to_path_buf()
}
