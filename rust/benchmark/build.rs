//! Compiles and links c/nauty_represent.c where nauty is installed: its header, and its library for
//! graphs of up to 64 vertices. Elsewhere the benchmark is built without it.

use std::env;
use std::path::{Path, PathBuf};
use std::process::Command;

const SOURCE: &str = "c/nauty_represent.c";

/// nauty compiled for words of 64 bits and one word for each vertex.
const LIBRARY: &str = "nautyL1";

fn main() {
    println!("cargo::rerun-if-changed=build.rs");
    println!("cargo::rerun-if-changed={SOURCE}");
    println!("cargo::rustc-check-cfg=cfg(nauty)");
    let out = PathBuf::from(env::var_os("OUT_DIR").expect("cargo sets OUT_DIR"));
    let Some(library) = library() else {
        return;
    };
    if archived(&out) {
        println!("cargo::rustc-cfg=nauty");
        println!("cargo::rustc-link-search=native={}", out.display());
        println!("cargo::rustc-link-search=native={}", library.display());
        println!("cargo::rustc-link-lib=static=nauty_represent");
        println!("cargo::rustc-link-lib=static={LIBRARY}");
    }
}

/// The folder in which the C compiler finds nauty's library.
fn library() -> Option<PathBuf> {
    let mut command = Command::new("cc");
    command.arg(format!("-print-file-name=lib{LIBRARY}.a"));
    let printed = String::from_utf8(command.output().ok()?.stdout).ok()?;
    // The compiler prints the bare name where there is no such file.
    let file = Path::new(printed.trim());
    let folder = file.parent().filter(|_| file.is_absolute());
    folder.map(Path::to_path_buf)
}

/// Compiles the C file into an archive in this folder. False where that fails, as it does without
/// nauty's header.
fn archived(out: &Path) -> bool {
    let object = out.join("nauty_represent.o");
    let archive = out.join("libnauty_represent.a");
    let mut compile = Command::new("cc");
    compile
        .args(["-O3", "-fPIC", "-c", SOURCE, "-o"])
        .arg(&object);
    let mut collect = Command::new("ar");
    collect.arg("crs").args([archive, object]);
    succeeds(compile) && succeeds(collect)
}

/// Does the command run and succeed? What it prints is not shown.
fn succeeds(mut command: Command) -> bool {
    command.output().is_ok_and(|output| output.status.success())
}
