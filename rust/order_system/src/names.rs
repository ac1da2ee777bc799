//! Where a book is, its folder, and the names of the temporary files beside it.

use crate::error::failed;
use crate::Fault;
use std::ffi::{OsStr, OsString};
use std::fs::{self, File};
use std::io::{self, ErrorKind::NotFound};
use std::os::unix::ffi::OsStrExt;
use std::os::unix::fs::MetadataExt;
use std::path::{Path, PathBuf};

/// The path of the file itself, with all symbolic links followed.
pub fn found(path: &Path) -> Result<PathBuf, Fault> {
    match fs::canonicalize(path) {
        Ok(found) => plain_file(found),
        Err(error) if error.kind() == NotFound && path.is_symlink() => Err(Fault::LinkToNothing),
        Err(error) => Err(failed("cannot be found")(error)),
    }
}

/// Was there nothing at all under a name?
pub fn is_missing(fault: &Fault) -> bool {
    matches!(fault, Fault::Failed { error, .. } if error.kind() == NotFound)
}

fn plain_file(path: PathBuf) -> Result<PathBuf, Fault> {
    let metadata = fs::metadata(&path).map_err(failed("cannot be found"))?;
    metadata.is_file().then_some(path).ok_or(Fault::NoFile)
}

/// Does this name, not followed, stand for the open file now?
pub fn stands_for(path: &Path, file: &File) -> io::Result<bool> {
    let named = match fs::symlink_metadata(path) {
        Err(error) if error.kind() == NotFound => return Ok(false),
        metadata => metadata?,
    };
    let open = file.metadata()?;
    Ok((named.dev(), named.ino()) == (open.dev(), open.ino()))
}

/// The folder that a file is in.
pub fn folder(path: &Path) -> &Path {
    match path.parent() {
        Some(parent) if parent != Path::new("") => parent,
        _ => Path::new("."),
    }
}

/// The name of a temporary file of the book with this name.
pub fn temporary(book: &OsStr, process: u32, number: u64) -> OsString {
    let mut name = OsString::from(".");
    name.push(book);
    name.push(format!(".{process}.{number}.new"));
    name
}

/// Is this the name of a temporary file of the book with that name?
pub fn is_temporary(name: &OsStr, book: &OsStr) -> bool {
    let numbers = name.as_bytes().strip_prefix(b".");
    let numbers = numbers.and_then(|rest| rest.strip_prefix(book.as_bytes()));
    let numbers = numbers.and_then(|rest| rest.strip_prefix(b"."));
    let numbers = numbers.and_then(|rest| rest.strip_suffix(b".new"));
    let parts: Vec<&[u8]> = numbers.unwrap_or(b"").split(|&byte| byte == b'.').collect();
    parts.len() == 2 && parts.into_iter().all(is_number)
}

fn is_number(text: &[u8]) -> bool {
    !text.is_empty() && text.iter().all(u8::is_ascii_digit)
}
