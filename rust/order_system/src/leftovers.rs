//! The temporary files of processes that were killed.

use crate::names;
use std::fs::{self, File};
use std::io;
use std::path::Path;

/// Removes the temporary files of this book whose makers are gone. The caller has locked the book,
/// and is not writing. A file that cannot be removed is left for the next.
pub fn remove(book: &File, path: &Path) {
    let (Some(name), Ok(entries)) = (path.file_name(), fs::read_dir(names::folder(path))) else {
        return;
    };
    for entry in entries.flatten() {
        let is_file = entry.file_type().is_ok_and(|kind| kind.is_file());
        if is_file && names::is_temporary(&entry.file_name(), name) {
            let _ = remove_one(book, &entry.path());
        }
    }
}

fn remove_one(book: &File, path: &Path) -> io::Result<()> {
    if names::stands_for(path, book)? {
        // Its maker was killed after the file became the book.
        return fs::remove_file(path);
    }
    let file = File::options().read(true).write(true).open(path)?;
    let is_left = file.try_lock().is_ok();
    if is_left && names::stands_for(path, &file)? {
        fs::remove_file(path)?;
    }
    Ok(())
}
