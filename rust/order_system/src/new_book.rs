//! A book where there is none.

use crate::error::failed;
use crate::locked::open_folder;
use crate::temporary::Temporary;
use crate::{leftovers, Fault};
use std::io::ErrorKind::AlreadyExists;
use std::path::Path;

/// Makes a book of these bytes, on the disk. Where another process makes one first, that one
/// stays.
pub fn make(path: &Path, bytes: &[u8]) -> Result<(), Fault> {
    let folder = open_folder(path)?;
    let mut new = Temporary::beside(path, 0o666)?;
    let written = new.write(bytes);
    written.map_err(failed("no new file can be written beside it"))?;
    match new.become_book(path) {
        Err(error) if error.kind() == AlreadyExists => return Ok(()),
        made => made.map_err(failed("cannot be made"))?,
    }
    leftovers::remove(new.file(), path);
    folder.sync_all().map_err(Fault::Unsure)
}
