//! The book's file, locked: how it is read and replaced.

use crate::error::failed;
use crate::temporary::Temporary;
use crate::{leftovers, names, Fault};
use std::fs::{File, Metadata};
use std::io::Read;
use std::os::unix::fs::MetadataExt;
use std::path::{Path, PathBuf};

/// The file with its path, links followed. It is locked until this is dropped.
pub struct Locked {
    file: File,
    path: PathBuf,
}

impl Locked {
    /// Waits for the lock. Meanwhile another file may have been put in the place of the one that
    /// was opened: then it begins again.
    pub fn at(path: &Path) -> Result<Locked, Fault> {
        loop {
            let path = names::found(path)?;
            let opened = File::options().read(true).write(true).open(&path);
            let file = opened.map_err(failed("cannot be opened"))?;
            file.lock().map_err(failed("cannot be locked"))?;
            if names::stands_for(&path, &file).map_err(failed("cannot be found"))? {
                leftovers::remove(&file, &path);
                return Ok(Locked { file, path });
            }
        }
    }

    /// All of its bytes. To be called once.
    pub fn read(&mut self) -> Result<Vec<u8>, Fault> {
        let mut bytes = Vec::new();
        let read = self.file.read_to_end(&mut bytes);
        read.map_err(failed("cannot be read"))?;
        Ok(bytes)
    }

    /// Puts a new file with these bytes in its place. When this returns, it is on the disk; until
    /// then the new file, too, is locked. Where this fails, but for `Unsure`, all is as it was.
    pub fn replace(self, bytes: &[u8]) -> Result<(), Fault> {
        let former = self.with_one_name()?;
        let folder = open_folder(&self.path)?;
        let mut new = Temporary::beside(&self.path, 0o600)?;
        let resembles = new.resemble(&former);
        resembles.map_err(failed("no new file can have its owner and mode"))?;
        let written = new.write(bytes);
        written.map_err(failed("no new file can be written beside it"))?;
        let replaced = new.replace(&self.path);
        replaced.map_err(failed("cannot be replaced"))?;
        folder.sync_all().map_err(Fault::Unsure)
    }

    fn with_one_name(&self) -> Result<Metadata, Fault> {
        let metadata = self.file.metadata().map_err(failed("cannot be read"))?;
        match metadata.nlink() {
            0 | 1 => Ok(metadata),
            names => Err(Fault::SeveralNames(names)),
        }
    }
}

/// The folder of a file, to be synced when a name in it has changed.
pub fn open_folder(path: &Path) -> Result<File, Fault> {
    File::open(names::folder(path)).map_err(failed("its folder cannot be opened"))
}
