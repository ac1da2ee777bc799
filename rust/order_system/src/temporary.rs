//! A file of its own name beside the book, for what is written.

use crate::error::failed;
use crate::{names, Fault};
use std::fs::{self, File, Metadata};
use std::io::{self, ErrorKind::AlreadyExists, Write};
use std::os::unix::fs::{fchown, MetadataExt, OpenOptionsExt};
use std::path::{Path, PathBuf};
use std::process;
use std::sync::atomic::{AtomicU64, Ordering::Relaxed};

/// A new file, which its maker has locked. Its name is taken away when it is dropped.
pub struct Temporary {
    file: File,
    path: PathBuf,
    has_name: bool,
}

impl Temporary {
    /// An empty file beside this book.
    pub fn beside(book: &Path, mode: u32) -> Result<Temporary, Fault> {
        loop {
            let path = next_path(book)?;
            let mut options = File::options();
            let options = options.read(true).write(true).create_new(true).mode(mode);
            let file = match options.open(&path) {
                Err(error) if error.kind() == AlreadyExists => continue,
                opened => opened.map_err(failed("no new file can be made beside it"))?,
            };
            let mut new = Temporary {
                file,
                path,
                has_name: true,
            };
            if new.lock().map_err(failed("no new file can be locked"))? {
                return Ok(new);
            }
        }
    }

    /// Locks the file. Another process may have taken it for a leftover and its name away.
    fn lock(&mut self) -> io::Result<bool> {
        self.file.lock()?;
        self.has_name = names::stands_for(&self.path, &self.file)?;
        Ok(self.has_name)
    }

    pub fn file(&self) -> &File {
        &self.file
    }

    /// Gives the file this owner, group and mode.
    pub fn resemble(&self, other: &Metadata) -> io::Result<()> {
        let own = self.file.metadata()?;
        let owner = (own.uid() != other.uid()).then_some(other.uid());
        let group = (own.gid() != other.gid()).then_some(other.gid());
        if owner.is_some() || group.is_some() {
            fchown(&self.file, owner, group)?;
        }
        self.file.set_permissions(other.permissions())
    }

    /// Writes these bytes, to the disk.
    pub fn write(&mut self, bytes: &[u8]) -> io::Result<()> {
        self.file.write_all(bytes)?;
        self.file.sync_all()
    }

    /// Puts the file in the place of the book.
    pub fn replace(&mut self, book: &Path) -> io::Result<()> {
        fs::rename(&self.path, book)?;
        self.has_name = false;
        Ok(())
    }

    /// Makes the file the book, where there is none. It is an error where there is one.
    pub fn become_book(&mut self, book: &Path) -> io::Result<()> {
        fs::hard_link(&self.path, book)?;
        self.take_name_away();
        Ok(())
    }

    /// Where this fails, the name is a leftover for the next process.
    fn take_name_away(&mut self) {
        if self.has_name {
            let _ = fs::remove_file(&self.path);
            self.has_name = false;
        }
    }
}

impl Drop for Temporary {
    fn drop(&mut self) {
        self.take_name_away();
    }
}

/// A path beside the book that no other thread of this process has.
fn next_path(book: &Path) -> Result<PathBuf, Fault> {
    static NEXT: AtomicU64 = AtomicU64::new(0);
    let name = book.file_name().ok_or(Fault::NoFile)?;
    let name = names::temporary(name, process::id(), NEXT.fetch_add(1, Relaxed));
    Ok(names::folder(book).join(name))
}
