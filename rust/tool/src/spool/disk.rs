//! All that the spool does to files. Each operation is one step, and a test can make any step fail or end the process there.

use std::ffi::OsString;
use std::fs::{self, File, Metadata, OpenOptions, ReadDir, TryLockError};
use std::io::{self, ErrorKind, Read, Write};
use std::os::unix::fs::{FileExt, MetadataExt, OpenOptionsExt};
use std::path::Path;

/// Flags of Linux's `open`: a symbolic link is not followed, and a pipe without a writer does not make the caller wait.
const O_NONBLOCK: i32 = 0o4_000;
const O_NOFOLLOW: i32 = 0o400_000;

/// So many bytes are written or compared at a time; few in a test, so that it can stop in the midst of a file.
pub const CHUNK: usize = if cfg!(test) { 1_024 } else { 1 << 20 };

/// What tells a file from any other, and from itself after a change.
#[derive(Clone, Copy, Debug, PartialEq, Eq)]
pub struct Seen {
    device: u64,
    inode: u64,
    length: u64,
    /// When its bytes last changed, as far as its owner says so.
    modified: (i64, i64),
    /// When anything of it last changed. Nobody can set this time.
    changed: (i64, i64),
}

impl Seen {
    /// A file as the system describes it.
    pub fn of(about: &Metadata) -> Self {
        Self {
            device: about.dev(),
            inode: about.ino(),
            length: about.len(),
            modified: (about.mtime(), about.mtime_nsec()),
            changed: (about.ctime(), about.ctime_nsec()),
        }
    }

    /// The file's length.
    pub fn length(&self) -> u64 {
        self.length
    }

    /// Seconds and nanoseconds of the last change.
    pub fn changed(&self) -> (i64, i64) {
        self.changed
    }

    /// Whether it is the same file with the same bytes, though it may have another name by now.
    pub fn is_same_file(&self, other: &Self) -> bool {
        Self { changed: self.changed, ..*other } == *self
    }
}

/// The file system.
#[derive(Default)]
pub struct Disk {
    #[cfg(test)]
    pub faults: super::faults::Faults,
}

impl Disk {
    /// One operation, unless a test has it fail.
    fn step<T>(&self, _name: &'static str, operation: impl FnOnce() -> io::Result<T>) -> io::Result<T> {
        #[cfg(test)]
        self.faults.strike(_name)?;
        operation()
    }

    /// The entries of a folder.
    pub fn entries(&self, folder: &Path) -> io::Result<ReadDir> {
        self.step("entries", || fs::read_dir(folder))
    }

    /// The name of the next entry of a folder, if there is one more.
    pub fn next(&self, entries: &mut ReadDir) -> io::Result<Option<OsString>> {
        self.step("next", || entries.next().map(|entry| entry.map(|entry| entry.file_name())).transpose())
    }

    /// What has a name, be it a link.
    pub fn look(&self, path: &Path) -> io::Result<Metadata> {
        self.step("look", || fs::symlink_metadata(path))
    }

    /// A file to be read; a link is an error.
    pub fn open(&self, path: &Path) -> io::Result<File> {
        self.step("open", || OpenOptions::new().read(true).custom_flags(O_NOFOLLOW | O_NONBLOCK).open(path))
    }

    /// What an open file is.
    pub fn about(&self, file: &File) -> io::Result<Metadata> {
        self.step("about", || file.metadata())
    }

    /// All bytes of an open file, at most so many.
    pub fn read(&self, file: &File, most: u64) -> io::Result<Vec<u8>> {
        let mut bytes = Vec::new();
        self.step("read", || file.take(most).read_to_end(&mut bytes))?;
        Ok(bytes)
    }

    /// Bytes from a place on, as many as there are and as fit.
    pub fn read_at(&self, file: &File, buffer: &mut [u8], place: u64) -> io::Result<usize> {
        self.step("read_at", || {
            let mut length = 0;
            while length < buffer.len() {
                match file.read_at(&mut buffer[length..], place + length as u64) {
                    Ok(0) => break,
                    Ok(more) => length += more,
                    Err(error) if error.kind() == ErrorKind::Interrupted => {}
                    Err(error) => return Err(error),
                }
            }
            Ok(length)
        })
    }

    /// A new file; an old one of the name is an error.
    pub fn create(&self, path: &Path) -> io::Result<File> {
        self.step("create", || OpenOptions::new().read(true).write(true).create_new(true).open(path))
    }

    /// A file to which lines are added; it is made if it is not there.
    pub fn append_to(&self, path: &Path) -> io::Result<File> {
        self.step("append_to", || OpenOptions::new().read(true).append(true).create(true).open(path))
    }

    /// Writes bytes, some at a time.
    pub fn write(&self, mut file: &File, bytes: &[u8]) -> io::Result<()> {
        bytes.chunks(CHUNK).try_for_each(|chunk| self.step("write", || file.write_all(chunk)))
    }

    /// Has a file written to the disk.
    pub fn flush(&self, file: &File) -> io::Result<()> {
        self.step("flush", || file.sync_all())
    }

    /// Has the names in a folder written to the disk. Some file systems cannot be asked for that.
    pub fn flush_folder(&self, folder: &Path) -> io::Result<()> {
        match self.step("flush_folder", || File::open(folder)?.sync_all()) {
            Err(error) if matches!(error.kind(), ErrorKind::InvalidInput | ErrorKind::Unsupported) => Ok(()),
            done => done,
        }
    }

    /// A second name for a file; never one that is taken.
    pub fn link(&self, from: &Path, to: &Path) -> io::Result<()> {
        self.step("link", || fs::hard_link(from, to))
    }

    /// Another name for a file.
    pub fn rename(&self, from: &Path, to: &Path) -> io::Result<()> {
        self.step("rename", || fs::rename(from, to))
    }

    /// Takes a name away.
    pub fn remove(&self, path: &Path) -> io::Result<()> {
        self.step("remove", || fs::remove_file(path))
    }

    /// A new folder; an old one will do.
    pub fn make_folder(&self, path: &Path) -> io::Result<()> {
        match self.step("make_folder", || fs::create_dir(path)) {
            Err(error) if error.kind() == ErrorKind::AlreadyExists => Ok(()),
            done => done,
        }
    }

    /// Locks an open file or folder until it is closed, which the system sees to at the end of the process. False if another has it.
    pub fn lock(&self, file: &File) -> io::Result<bool> {
        self.step("lock", || match file.try_lock() {
            Ok(()) => Ok(true),
            Err(TryLockError::WouldBlock) => Ok(false),
            Err(TryLockError::Error(error)) => Err(error),
        })
    }
}
