//! A file in the folder of arrivals: it is opened once, read once, and removed only if it is still the same.

use super::disk::{Disk, Seen};
use super::place::{self, Place};
use crate::input::MOST_BYTES;
use std::ffi::OsStr;
use std::fs::{File, FileType};
use std::io::{self, ErrorKind};
use std::os::unix::fs::FileTypeExt;
use std::path::{Path, PathBuf};
use std::thread;
use std::time::{Duration, SystemTime, UNIX_EPOCH};

/// Two changes that are so far apart have different times in every file system of Linux that keeps parts of a second.
const TICK: Duration = Duration::from_millis(if cfg!(test) { 0 } else { 20 });

/// The folder among the arrivals through which each of them leaves.
const LEAVING: &str = ".meshpigeon-leaving";

/// What is said of a file whose time cannot be right.
const FUTURE: &str = "it is left: it changed in the future, by the clock of this machine";

/// An entry of the folder of arrivals.
pub enum Arrival {
    /// It is not there any more.
    Gone,
    /// It is too young, or it changed while it was read.
    Waits,
    /// It is no file that is judged: why.
    Left(&'static str),
    /// It was read.
    Read(Read),
}

/// A file that was read.
pub struct Read {
    /// The open file.
    pub file: File,
    /// What it was before and after it was read.
    pub seen: Seen,
    /// Its first bytes: all of them, unless it is too long.
    pub bytes: Vec<u8>,
}

/// The folder of arrivals.
pub struct Arrivals<'a> {
    disk: &'a Disk,
    folder: PathBuf,
    settle: Duration,
}

impl<'a> Arrivals<'a> {
    /// A folder in which files wait until nothing touched them for so long.
    pub fn new(disk: &'a Disk, folder: &Path, settle: Duration) -> Self {
        Self { disk, folder: folder.to_path_buf(), settle }
    }

    /// Reads a file, if it is one and has been left alone long enough.
    pub fn read(&self, name: &OsStr) -> io::Result<Arrival> {
        match self.read_there(name) {
            Err(error) if error.kind() == ErrorKind::NotFound => Ok(Arrival::Gone),
            arrival => arrival,
        }
    }

    fn read_there(&self, name: &OsStr) -> io::Result<Arrival> {
        let path = self.folder.join(name);
        let about = self.disk.look(&path)?;
        if let Some(kind) = strange(about.file_type()) {
            return Ok(Arrival::Left(kind));
        }
        match self.settled(&Seen::of(&about)) {
            None => return Ok(Arrival::Left(FUTURE)),
            Some(false) => return Ok(Arrival::Waits),
            Some(true) => {}
        }
        let file = self.disk.open(&path)?;
        let about = self.disk.about(&file)?;
        let seen = Seen::of(&about);
        if !about.is_file() || self.settled(&seen) != Some(true) {
            return Ok(Arrival::Waits);
        }
        let bytes = self.disk.read(&file, MOST_BYTES + 1)?;
        let is_whole = bytes.len() as u64 == seen.length().min(MOST_BYTES + 1);
        if !is_whole || Seen::of(&self.disk.about(&file)?) != seen {
            return Ok(Arrival::Waits);
        }
        Ok(Arrival::Read(Read { file, seen, bytes }))
    }

    /// Whether nothing touched a file for long enough. None if that would be long in the future. Even where no time is asked for, a
    /// change after this one must have another time.
    fn settled(&self, seen: &Seen) -> Option<bool> {
        let (seconds, nanoseconds) = seen.changed();
        let since = Duration::new(seconds.try_into().unwrap_or(0), nanoseconds.try_into().unwrap_or(0));
        let now = SystemTime::now().duration_since(UNIX_EPOCH).unwrap_or_default();
        match now.checked_sub(since) {
            None if since - now > self.settle.max(TICK) => None,
            None => Some(false),
            Some(age) if age < self.settle => Some(false),
            Some(age) => {
                thread::sleep(TICK.saturating_sub(age));
                Some(true)
            }
        }
    }

    /// Removes a file that was read. False if it changed meanwhile: then it stays. It first takes a name that nobody else uses, so that
    /// a new file of its name is never removed in its place.
    pub fn remove(&self, name: &OsStr, seen: &Seen, place: &Place) -> io::Result<bool> {
        let path = self.folder.join(name);
        match self.disk.look(&path) {
            Ok(about) if Seen::of(&about) == *seen => {}
            Err(error) if error.kind() != ErrorKind::NotFound => return Err(error),
            _ => return Ok(false),
        }
        let leaving = self.folder.join(LEAVING);
        self.disk.make_folder(&leaving)?;
        self.is_leaving_there()?;
        let leaving = leaving.join(name);
        match self.disk.look(&leaving) {
            Ok(_) => self.put_back(name, place)?,
            Err(error) if error.kind() == ErrorKind::NotFound => {}
            Err(error) => return Err(error),
        }
        self.disk.rename(&path, &leaving)?;
        if Seen::of(&self.disk.look(&leaving)?).is_same_file(seen) {
            self.disk.remove(&leaving)?;
            return Ok(true);
        }
        self.put_back(name, place)?;
        Ok(false)
    }

    /// Puts everything back that an earlier run was about to remove: it is judged again.
    pub fn recover(&self, place: &Place) -> io::Result<()> {
        if self.is_leaving_there()? {
            let mut entries = self.disk.entries(&self.folder.join(LEAVING))?;
            while let Some(name) = self.disk.next(&mut entries)? {
                self.put_back(&name, place)?;
            }
        }
        Ok(())
    }

    /// Whether the folder is there through which arrivals leave. A link of its name could lead to other files: it is an error.
    fn is_leaving_there(&self) -> io::Result<bool> {
        match self.disk.look(&self.folder.join(LEAVING)) {
            Ok(about) if about.is_dir() => Ok(true),
            Ok(_) => Err(io::Error::other(format!("{LEAVING} is no folder: take it away"))),
            Err(error) if error.kind() == ErrorKind::NotFound => Ok(false),
            Err(error) => Err(error),
        }
    }

    /// Puts one file back under its name, or under a numbered one if its name is taken again.
    fn put_back(&self, name: &OsStr, place: &Place) -> io::Result<()> {
        let leaving = self.folder.join(LEAVING).join(name);
        let seen = Seen::of(&self.disk.look(&leaving)?);
        for number in 0..place::MOST_NUMBERS {
            let name = if number == 0 { name.to_os_string() } else { place::numbered(name, number + 1) };
            let path = self.folder.join(name);
            let is_back = || self.disk.look(&path).is_ok_and(|about| Seen::of(&about) == seen);
            if place.name(&leaving, &path)? || is_back() {
                return match self.disk.remove(&leaving) {
                    Err(error) if error.kind() == ErrorKind::NotFound => Ok(()),
                    done => done,
                };
            }
        }
        Err(io::Error::other("there are 10,000 files of its name"))
    }

    /// Whether an entry is the spool's own.
    pub fn is_own(name: &OsStr) -> bool {
        name == LEAVING
    }
}

/// Why an entry is no file that is judged.
fn strange(kind: FileType) -> Option<&'static str> {
    match kind {
        kind if kind.is_file() => None,
        kind if kind.is_symlink() => Some("it is left: it is a symbolic link"),
        kind if kind.is_dir() => Some("it is left: it is a folder"),
        kind if kind.is_fifo() => Some("it is left: it is a pipe"),
        _ => Some("it is left: it is a device or a socket"),
    }
}
