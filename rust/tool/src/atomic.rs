//! Files that are replaced whole. The bytes go to a temporary file beside the target and from there to the disk; then the temporary file
//! takes the target's name. A crash, a full disk or any other error leaves the old file as it was, and no temporary one.

use crate::input::words;
use std::fmt;
use std::fs::{self, File, OpenOptions};
use std::io::{self, ErrorKind, Write};
use std::os::unix::fs::{fchown, FileTypeExt, MetadataExt};
use std::path::{Path, PathBuf};
use std::process;

/// So many links lead from one to the next; more are a circle.
const MOST_LINKS: usize = 40;

/// So many names are tried for a temporary file.
const MOST_TRIED: usize = 1_000;

/// What is said of a file that the system does not let this process write.
const TOO_LARGE: &str = "it is larger than the files that this process may write (ulimit -f)";

/// Why a file is not replaced, or may not be after a crash.
#[derive(Debug)]
pub enum Failure {
    /// The old file is as it was.
    Unwritten(io::Error),
    /// The new file is in its place, and the disk may not know it yet.
    Unflushed(io::Error),
}

impl From<io::Error> for Failure {
    fn from(error: io::Error) -> Self {
        Self::Unwritten(error)
    }
}

impl fmt::Display for Failure {
    fn fmt(&self, out: &mut fmt::Formatter<'_>) -> fmt::Result {
        match self {
            Self::Unwritten(error) => write!(out, "it is not written: {}", words(error)),
            Self::Unflushed(error) => write!(out, "it is written, and its folder is not flushed to the disk: {}", words(error)),
        }
    }
}

/// Puts these bytes into a file, in place of what it held. A link is followed, and stays. A device, a pipe or an open descriptor cannot
/// be replaced: it is written to as it is.
pub fn write(target: &Path, bytes: &[u8]) -> Result<(), Failure> {
    if is_stream(target) {
        return Ok(OpenOptions::new().write(true).open(target)?.write_all(bytes)?);
    }
    let target = followed(target)?;
    let old = old(&target)?;
    fits(bytes.len() as u64)?;
    let mut temporary = Temporary::beside(&target)?;
    temporary.file.write_all(bytes)?;
    if let Some(old) = old {
        temporary.take_after(&old)?;
    }
    temporary.file.sync_all()?;
    temporary.becomes(&target)?;
    flush(folder_of(&target)).map_err(Failure::Unflushed)
}

/// Whether something other than a file has this name: a device, a pipe, a socket, or a descriptor of the program's own.
fn is_stream(target: &Path) -> bool {
    let is_descriptor = ["/dev/fd", "/dev/stdout", "/dev/stderr", "/proc"].iter().any(|it| target.starts_with(it));
    let kind = fs::metadata(target).map(|it| it.file_type());
    is_descriptor || kind.is_ok_and(|it| it.is_char_device() || it.is_block_device() || it.is_fifo() || it.is_socket())
}

/// Where a name leads by its links, if it is one.
fn followed(target: &Path) -> io::Result<PathBuf> {
    let mut path = target.to_path_buf();
    for _ in 0..MOST_LINKS {
        match fs::read_link(&path) {
            Ok(next) => path = folder_of(&path).join(next),
            Err(_) => return Ok(path),
        }
    }
    Err(io::Error::other("its links lead in a circle"))
}

/// What is known of the old file, if there is one. It must be one that may be written.
fn old(target: &Path) -> io::Result<Option<fs::Metadata>> {
    match OpenOptions::new().write(true).open(target) {
        Ok(file) => file.metadata().map(Some),
        Err(error) if error.kind() == ErrorKind::NotFound => Ok(None),
        Err(error) => Err(error),
    }
}

/// The folder of a file.
fn folder_of(target: &Path) -> &Path {
    match target.parent() {
        Some(folder) if folder != Path::new("") => folder,
        _ => Path::new("."),
    }
}

/// Refuses more bytes than this process may write into a file: past that limit the system would end it in the midst of its work.
pub fn fits(length: u64) -> io::Result<()> {
    let limits = fs::read_to_string("/proc/self/limits").unwrap_or_default();
    match file_limit(&limits) {
        Some(most) if length > most => Err(io::Error::new(ErrorKind::FileTooLarge, TOO_LARGE)),
        _ => Ok(()),
    }
}

/// The largest file by Linux's table of limits; none where there is no limit.
fn file_limit(limits: &str) -> Option<u64> {
    let row = limits.lines().find_map(|line| line.strip_prefix("Max file size"))?;
    row.split_whitespace().next()?.parse().ok()
}

/// A file that goes away unless it takes another one's place.
struct Temporary {
    file: File,
    /// Its name; none after it took another.
    path: Option<PathBuf>,
}

impl Temporary {
    /// A new and empty file in the folder of the target.
    fn beside(target: &Path) -> io::Result<Self> {
        for number in 0..MOST_TRIED {
            let path = folder_of(target).join(format!(".meshpigeon-{}-{number}.tmp", process::id()));
            match OpenOptions::new().write(true).create_new(true).open(&path) {
                Ok(file) => return Ok(Self { file, path: Some(path) }),
                Err(error) if error.kind() == ErrorKind::AlreadyExists => {}
                Err(error) => return Err(error),
            }
        }
        Err(io::Error::other("no name is free for a temporary file beside it"))
    }

    /// Gives it the rights of the old file, and its owner where that is allowed.
    fn take_after(&self, old: &fs::Metadata) -> io::Result<()> {
        let _ = fchown(&self.file, Some(old.uid()), Some(old.gid()));
        self.file.set_permissions(old.permissions())
    }

    /// Takes the target's name.
    fn becomes(mut self, target: &Path) -> io::Result<()> {
        if let Some(path) = &self.path {
            fs::rename(path, target)?;
        }
        self.path = None;
        Ok(())
    }
}

impl Drop for Temporary {
    fn drop(&mut self) {
        if let Some(path) = &self.path {
            let _ = fs::remove_file(path);
        }
    }
}

/// Has a folder, which holds the file's name, written to the disk. Some file systems cannot be asked for that, and some folders not be
/// opened, though files may be made in them.
fn flush(folder: &Path) -> io::Result<()> {
    use ErrorKind::{InvalidInput, PermissionDenied, Unsupported};
    match File::open(folder).and_then(|folder| folder.sync_all()) {
        Err(error) if !matches!(error.kind(), InvalidInput | PermissionDenied | Unsupported) => Err(error),
        _ => Ok(()),
    }
}

#[cfg(test)]
mod tests {
    use super::*;
    use std::fs::Permissions;
    use std::os::unix::fs::{symlink, PermissionsExt};

    /// A folder that goes away with the test.
    struct Folder(PathBuf);

    impl Folder {
        fn new(name: &str) -> Self {
            let path = std::env::temp_dir().join(format!("meshpigeon-atomic-{}-{name}", process::id()));
            fs::create_dir(&path).expect("a new folder");
            Self(path)
        }

        fn file(&self, name: &str) -> PathBuf {
            self.0.join(name)
        }

        fn names(&self) -> Vec<String> {
            let entries = fs::read_dir(&self.0).expect("the folder is there");
            let mut names: Vec<String> =
                entries.map(|it| it.expect("an entry").file_name().to_string_lossy().into_owned()).collect();
            names.sort();
            names
        }
    }

    impl Drop for Folder {
        fn drop(&mut self) {
            let _ = fs::remove_dir_all(&self.0);
        }
    }

    #[test]
    fn a_new_file_and_an_old_one_are_written_whole() {
        let folder = Folder::new("whole");
        write(&folder.file("a"), b"one").expect("it is written");
        fs::set_permissions(folder.file("a"), Permissions::from_mode(0o640)).expect("its rights change");
        write(&folder.file("a"), b"another").expect("it is written");
        assert_eq!(fs::read(folder.file("a")).expect("it is there"), b"another");
        assert_eq!(fs::metadata(folder.file("a")).expect("it is there").mode() & 0o777, 0o640);
        assert_eq!(folder.names(), ["a"]);
    }

    #[test]
    fn a_link_stays_and_its_file_is_replaced() {
        let folder = Folder::new("link");
        symlink("b", folder.file("a")).expect("a link");
        write(&folder.file("a"), b"one").expect("it is written");
        write(&folder.file("a"), b"two").expect("it is written");
        assert_eq!(fs::read(folder.file("b")).expect("it is there"), b"two");
        assert!(folder.file("a").is_symlink());
        symlink("circle", folder.file("circle")).expect("a link");
        assert!(write(&folder.file("circle"), b"one").is_err());
        assert_eq!(folder.names(), ["a", "b", "circle"]);
    }

    #[test]
    fn an_error_leaves_the_old_file_and_nothing_beside_it() {
        let folder = Folder::new("error");
        fs::create_dir(folder.file("in-the-way")).expect("a folder");
        assert!(write(&folder.file("in-the-way"), b"one").is_err());
        write(&folder.file("file"), b"old").expect("it is written");
        assert!(write(&folder.file("file/below"), b"one").is_err());
        assert!(write(&folder.file("missing/below"), b"one").is_err());
        assert_eq!(fs::read(folder.file("file")).expect("it is there"), b"old");
        assert_eq!(folder.names(), ["file", "in-the-way"]);
    }

    #[test]
    fn a_temporary_file_goes_away_unless_it_is_wanted() {
        let folder = Folder::new("temporary");
        fs::write(folder.file("a"), b"old").expect("a file");
        let mut temporary = Temporary::beside(&folder.file("a")).expect("a new file");
        temporary.file.write_all(b"half").expect("it is written");
        assert_eq!(folder.names().len(), 2);
        drop(temporary);
        assert_eq!(folder.names(), ["a"]);
        assert_eq!(fs::read(folder.file("a")).expect("it is there"), b"old");
    }

    #[test]
    fn a_device_is_written_to_and_stays() {
        write(Path::new("/dev/null"), b"bytes").expect("it takes all");
        assert!(fs::metadata("/dev/null").expect("it is there").file_type().is_char_device());
    }

    #[test]
    fn the_limit_is_read_from_its_row() {
        let table = "Limit                     Soft Limit           Hard Limit           Units     \n\
                     Max cpu time              unlimited            unlimited            seconds   \n\
                     Max file size             102400               unlimited            bytes     \n";
        assert_eq!(file_limit(table), Some(102_400));
        assert_eq!(file_limit(&table.replace("102400", "unlimited")), None);
        assert_eq!(file_limit(""), None);
    }
}
