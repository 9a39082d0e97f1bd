//! Puts files into a folder, whole or not at all, and never over another file.

use super::disk::{Disk, CHUNK};
use crate::atomic;
use std::cell::Cell;
use std::ffi::{OsStr, OsString};
use std::fs::File;
use std::io::{self, ErrorKind};
use std::os::unix::ffi::{OsStrExt, OsStringExt};
use std::path::{Path, PathBuf};
use std::process;

/// A file's name has at most so many bytes.
const LONGEST_NAME: usize = 255;

/// The texts beside a file have its name and one of these.
pub const TEXT: &str = ".txt";
pub const JSON: &str = ".json";

/// An ending such as `.wad` stays behind a number.
const LONGEST_ENDING: usize = 8;

/// A character of UTF-8 has at most so many bytes.
const LONGEST_CHARACTER: usize = 4;

/// So many names are tried for a file whose name is taken.
pub const MOST_NUMBERS: usize = 10_000;

/// What temporary files are called.
const PREFIX: &str = ".meshpigeon-spool-";
const SUFFIX: &str = ".tmp";

/// The bytes of a file: those that were read and judged, and of a file that is too long to be judged the rest, in the arrival itself.
#[derive(Clone, Copy)]
pub struct Content<'a> {
    read: &'a [u8],
    rest: Option<(&'a File, u64)>,
}

impl<'a> Content<'a> {
    /// These bytes.
    pub fn of(read: &'a [u8]) -> Self {
        Self { read, rest: None }
    }

    /// These bytes, and behind them what an open file has up to a length.
    pub fn with_rest(read: &'a [u8], file: &'a File, length: u64) -> Self {
        Self { read, rest: Some((file, length)) }
    }

    fn length(&self) -> u64 {
        self.rest.map_or(self.read.len() as u64, |(_, length)| length)
    }

    /// Calls with each piece in turn and its place, until one answers false.
    fn each(&self, disk: &Disk, mut take: impl FnMut(&[u8], u64) -> io::Result<bool>) -> io::Result<bool> {
        let mut place = 0;
        for piece in self.read.chunks(CHUNK) {
            if !take(piece, place)? {
                return Ok(false);
            }
            place += piece.len() as u64;
        }
        let Some((file, length)) = self.rest else { return Ok(true) };
        let mut buffer = vec![0; CHUNK];
        while place < length {
            let most = CHUNK.min(usize::try_from(length - place).unwrap_or(CHUNK));
            match disk.read_at(file, &mut buffer[..most], place)? {
                0 => return Err(io::Error::other("it became shorter while it was read")),
                count if !take(&buffer[..count], place)? => return Ok(false),
                count => place += count as u64,
            }
        }
        Ok(true)
    }
}

/// What a name in a folder leads to.
#[derive(Clone, Copy, Debug, PartialEq, Eq)]
pub enum Standing {
    /// Nothing.
    Free,
    /// A file with these very bytes.
    Same,
    /// Anything else.
    Other,
}

/// A file that is in its folder, and on the disk.
#[derive(Debug)]
pub struct Placed {
    /// Its name there.
    pub name: OsString,
    /// Whether it was there before.
    pub again: bool,
}

/// Puts files into folders.
pub struct Place<'a> {
    disk: &'a Disk,
    /// Whether a temporary file may have been left.
    littered: Cell<bool>,
}

impl<'a> Place<'a> {
    /// At the start a temporary file of an earlier run may be left.
    pub fn new(disk: &'a Disk) -> Self {
        Self { disk, littered: Cell::new(true) }
    }

    /// Puts a file into a folder under its own name. None if another file has the name.
    pub fn alone(&self, folder: &Path, name: &OsStr, content: Content) -> io::Result<Option<Placed>> {
        let files = [(name.to_os_string(), content)];
        let placed = self.all(folder, &files)?;
        Ok(placed.map(|again| Placed { name: name.to_os_string(), again }))
    }

    /// Puts a file into a folder with a text and an object beside it, under its own name or the first numbered one that is not taken.
    /// The file comes last: whoever sees it can read why.
    pub fn explained(&self, folder: &Path, name: &OsStr, content: Content, text: &str, json: &str) -> io::Result<Placed> {
        for number in 1..=MOST_NUMBERS {
            let name = numbered(name, number);
            let [text_name, json_name] = [TEXT, JSON].map(|ending| with_ending(&name, ending));
            let files =
                [(text_name, Content::of(text.as_bytes())), (json_name, Content::of(json.as_bytes())), (name.clone(), content)];
            if let Some(again) = self.all(folder, &files)? {
                return Ok(Placed { name, again });
            }
        }
        Err(io::Error::other("there are 10,000 files of its name"))
    }

    /// Puts several files into a folder, the last of them last, and has the folder flushed. None if a name is taken by another file;
    /// else whether the last one was there before.
    fn all(&self, folder: &Path, files: &[(OsString, Content)]) -> io::Result<Option<bool>> {
        let mut standing = Vec::new();
        for (name, content) in files {
            standing.push(self.standing(&folder.join(name), content)?);
        }
        if standing.contains(&Standing::Other) {
            return Ok(None);
        }
        for ((name, content), standing) in files.iter().zip(&standing) {
            if *standing == Standing::Free && !self.write(folder, &folder.join(name), content)? {
                return Ok(None);
            }
        }
        self.disk.flush_folder(folder)?;
        Ok(Some(standing.last() == Some(&Standing::Same)))
    }

    /// What a name leads to. A file with the same bytes is flushed: the run that wrote it may have ended before.
    fn standing(&self, path: &Path, content: &Content) -> io::Result<Standing> {
        let about = match self.disk.look(path) {
            Err(error) if error.kind() == ErrorKind::NotFound => return Ok(Standing::Free),
            about => about?,
        };
        if !about.is_file() || about.len() != content.length() {
            return Ok(Standing::Other);
        }
        let (file, mut buffer) = (self.disk.open(path)?, vec![0; CHUNK]);
        let is_same = content.each(self.disk, |piece, place| {
            let count = self.disk.read_at(&file, &mut buffer[..piece.len()], place)?;
            Ok(buffer[..count] == *piece)
        })?;
        if !is_same {
            return Ok(Standing::Other);
        }
        self.disk.flush(&file)?;
        Ok(Standing::Same)
    }

    /// Writes a new file by way of a temporary one. False if the name was taken meanwhile.
    fn write(&self, folder: &Path, path: &Path, content: &Content) -> io::Result<bool> {
        atomic::fits(content.length())?;
        let (temporary, file) = self.temporary(folder)?;
        let written = content.each(self.disk, |piece, _| self.disk.write(&file, piece).map(|()| true));
        let named = written.and_then(|_| self.disk.flush(&file)).and_then(|()| self.name(&temporary, path));
        match self.disk.remove(&temporary) {
            Err(error) if error.kind() != ErrorKind::NotFound => self.littered.set(true),
            _ => {}
        }
        named
    }

    /// Gives a temporary file its final name. False if that is taken. A second name is never put over a file; where a file system has no
    /// second names, the name is looked up and then changed.
    pub fn name(&self, temporary: &Path, path: &Path) -> io::Result<bool> {
        match self.disk.link(temporary, path) {
            Ok(()) => Ok(true),
            Err(error) if error.kind() == ErrorKind::AlreadyExists => Ok(false),
            Err(error) if matches!(error.kind(), ErrorKind::PermissionDenied | ErrorKind::Unsupported) => {
                match self.disk.look(path) {
                    Err(error) if error.kind() == ErrorKind::NotFound => self.disk.rename(temporary, path).map(|()| true),
                    Err(error) => Err(error),
                    Ok(_) => Ok(false),
                }
            }
            Err(error) => Err(error),
        }
    }

    /// A new and empty temporary file. It is locked as long as this run needs it.
    fn temporary(&self, folder: &Path) -> io::Result<(PathBuf, File)> {
        for number in 0..MOST_NUMBERS {
            let path = folder.join(format!("{PREFIX}{}-{number}{SUFFIX}", process::id()));
            match self.disk.create(&path) {
                Ok(file) => {
                    let _ = self.disk.lock(&file);
                    return Ok((path, file));
                }
                Err(error) if error.kind() == ErrorKind::AlreadyExists => {}
                Err(error) => return Err(error),
            }
        }
        Err(io::Error::other("no name is free for a temporary file"))
    }

    /// Removes the temporary files that an earlier run left. One that is locked is another run's.
    pub fn sweep(&self, folders: [&Path; 3]) -> Vec<(PathBuf, io::Error)> {
        if !self.littered.get() {
            return Vec::new();
        }
        let faults: Vec<(PathBuf, io::Error)> =
            folders.iter().filter_map(|folder| self.sweep_one(folder).err().map(|error| (folder.to_path_buf(), error))).collect();
        self.littered.set(!faults.is_empty());
        faults
    }

    fn sweep_one(&self, folder: &Path) -> io::Result<()> {
        let mut entries = self.disk.entries(folder)?;
        while let Some(name) = self.disk.next(&mut entries)? {
            let bytes = name.as_bytes();
            if bytes.starts_with(PREFIX.as_bytes()) && bytes.ends_with(SUFFIX.as_bytes()) {
                self.sweep_file(&folder.join(name))?;
            }
        }
        Ok(())
    }

    fn sweep_file(&self, path: &Path) -> io::Result<()> {
        if !self.disk.look(path)?.is_file() {
            return Ok(());
        }
        let is_free = self.disk.lock(&self.disk.open(path)?)?;
        if is_free {
            self.disk.remove(path)?;
        }
        Ok(())
    }
}

/// A name with an ending behind it.
fn with_ending(name: &OsStr, ending: &str) -> OsString {
    let mut name = name.to_os_string();
    name.push(ending);
    name
}

/// `loop.wad`, `loop.2.wad`, `loop.3.wad`: the name for the so manieth file, short enough for the texts beside it.
pub fn numbered(name: &OsStr, number: usize) -> OsString {
    let room = LONGEST_NAME - TEXT.len().max(JSON.len());
    let bytes = name.as_bytes();
    let dot = bytes.iter().rposition(|&byte| byte == b'.').filter(|&dot| dot > 0 && bytes.len() - dot <= LONGEST_ENDING);
    let (stem, ending) = bytes.split_at(dot.unwrap_or(bytes.len()));
    let number = if number == 1 { String::new() } else { format!(".{number}") };
    let most = room - number.len() - ending.len();
    OsString::from_vec([cut(stem, most), number.as_bytes(), ending].concat())
}

/// The first bytes of a name, at most so many, without a part of a UTF-8 character at the end.
fn cut(stem: &[u8], most: usize) -> &[u8] {
    let most = stem.len().min(most);
    let is_inside = |end: usize| stem.get(end).is_some_and(|byte| byte & 0xC0 == 0x80);
    let end = (most.saturating_sub(LONGEST_CHARACTER - 1)..=most).rev().find(|&end| end > 0 && !is_inside(end));
    &stem[..end.unwrap_or(most)]
}

#[cfg(test)]
mod tests {
    use super::*;

    #[test]
    fn numbers_come_before_the_ending() {
        let said = |name: &str, number| numbered(OsStr::new(name), number).into_string().expect("it is text");
        assert_eq!([1, 2, 10_000].map(|number| said("loop.wad", number)), ["loop.wad", "loop.2.wad", "loop.10000.wad"]);
        assert_eq!(
            ["-", ".wad", "a.b.WAD", "a.endinglong"].map(|name| said(name, 2)),
            ["-.2", ".wad.2", "a.b.2.WAD", "a.endinglong.2"]
        );
    }

    #[test]
    fn long_names_are_cut_between_characters() {
        let long = format!("{}.wad", "é".repeat(125));
        let short = [1, 2, 10_000].map(|number| numbered(OsStr::new(&long), number));
        assert!(short.iter().all(|name| name.len() <= 250 && name.to_str().is_some_and(|name| name.ends_with(".wad"))));
        let bytes = [b"\xff".repeat(250), b".wad\n".to_vec()].concat();
        assert_eq!(numbered(OsStr::from_bytes(&bytes), 1).len(), 250);
        assert_eq!(numbered(OsStr::from_bytes(&b"\x80".repeat(255)), 1).len(), 250);
    }
}
