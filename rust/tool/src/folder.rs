//! The files that `judge` is asked about: as they are given, below a folder, or in a list.

use crate::input;
use crate::report::Report;
use std::ffi::{OsStr, OsString};
use std::fs;
use std::os::unix::ffi::OsStrExt;
use std::path::{Path, PathBuf};

/// The ending of a WAD file, in letters of any case.
const ENDING: &str = "wad";

/// Each given name in turn; in the place of a folder every WAD file below it, sorted.
pub fn files(given: &[OsString], report: &mut Report) -> Vec<OsString> {
    let mut files = Vec::new();
    for name in given {
        if name == "-" || !Path::new(name).is_dir() {
            files.push(name.clone());
            continue;
        }
        let below = below(Path::new(name), report);
        if below.is_empty() {
            report.without(name, "no .wad file in it");
        }
        files.extend(below.into_iter().map(PathBuf::into_os_string));
    }
    files
}

/// The names in a list, each ended by a zero byte. They are names of files and folders alone: `-` is no standard input there.
pub fn listed(list: &OsStr, report: &mut Report) -> Vec<OsString> {
    let bytes = match input::read_most(list) {
        Ok(bytes) => bytes,
        Err(error) => {
            report.unread(list, &input::words(&error));
            return Vec::new();
        }
    };
    if bytes.len() as u64 > input::MOST_BYTES {
        report.unread(list, "a list of more than 16,777,216 bytes is not read");
        return Vec::new();
    }
    let names = bytes.strip_suffix(b"\0").unwrap_or(&bytes);
    if names.is_empty() {
        report.without(list, "no file in it");
        return Vec::new();
    }
    let name = |bytes: &[u8]| match bytes {
        b"-" => OsString::from("./-"),
        _ => OsStr::from_bytes(bytes).to_os_string(),
    };
    names.split(|&byte| byte == 0).map(name).collect()
}

/// Every WAD file below a folder, sorted by its whole name. Links to folders are not followed, so that none is gone through twice.
fn below(folder: &Path, report: &mut Report) -> Vec<PathBuf> {
    let (mut open, mut files) = (vec![folder.to_path_buf()], Vec::new());
    while let Some(folder) = open.pop() {
        let entries = fs::read_dir(&folder).and_then(|entries| entries.collect::<Result<Vec<_>, _>>());
        let entries = match entries {
            Ok(entries) => entries,
            Err(error) => {
                report.unread(folder.as_os_str(), &input::words(&error));
                continue;
            }
        };
        for entry in entries {
            match entry.file_type() {
                Ok(kind) if kind.is_dir() => open.push(entry.path()),
                Ok(kind) if is_wad(&entry.path()) && (kind.is_file() || leads_to_no_folder(kind, &entry.path())) => {
                    files.push(entry.path());
                }
                _ => {}
            }
        }
    }
    files.sort();
    files
}

fn is_wad(path: &Path) -> bool {
    path.extension().is_some_and(|ending| ending.eq_ignore_ascii_case(ENDING))
}

/// Whether it is a link to a file, or to nothing, which is then told.
fn leads_to_no_folder(kind: fs::FileType, path: &Path) -> bool {
    kind.is_symlink() && fs::metadata(path).map_or(true, |about| about.is_file())
}
