//! Files that the tool writes: what `-o` names, and never a file that it reads.

use crate::atomic;
use crate::report::Report;
use std::ffi::OsStr;
use std::fs;
use std::os::unix::fs::MetadataExt;
use std::path::Path;

/// Whether both names lead to one file, by whatever links; `-` is none.
pub fn is_same(file: &OsStr, output: &OsStr) -> bool {
    if file == "-" || output == "-" {
        return false;
    }
    let identity = |name| fs::metadata(name).map(|it| (it.dev(), it.ino()));
    matches!((identity(file), identity(output)), (Ok(file), Ok(output)) if file == output)
}

/// Writes the bytes, and then tells of it unless they went to standard output themselves.
pub fn put(bytes: &[u8], output: &OsStr, report: &mut Report, tell: impl FnOnce(&mut Report)) {
    if output == "-" {
        return report.bytes(bytes);
    }
    match atomic::write(Path::new(output), bytes) {
        Ok(()) => tell(report),
        Err(failure) => report.trouble(output, &failure.to_string()),
    }
}
