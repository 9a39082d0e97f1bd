//! `index`: a file's name index, written or checked.

use crate::about::About;
use crate::count::{counted, entries};
use crate::finding::Finding;
use crate::index_finding::IndexFinding;
use crate::input::{self, Digest};
use crate::json::Object;
use crate::name;
use crate::output::{is_same, put};
use crate::report::Report;
use crate::verdict::{Outcome, Source, Subject, Verdict};
use crate::wad::Wad;
use meshpigeon::Refusal;
use std::ffi::OsStr;

/// Writes the index of a file to `output`, which is standard output for `-`.
pub fn write(file: &OsStr, output: &OsStr, report: &mut Report) {
    if is_same(file, output) {
        return report.misused("the index would be written over the file that it comes from");
    }
    let wad = match Wad::open(file) {
        Ok(wad) => wad,
        Err(fault) => return report.fault(file, fault),
    };
    match meshpigeon::index_build(wad.bytes()) {
        Ok(index) => put(&index, output, report, |report| tell_written(file, &wad, index.len(), output, report)),
        Err(refusal) => refuse(file, wad.bytes(), refusal, None, report),
    }
}

/// Says whether an index is that of a file.
pub fn check(file: &OsStr, index: &OsStr, report: &mut Report) {
    let Some((wad, bytes)) = open(file, index, report) else { return };
    match meshpigeon::index_check(wad.bytes(), &bytes) {
        Ok(()) => tell_right(file, &wad, index, report),
        Err(refusal) => refuse(index, &bytes, refusal, IndexFinding::of(refusal, &bytes, &wad), report),
    }
}

/// A file, and the bytes of an index of it; what is wrong with either is told.
pub fn open(file: &OsStr, index: &OsStr, report: &mut Report) -> Option<(Wad, Vec<u8>)> {
    let wad = Wad::open(file).map_err(|fault| report.fault(file, fault)).ok()?;
    let bytes = input::read_most(index).map_err(|error| report.unread(index, &input::words(&error))).ok()?;
    Some((wad, bytes))
}

/// A refused index is told by its own name.
pub fn refuse(index: &OsStr, bytes: &[u8], refusal: Refusal, found: Option<IndexFinding>, report: &mut Report) {
    let outcome = Outcome::Refused(refusal, found.map(Finding::Index));
    let about = About::of(index, Digest::of(bytes));
    report.verdict(&Verdict::plain(about, Subject::File, Source::File, outcome));
}

fn tell_written(file: &OsStr, wad: &Wad, length: usize, output: &OsStr, report: &mut Report) {
    let count = wad.entries().len();
    report.answer(
        || {
            let (file, output) = (name::file(file), name::file(output));
            format!("{file}: {} indexed, {}, written to {output}", entries(count), counted(length, "byte"))
        },
        || {
            let object = Object::about(file).number("number", 0).count("count", count);
            object.count("length", length).text("output", output.to_string_lossy().as_ref()).close()
        },
    );
}

fn tell_right(file: &OsStr, wad: &Wad, index: &OsStr, report: &mut Report) {
    report.answer(
        || format!("{}: the index of {}", name::file(index), name::file(file)),
        || {
            let object = Object::about(file).number("number", 0).count("count", wad.entries().len());
            object.text("index", index.to_string_lossy().as_ref()).close()
        },
    );
}
