//! `list`: the directory, entry by entry, or one entry by its name through an index.

use crate::count::counted;
use crate::finding::Finding;
use crate::index;
use crate::index_finding::IndexFinding;
use crate::json::Object;
use crate::name;
use crate::report::Report;
use crate::verdict::{Outcome, Source, Subject, Verdict, NOT_THERE};
use crate::wad::{Entry, Wad};
use meshpigeon::IndexSearch;
use std::ffi::OsStr;

/// Prints number, name, offset and size of each entry. The offset of an entry of size 0 means nothing, and is shown as 0.
pub fn run(file: &OsStr, report: &mut Report) {
    let wad = match Wad::open(file) {
        Ok(wad) => wad,
        Err(fault) => return report.fault(file, fault),
    };
    for (number, entry) in wad.entries().enumerate() {
        report.answer(|| row(number, &entry), || object(file, number, &entry).close());
    }
}

/// Prints the entry to which an index leads for a name, and how many names were compared.
pub fn find(file: &OsStr, asked: &OsStr, beside: &OsStr, report: &mut Report) {
    let Some((wad, bytes)) = index::open(file, beside, report) else { return };
    let asked = name::asked(asked);
    let IndexSearch { entry, compared } = meshpigeon::index_find(wad.bytes(), &bytes, &asked);
    match entry.map(|number| (number, wad.entries().nth(number))) {
        Ok((number, Some(entry))) => report.answer(
            || format!("{}  {} compared", row(number, &entry), counted(compared, "name")),
            || object(file, number, &entry).count("compared", compared).text("index", beside.to_string_lossy().as_ref()).close(),
        ),
        Err(refusal) if refusal.number == NOT_THERE => {
            let outcome = Outcome::Refused(refusal, Some(Finding::Index(IndexFinding::Compared(compared))));
            let (about, subject) = (wad.about(file, report), Subject::Lump(name::text(&asked)));
            report.verdict(&Verdict::plain(about, subject, Source::File, outcome));
        }
        Err(refusal) => index::refuse(beside, &bytes, refusal, IndexFinding::of(refusal, &bytes, &wad), report),
        Ok((_, None)) => {}
    }
}

fn row(number: usize, entry: &Entry) -> String {
    let Entry { name, offset, size } = entry;
    format!("{number:>4}  {:<8}  {offset:>8}  {size:>8}", name::text(name))
}

fn object(file: &OsStr, number: usize, entry: &Entry) -> Object {
    let object = Object::about(file).count("entry", number);
    object.text("name", name::text(entry.name).as_str()).count("offset", entry.offset).count("size", entry.size)
}
