//! `sidedefs`: a SIDEDEFS lump on standard input, judged as it comes.

use crate::about::About;
use crate::count::counted;
use crate::finding::Finding;
use crate::input::{self, MOST_BYTES};
use crate::json::Object;
use crate::report::Report;
use crate::verdict::{Outcome, Source, Subject, Verdict};
use meshpigeon::{Sidedef, Sidedefs};
use std::ffi::OsStr;
use std::io::{self, Read};

/// What standard input is called.
const INPUT: &str = "-";

/// Judges what comes over so many sectors, and answers at its end. Nothing of it is kept but the library's small state; where more has
/// come than may come, no more is read.
pub fn run(sectors: usize, report: &mut Report) {
    let mut sidedefs = Sidedefs::start(sectors);
    if let Err(error) = io::copy(&mut io::stdin().lock().take(MOST_BYTES + 1), &mut sidedefs) {
        return report.unread(OsStr::new(INPUT), &input::words(&error));
    }
    match sidedefs.verdict() {
        Err(refusal) => {
            let outcome = Outcome::Refused(refusal, Finding::in_sidedefs(refusal, &sidedefs));
            let about = About::unread(OsStr::new(INPUT));
            report.verdict(&Verdict::plain(about, Subject::File, Source::File, outcome));
        }
        Ok(()) => tell(sidedefs.bytes / Sidedef::SIZE, sectors, report),
    }
}

fn tell(count: usize, sectors: usize, report: &mut Report) {
    let line = || format!("{INPUT}: accepted, {}, {}", counted(count, "sidedef"), counted(sectors, "sector"));
    let object = Object::about(OsStr::new(INPUT)).text("verdict", "accepted").number("number", 0);
    report.answer(line, || object.count("sectors", sectors).count("count", count).close());
}
