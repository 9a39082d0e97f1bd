//! `judge`: one verdict for each map.

use crate::about::About;
use crate::finding::Finding;
use crate::folder;
use crate::further::Further;
use crate::name;
use crate::pair::{Base, Judged, Lent, Opened};
use crate::report::Report;
use crate::text;
use crate::verdict::{Outcome, Source, Subject, Verdict, NOT_THERE};
use crate::wad::Wad;
use crate::why::Why;
use meshpigeon::{Accepted, Node, Refusal, Subsector};
use std::ffi::{OsStr, OsString};

/// What the library says of a map whose marker THINGS does not follow.
const NO_THINGS: Refusal = Refusal { number: 12, place: 1, record: 0 };

/// What is to be judged, and how.
#[derive(Debug, Default, PartialEq, Eq)]
pub struct Task {
    /// Files and folders.
    pub files: Vec<OsString>,
    /// A list of more of them.
    pub list: Option<OsString>,
    /// The file that each of them is a patch over, if they are.
    pub base: Option<OsString>,
    /// Names as given; none for every map.
    pub maps: Vec<OsString>,
    /// Whether a file without a map is as bad as a refused one.
    pub require_map: bool,
    /// Whether further faults are listed.
    pub all: bool,
}

/// Judges the named maps of each file, or all of them where none is named; over a base, those of the pair.
pub fn run(task: &Task, report: &mut Report) {
    if task.require_map {
        report.require_map();
    }
    let below = match Base::open(task.base.as_deref()) {
        Ok(below) => below,
        Err(fault) => return report.fault(task.base.as_deref().unwrap_or_default(), fault),
    };
    let given = task.list.as_ref().map_or_else(|| task.files.clone(), |list| folder::listed(list, report));
    let files = folder::files(&given, report);
    let (asked, mut lent) = (name::all_asked(&task.maps), Lent::new());
    for (done, file) in files.iter().enumerate() {
        report.progress(done, files.len());
        match Opened::open(file, &below) {
            Ok(opened) => judge_file(file, &opened, &asked, task, &mut lent, report),
            Err((source, fault)) => report.fault_of(About::unread(file), source, fault),
        }
    }
    report.summary(files.len());
}

fn judge_file(file: &OsStr, opened: &Opened, asked: &[Vec<u8>], task: &Task, lent: &mut Lent, report: &mut Report) {
    let about = opened.about(file, report);
    let maps = if asked.is_empty() { opened.maps() } else { asked.to_vec() };
    let unnamed = if asked.is_empty() { opened.unnamed() } else { Vec::new() };
    if maps.is_empty() && unnamed.is_empty() {
        report.verdict(&Verdict::plain(
            about.clone(),
            Subject::File,
            Source::File,
            Outcome::NoMap(no_map(opened, task.require_map)),
        ));
    }
    for map in maps {
        let mut verdict = verdict(&about, opened, &map, lent);
        if let (true, Outcome::Refused(refusal, _), Some(why)) = (task.all, &verdict.outcome, &verdict.why) {
            verdict.further = Further::of(opened.wad(verdict.source), &map, *refusal, why, lent);
        }
        report.verdict(&verdict);
        if verdict.is_text() {
            report.unjudged();
        }
    }
    for (source, unnamed) in unnamed {
        report.verdict(&Verdict::plain(about.clone(), Subject::File, source, Outcome::Unnamed(unnamed)));
    }
}

/// What is said of a file without a map.
pub fn no_map(opened: &Opened, require_map: bool) -> String {
    let required = if require_map { ", and one is required" } else { "" };
    let nodes = opened.gl_marker().map_or(String::new(), |(entry, name)| {
        format!("; entry {entry}, {name}, has the GL nodes of a map, which the box cannot read")
    });
    format!("no map{required}{nodes}")
}

/// The verdict on a map of a file, with its reason; of a text map, on its grammar alone.
pub fn verdict(about: &About, opened: &Opened, map: &[u8], lent: &mut Lent) -> Verdict {
    let Judged { source, verdict, reason } = opened.judge(map, lent);
    let wad = opened.wad(source);
    if let (Err(NO_THINGS), Some(text)) = (verdict, wad.textmap(map)) {
        return text::verdict(about, map, source, text);
    }
    let why = Why::of(reason, verdict.err(), wad, map);
    let outcome = match verdict {
        Err(refusal) if refusal.number == NOT_THERE => Outcome::Refused(refusal, Some(Finding::maps(&opened.maps()))),
        _ => outcome_of(wad, map, verdict),
    };
    let game = if outcome.has_lumps() { wad.game(map) } else { None };
    Verdict { game, why, ..Verdict::plain(about.clone(), Subject::Map(name::text(map)), source, outcome) }
}

fn outcome_of(wad: &Wad, map: &[u8], judged: Result<Accepted, Refusal>) -> Outcome {
    match judged {
        Ok(accepted) => {
            let nodes = wad.lump(accepted.marker + Node::PLACE).len() / Node::SIZE;
            let subsectors = wad.lump(accepted.marker + Subsector::PLACE).len() / Subsector::SIZE;
            Outcome::Accepted(accepted, nodes, subsectors)
        }
        Err(refusal) => Outcome::Refused(refusal, Finding::in_map(refusal, wad, map)),
    }
}
