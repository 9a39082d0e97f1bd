//! `text`: the summary and all blocks of a text map; and what `judge` says of one.

use crate::about::About;
use crate::count::{counted, grouped};
use crate::finding::Finding;
use crate::json::Object;
use crate::name::{self, shown};
use crate::report::Report;
use crate::text_fields::{string, Fields};
use crate::verdict::{Outcome, Source, Subject, Verdict};
use crate::wad::Wad;
use crate::why::Why;
use meshpigeon::text::{blocks, map, Blocks, Map};
use meshpigeon::Refusal;
use std::ffi::OsStr;

/// What is known of a text map of good grammar.
#[derive(Clone, Debug, PartialEq, Eq)]
pub struct Summary {
    /// The counts of vertices, linedefs, sidedefs, sectors and things.
    counts: [usize; 5],
    /// The namespace, if there is one.
    namespace: Option<String>,
}

impl Summary {
    /// Judges a text.
    pub fn of(text: &[u8]) -> Result<Self, Refusal> {
        let Map { namespace, vertices, linedefs, sidedefs, sectors, things } = map(text)?;
        Ok(Self { counts: [vertices, linedefs, sidedefs, sectors, things], namespace: string(namespace, text) })
    }

    /// `a text map: its grammar is good, 4 vertices, .., namespace "Doom"; its geometry is not judged`.
    pub fn words(&self) -> String {
        let [vertices, linedefs, sidedefs, sectors, things] = self.counts;
        let vertices = if vertices == 1 { "1 vertex".to_string() } else { format!("{} vertices", grouped(vertices as i128)) };
        let [linedefs, sidedefs] = [counted(linedefs, "linedef"), counted(sidedefs, "sidedef")];
        let [sectors, things] = [counted(sectors, "sector"), counted(things, "thing")];
        let namespace = self.namespace.as_ref().map_or("no namespace".to_string(), |it| format!("namespace \"{it}\""));
        format!(
            "a text map: its grammar is good, {vertices}, {linedefs}, {sidedefs}, {sectors}, {things}, {namespace}; its geometry is not judged"
        )
    }

    /// The same as an object.
    pub fn json(&self) -> Object {
        let [vertices, linedefs, sidedefs, sectors, things] = self.counts;
        let object = Object::new().text("namespace", self.namespace.as_deref());
        let object = object.count("vertices", vertices).count("linedefs", linedefs).count("sidedefs", sidedefs);
        object.count("sectors", sectors).count("things", things)
    }
}

/// What `judge` says of a text map.
pub fn verdict(about: &About, map: &[u8], source: Source, text: &[u8]) -> Verdict {
    let (outcome, why) = match Summary::of(text) {
        Ok(summary) => (Outcome::Text(summary), None),
        Err(refusal) => (Outcome::Refused(refusal, None), Some(Why::of_text(text, refusal))),
    };
    Verdict { why, ..Verdict::plain(about.clone(), Subject::Map(name::text(map)), source, outcome) }
}

/// Prints the summary of a map's TEXTMAP and then each block, or where the text is wrong.
pub fn run(file: &OsStr, map: &OsStr, report: &mut Report) {
    let wad = match Wad::open(file) {
        Ok(wad) => wad,
        Err(fault) => return report.fault(file, fault),
    };
    let map = name::asked(map);
    let (about, name) = (wad.about(file, report), name::text(&map));
    if let Err(refusal) = meshpigeon::find_map(wad.bytes(), &map).marker {
        let found = Finding::in_map(refusal, &wad, &map);
        return report.verdict(&Verdict::of_walk(about, name, refusal, found));
    }
    let Some(text) = wad.textmap(&map) else {
        return report.trouble(file, &format!("{} is no text map: TEXTMAP must be the entry after its marker", shown(&name)));
    };
    report.verdict(&verdict(&about, &map, Source::File, text));
    if let Ok(blocks) = blocks(text) {
        tell(file, &name, text, blocks, report);
    }
}

/// A line for each block, with its number among those of its kind.
fn tell(file: &OsStr, map: &str, text: &[u8], blocks: Blocks, report: &mut Report) {
    let mut counts = [0; 5];
    for block in blocks {
        let fields = Fields::of(block, text);
        let number = counts[fields.place];
        counts[fields.place] += 1;
        report.answer(|| format!("{} {number}: {}", fields.kind, fields.words()), || json(file, map, &fields, number));
    }
}

fn json(file: &OsStr, map: &str, fields: &Fields, number: usize) -> String {
    let object = Object::about(file).text("map", map).text("block", fields.kind);
    object.count("number", number).object("fields", Some(fields.json())).close()
}
