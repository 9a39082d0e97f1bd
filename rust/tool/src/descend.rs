//! `descend`: the subsector of a point.

use crate::count::counted;
use crate::finding::Finding;
use crate::json::Object;
use crate::name::{self, shown};
use crate::report::Report;
use crate::verdict::Verdict;
use crate::wad::Wad;
use meshpigeon::Found;
use std::ffi::OsStr;

/// Finds a point's subsector over the map's NODES and its count of subsectors, whatever else is wrong with the map.
pub fn run(file: &OsStr, map: &OsStr, point: (i16, i16), report: &mut Report) {
    let wad = match Wad::open(file) {
        Ok(wad) => wad,
        Err(fault) => return report.fault(file, fault),
    };
    let map = name::asked(map);
    let name = name::text(&map);
    let found = wad.nodes_of(&map).and_then(|(nodes, subsectors)| meshpigeon::descend(nodes, subsectors, point.0, point.1));
    match found {
        Err(refusal) => {
            let found = Finding::in_map(refusal, &wad, &map);
            report.verdict(&Verdict::of_walk(wad.about(file, report), name, refusal, found));
        }
        Ok(found) => report.answer(|| line(file, &name, point, found), || json(file, &name, point, found)),
    }
}

fn line(file: &OsStr, map: &str, (x, y): (i16, i16), found: Found) -> String {
    let passed = counted(found.count, "node");
    format!("{}:{}: ({x}, {y}) is in subsector {}, {passed} passed", name::file(file), shown(map), found.subsector)
}

fn json(file: &OsStr, map: &str, (x, y): (i16, i16), found: Found) -> String {
    let object = Object::about(file).text("map", map).number("number", 0);
    let object = object.number("x", i64::from(x)).number("y", i64::from(y));
    object.count("subsector", found.subsector).count("count", found.count).close()
}
