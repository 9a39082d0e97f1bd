//! `order`: the subsectors that a point sees, front first, and where `-o` asks for it a picture of them.

use crate::count::counted;
use crate::finding::Finding;
use crate::json::Object;
use crate::name::{self, shown};
use crate::output::{is_same, put};
use crate::report::Report;
use crate::svg::{Line, Sketch};
use crate::verdict::Verdict;
use crate::wad::Wad;
use meshpigeon::{Linedef, Refusal, Seg, Subsector, Vertex};
use std::ffi::OsStr;

/// Lists the subsectors over the map's NODES and its count of subsectors, whatever else is wrong with the map. A picture goes to
/// `output`, which is standard output for `-`.
pub fn run(file: &OsStr, map: &OsStr, point: (i16, i16), output: Option<&OsStr>, report: &mut Report) {
    if output.is_some_and(|output| is_same(file, output)) {
        return report.misused("the picture would be written over the file that it comes from");
    }
    let wad = match Wad::open(file) {
        Ok(wad) => wad,
        Err(fault) => return report.fault(file, fault),
    };
    let map = name::asked(map);
    let (name, (x, y)) = (name::text(&map), point);
    let drawn = wad.nodes_of(&map).and_then(|(nodes, subsectors)| meshpigeon::draw_order(nodes, subsectors, x, y));
    let drawn = drawn.and_then(|list| Ok((output.map(|_| sketch(&wad, &map, point, &list)).transpose()?, list)));
    match (drawn, output) {
        (Err(refusal), _) => {
            let found = Finding::in_map(refusal, &wad, &map);
            report.verdict(&Verdict::of_walk(wad.about(file, report), name, refusal, found));
        }
        (Ok((Some(sketch), list)), Some(output)) => {
            put(sketch.svg().as_bytes(), output, report, |report| tell(file, &name, point, &list, Some(output), report));
        }
        (Ok((_, list)), _) => tell(file, &name, point, &list, None, report),
    }
}

/// The map's lines, and the segs of the listed subsectors. A line whose vertex is not there is left out.
fn sketch(wad: &Wad, map: &[u8], camera: (i16, i16), list: &[u16]) -> Result<Sketch, Refusal> {
    let marker = meshpigeon::find_map(wad.bytes(), map).marker?;
    let hexen = meshpigeon::map_game(wad.bytes(), marker)?;
    let [linedefs, vertices, segs, subsectors] =
        [Linedef::PLACE, Vertex::PLACE, Seg::PLACE, Subsector::PLACE].map(|place| wad.lump(marker + place));
    let point = |index: u16| Vertex::read(vertices, index.into()).ok().map(|it| (it.x, it.y));
    let line = |start, end| Some([point(start)?, point(end)?]);
    let count = linedefs.len() / Linedef::size(hexen);
    let along = |index| Linedef::read(linedefs, index, hexen).ok().and_then(|it| line(it.start, it.end));
    let mut left = Left::of(segs.len() / Seg::SIZE);
    let mut shape = |number: u16| -> (u16, Vec<Line>) {
        let Ok(Subsector { number: count, first }) = Subsector::read(subsectors, number.into()) else {
            return (number, Vec::new());
        };
        let own = left.take(first.into(), usize::from(first) + usize::from(count));
        let lines = own.into_iter().filter_map(|seg| Seg::read(segs, seg).ok()).filter_map(|it| line(it.start, it.end));
        (number, lines.collect())
    };
    let subsectors = list.iter().map(|&number| shape(number)).collect();
    Ok(Sketch { linedefs: (0..count).filter_map(along).collect(), subsectors, camera })
}

/// The segs that are not drawn yet. Subsectors may share segs, each of them all: every one is drawn once, with the nearest
/// subsector, so that no map makes a picture of more lines than it has.
struct Left {
    /// For each seg the first from it on that may be left.
    next: Vec<usize>,
}

impl Left {
    fn of(count: usize) -> Self {
        Self { next: (0..=count).collect() }
    }

    /// Takes all that are left from `first` up to `end`.
    fn take(&mut self, first: usize, end: usize) -> Vec<usize> {
        let (last, mut taken) = (self.next.len() - 1, Vec::new());
        let end = end.min(last);
        let mut at = self.from(first.min(last));
        while at < end {
            taken.push(at);
            self.next[at] = at + 1;
            at = self.from(at);
        }
        taken
    }

    /// The first that is left from `at` on. The way there is shortened for the next time.
    fn from(&mut self, mut at: usize) -> usize {
        while self.next[at] != at {
            self.next[at] = self.next[self.next[at]];
            at = self.next[at];
        }
        at
    }
}

fn tell(file: &OsStr, map: &str, point: (i16, i16), list: &[u16], output: Option<&OsStr>, report: &mut Report) {
    report.answer(|| line(file, map, point, list, output), || json(file, map, point, list, output));
}

fn line(file: &OsStr, map: &str, (x, y): (i16, i16), list: &[u16], output: Option<&OsStr>) -> String {
    let numbers: Vec<String> = list.iter().map(u16::to_string).collect();
    let (count, numbers) = (counted(list.len(), "subsector"), numbers.join(" "));
    let drawn = output.map_or(String::new(), |output| format!(", drawn to {}", name::file(output)));
    format!("{}:{}: from ({x}, {y}) {count}, front first: {numbers}{drawn}", name::file(file), shown(map))
}

fn json(file: &OsStr, map: &str, (x, y): (i16, i16), list: &[u16], output: Option<&OsStr>) -> String {
    let object = Object::about(file).text("map", map).number("number", 0);
    let object = object.number("x", i64::from(x)).number("y", i64::from(y));
    let output = output.map(OsStr::to_string_lossy);
    object.count("count", list.len()).numbers("subsectors", list).text("output", output.as_deref()).close()
}
