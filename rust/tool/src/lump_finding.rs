//! What was found where a map's ten lumps are not there or have the wrong size: 12 and 20 to 22. It is read from the file's own bytes
//! after the library refused them.

use crate::advice::{build_again, SAVE_AGAIN, SWITCH_ON};
use crate::count::{counted, grouped};
use crate::json::Object;
use crate::look::{Look, REJECT};
use crate::name;
use crate::node_kind::NodeKind;
use crate::wad::Wad;
use meshpigeon::{Linedef, Node, Refusal, Sector, Seg, Subsector, Thing};

/// Places of the lumps that the rules speak of.
const THINGS: usize = Thing::PLACE;
const LINEDEFS: usize = Linedef::PLACE;
const SEGS: usize = Seg::PLACE;
const SSECTORS: usize = Subsector::PLACE;
const NODES: usize = Node::PLACE;

/// The name behind VERTEXES in a map that was saved without nodes.
const SECTORS: &[u8] = b"SECTORS";

/// How far behind its marker a Hexen map has BEHAVIOR.
const BEHAVIOR: usize = 11;

/// The order of a map's lumps.
const ORDER: &str =
    "Behind the marker come THINGS, LINEDEFS, SIDEDEFS, VERTEXES, SEGS, SSECTORS, NODES, SECTORS, REJECT and BLOCKMAP";

/// What was found, and the kind of nodes if they are no plain ones.
#[derive(Clone, Debug, PartialEq, Eq)]
pub struct LumpFinding {
    what: What,
    kind: Option<NodeKind>,
}

#[derive(Clone, Debug, PartialEq, Eq)]
enum What {
    /// 12: the marker's entry number, and its size.
    Marker(usize, usize),
    /// 12: the entry where a lump is missing, and its name; none behind the last entry.
    Missing(usize, Option<String>),
    /// 20: the lump's size in bytes.
    Size(usize),
    /// 20: the same of a map that would be Doom's without its BEHAVIOR, which is this entry.
    Stray(usize, usize),
    /// 21: how many records the lump has.
    Records(usize),
    /// 21: SEGS, SSECTORS and NODES are all empty.
    NoNodes,
    /// 21 of NODES: how many nodes and subsectors the map has.
    Nodes(usize, usize),
    /// 22: how many bytes REJECT has, and how many it must have.
    Reject(usize, usize),
}

impl LumpFinding {
    /// What is wrong with the map of a name.
    pub fn of(refusal: Refusal, wad: &Wad, map: &[u8]) -> Option<Self> {
        let look = Look::of(wad, map)?;
        let marker = wad.marker(map)?;
        let what = match refusal.number {
            12 => missing(refusal, wad, marker),
            20 => cut_off(refusal, &look, marker),
            21 => miscounted(refusal, &look)?,
            22 => What::Reject(look.lump(REJECT).len(), reject_size(look.lump(Sector::PLACE).len() / Sector::SIZE)),
            _ => return None,
        };
        let of_nodes = (SEGS..=NODES).contains(&refusal.place);
        let kind = if of_nodes { other_kind(refusal, &look, wad, map) } else { None };
        Some(Self { what, kind })
    }

    /// What is wrong and what to do.
    pub fn words(&self, refusal: Refusal, hexen: bool) -> String {
        if let Some(kind) = &self.kind {
            return kind.words();
        }
        let lump = refusal.lump().unwrap_or("the lump");
        match &self.what {
            What::Marker(entry, size) => {
                format!("the marker, entry {entry}, has {}: a marker is empty. {SAVE_AGAIN}", counted(*size, "byte"))
            }
            What::Missing(entry, name) => of_missing(refusal, lump, *entry, name.as_deref()),
            What::Size(size) => of_size(refusal, lump, *size, hexen),
            What::Stray(size, entry) => format!(
                "entry {entry}, BEHAVIOR, makes this a Hexen map, and {lump} has {}, which is no multiple of {}. \
                 Both THINGS and LINEDEFS have the sizes of a Doom map: take BEHAVIOR out.",
                counted(*size, "byte"),
                refusal.record_size(true).unwrap_or_default(),
            ),
            What::Records(count) => of_records(refusal, lump, *count),
            What::NoNodes => format!("the map was saved without nodes: SEGS, SSECTORS and NODES are empty. {SWITCH_ON}"),
            What::Nodes(nodes, subsectors) => of_nodes(*nodes, *subsectors),
            What::Reject(0, _) => "REJECT is empty: the node builder was told to leave it out. \
                                   Build the nodes again, with REJECT (zdbsp without -r)."
                .to_string(),
            What::Reject(length, needed) => {
                let (has, needs) = (counted(*length, "byte"), grouped(*needed as i128));
                format!("REJECT has {has}, and the sectors of this map need {needs}. {}", build_again(lump))
            }
        }
    }

    /// What was found as an object, a member for each number, and the kind of nodes where they are no plain ones.
    pub fn json(&self) -> Object {
        let object = Object::new();
        let object = match &self.what {
            What::Marker(entry, size) => object.count("entry", *entry).count("size", *size),
            What::Missing(entry, name) => object.count("entry", *entry).text("name", name.as_deref()),
            What::Size(size) => object.count("size", *size),
            What::Stray(size, entry) => object.count("size", *size).count("behavior", *entry),
            What::Records(count) => object.count("count", *count),
            What::NoNodes => object.count("count", 0),
            What::Nodes(nodes, subsectors) => object.count("count", *nodes).count("subsectors", *subsectors),
            What::Reject(length, needed) => object.count("length", *length).count("needed", *needed),
        };
        match &self.kind {
            Some(kind) => object.text("nodes", kind.name()),
            None => object,
        }
    }
}

/// Nodes of another kind where plain ones are missing: marked ones, or a GL marker where there are no others.
fn other_kind(refusal: Refusal, look: &Look, wad: &Wad, map: &[u8]) -> Option<NodeKind> {
    let has_lumps = refusal.number != 12;
    let is_bare = !has_lumps || (SEGS..=NODES).all(|place| look.lump(place).is_empty());
    let marked = has_lumps.then(|| NodeKind::marked(look)).flatten();
    marked.or_else(|| NodeKind::gl(wad, map).filter(|_| is_bare))
}

fn missing(refusal: Refusal, wad: &Wad, marker: usize) -> What {
    let entry = marker + refusal.place;
    match refusal.place {
        0 => What::Marker(entry, wad.lump(entry).len()),
        _ => What::Missing(entry, wad.entries().nth(entry).map(|it| name::text(it.name))),
    }
}

fn cut_off(refusal: Refusal, look: &Look, marker: usize) -> What {
    let size = look.lump(refusal.place).len();
    let is_doom = |place: usize, record: usize| look.lump(place).len().is_multiple_of(record);
    let is_stray = look.hexen && is_doom(THINGS, Thing::SIZE) && is_doom(LINEDEFS, Linedef::SIZE);
    match refusal.place {
        THINGS | LINEDEFS if is_stray => What::Stray(size, marker + BEHAVIOR),
        _ => What::Size(size),
    }
}

fn miscounted(refusal: Refusal, look: &Look) -> Option<What> {
    let count = |place: usize, record: usize| look.lump(place).len() / record;
    Some(match refusal.place {
        SEGS if (SEGS..=NODES).all(|place| look.lump(place).is_empty()) => What::NoNodes,
        NODES => What::Nodes(count(NODES, Node::SIZE), count(SSECTORS, Subsector::SIZE)),
        place => What::Records(count(place, refusal.record_size(look.hexen)?)),
    })
}

fn of_missing(refusal: Refusal, lump: &str, entry: usize, name: Option<&str>) -> String {
    let found = name.map_or("the directory ends before it".to_string(), |name| format!("entry {entry} is called {name}"));
    match refusal.place {
        SEGS if name.is_some_and(|name| name.as_bytes() == SECTORS) => {
            format!("the map was saved without nodes: SEGS is missing, and {found}. {SWITCH_ON}")
        }
        SEGS..=NODES | REJECT.. => format!("{lump} is missing: {found}. {SWITCH_ON} {ORDER}, in this order."),
        _ => format!("{lump} is missing: {found}. {ORDER}, in this order."),
    }
}

fn of_size(refusal: Refusal, lump: &str, size: usize, hexen: bool) -> String {
    let record = refusal.record_size(hexen).unwrap_or_default();
    let said = format!("{lump} is cut off inside a record: it has {}, which is no multiple of {record}", counted(size, "byte"));
    match refusal.place {
        SEGS..=NODES => format!("{said}. {}", build_again(lump)),
        _ => format!("{said}. {SAVE_AGAIN}"),
    }
}

fn of_records(refusal: Refusal, lump: &str, count: usize) -> String {
    let most = if refusal.place == SSECTORS { "32,767" } else { "65,535" };
    let things = thing(refusal.place);
    match (count, refusal.place) {
        (0, SEGS..=NODES) => format!("{lump} is empty: a map has at least 1 {things}. {}", build_again(lump)),
        (0, _) => format!("{lump} is empty: a map has at least 1 {things}. Draw something, and save the map again."),
        (_, SEGS..=NODES) => {
            format!("the map has {}, and at most {most} are allowed. Make the map smaller.", counted(count, things))
        }
        _ => format!("the map has {}, and at most {most} are allowed. Take some out.", plural(count, things)),
    }
}

/// `65,536 vertices`.
fn plural(count: usize, thing: &str) -> String {
    match thing {
        "vertex" => format!("{} vertices", grouped(count as i128)),
        _ => counted(count, thing),
    }
}

fn of_nodes(nodes: usize, subsectors: usize) -> String {
    let has = format!("the map has {} and {}", counted(nodes, "node"), counted(subsectors, "subsector"));
    match nodes {
        0 => format!("{has}: only a map of a single subsector has no nodes. {}", build_again("NODES")),
        _ => format!("{has}, and at most 32,767 nodes are allowed. Make the map smaller."),
    }
}

/// What the records of a lump are called.
fn thing(place: usize) -> &'static str {
    ["marker", "thing", "linedef", "sidedef", "vertex", "seg", "subsector", "node", "sector"].get(place).unwrap_or(&"record")
}

/// Bytes of REJECT for so many sectors: a bit for each ordered pair of them, rounded up to whole bytes.
fn reject_size(sectors: usize) -> usize {
    (sectors * sectors).div_ceil(8)
}

#[cfg(test)]
mod tests {
    use super::*;

    #[test]
    fn reject_is_rounded_up_to_whole_bytes() {
        assert_eq!([1, 3, 10, 65_535].map(reject_size), [1, 2, 13, 536_854_529]);
    }
}
