//! What was found where a refusal is about a number or a name. It is read from the bytes that the library refused, after its answer.

use crate::count::{counted, grouped, listed};
use crate::file_finding::FileFinding;
use crate::index_finding::IndexFinding;
use crate::json::Object;
use crate::look::Look;
use crate::lump_finding::LumpFinding;
use crate::name;
use crate::node_kind::NodeKind;
use crate::renumber::post_order;
use crate::verdict::NOT_THERE;
use crate::wad::Wad;
use meshpigeon::{Node, Picture, Refusal, Sidedef, Sidedefs};
use std::collections::HashSet;

/// Bytes of a flat, which has 64 rows of 64 colours and no header.
const FLAT: usize = 4_096;

/// So many maps are named where another one was asked for.
const MOST_NAMED: usize = 6;

/// What was found.
#[derive(Clone, Debug, PartialEq, Eq)]
pub enum Finding {
    /// 1 to 6: what is wrong with a whole file.
    File(FileFinding),
    /// 11: the maps that the file has.
    Maps(Vec<String>),
    /// 12 and 20 to 22: what is wrong with a map's lumps; whether it is Hexen's.
    Lumps(LumpFinding, bool),
    /// 40 to 46: nodes of another kind than a walk can take.
    Nodes(NodeKind),
    /// 20 of a SIDEDEFS by itself: its size in bytes.
    Size(usize),
    /// 21 of a SIDEDEFS by itself: how many records it has.
    Records(usize),
    /// 50 to 54: the lump has the length of a flat; of 51 also width and height.
    Flat(Option<(usize, usize)>),
    /// 51 and 56: the picture's width and height.
    Picture(usize, usize),
    /// 70: a number of an order that no reached node has, or that stands there twice.
    Stranger(u16),
    /// 71: a child, and its parent, which stands before it.
    Behind(u16, u16),
    /// 72: the last number of an order, and the root.
    Last(u16, u16),
    /// 73: how many numbers an order has, and how many it must have.
    Order(usize, usize),
    /// 80: the count of sectors that was given.
    Sectors(usize),
    /// 82 to 84, and 11 of a lookup: what is wrong with an index, or how much of it was compared.
    Index(IndexFinding),
}

impl Finding {
    /// What is wrong with a map by its name or its lumps: 11, 12, 20 to 22, and of a walk down its nodes 40 to 46.
    pub fn in_map(refusal: Refusal, wad: &Wad, map: &[u8]) -> Option<Self> {
        match refusal.number {
            NOT_THERE => Some(Self::maps(&wad.maps())),
            12 | 20..=22 => {
                let hexen = wad.marker(map).and_then(|marker| meshpigeon::map_game(wad.bytes(), marker).ok());
                LumpFinding::of(refusal, wad, map).map(|found| Self::Lumps(found, hexen.unwrap_or_default()))
            }
            40..=46 => Look::of(wad, map).and_then(|look| NodeKind::marked(&look)).map(Self::Nodes),
            _ => None,
        }
    }

    /// The maps that are there, where another one was asked for: 11.
    pub fn maps(names: &[Vec<u8>]) -> Self {
        Self::Maps(names.iter().map(|name| name::text(name)).collect())
    }

    /// What is wrong with a picture by its header: 51; and that it may be a flat.
    pub fn in_picture(refusal: Refusal, lump: &[u8]) -> Option<Self> {
        let word = |at: usize| lump.get(at..)?.first_chunk().map(|bytes| usize::from(u16::from_le_bytes(*bytes)));
        let size = || word(0).zip(word(2)).filter(|_| refusal.number == 51);
        match lump.len() {
            FLAT => Some(Self::Flat(size())),
            _ => size().map(|(width, height)| Self::Picture(width, height)),
        }
    }

    /// What is wrong with an image that was to be a picture: 56.
    pub fn in_image(refusal: Refusal, picture: Picture) -> Option<Self> {
        match refusal.number {
            56 => Some(Self::Picture(picture.width, picture.height)),
            _ => None,
        }
    }

    /// What is wrong with an order of an accepted map's nodes: 70 to 73.
    pub fn in_order(refusal: Refusal, order: &[u16], nodes: &[u8]) -> Option<Self> {
        let good = post_order(nodes);
        match refusal.number {
            70 => stranger(order, &good).map(Self::Stranger),
            71 => behind(order, nodes).map(|(child, parent)| Self::Behind(child, parent)),
            72 => Some(Self::Last(*order.last()?, *good.last()?)),
            73 => Some(Self::Order(order.len(), good.len())),
            _ => None,
        }
    }

    /// What is wrong with a SIDEDEFS lump by what has come of it: 20, 21 and 80.
    pub fn in_sidedefs(refusal: Refusal, sidedefs: &Sidedefs) -> Option<Self> {
        match refusal.number {
            20 => Some(Self::Size(sidedefs.bytes)),
            21 => Some(Self::Records(sidedefs.bytes / Sidedef::SIZE)),
            80 => Some(Self::Sectors(sidedefs.sectors)),
            _ => None,
        }
    }

    /// What is wrong in words: of a file and of a map's lumps all of it, and else behind the rule.
    pub fn words(&self, refusal: Refusal, rule: &str) -> String {
        match self {
            Self::File(found) => found.words(refusal),
            Self::Lumps(found, hexen) => found.words(refusal, *hexen),
            Self::Nodes(kind) => kind.words(),
            _ => format!("{rule}; {}", self.clause()),
        }
    }

    /// What was found, to stand behind the refusal's sentence, which ends with the rule.
    fn clause(&self) -> String {
        match self {
            Self::File(_) | Self::Lumps(..) | Self::Nodes(_) => String::new(),
            Self::Maps(maps) => match &maps[..] {
                [] => "there is no map at all".to_string(),
                [only] => format!("the only map is {only}"),
                _ => format!("the maps are {}", listed(maps, MOST_NAMED)),
            },
            Self::Size(size) => format!("it has {}", counted(*size, "byte")),
            Self::Records(count) => format!("this one has {}", grouped(*count as i128)),
            Self::Flat(_) => "its 4,096 bytes look like a flat, which is no picture".to_string(),
            Self::Picture(width, height) => {
                format!("this one is {} across and {} down", grouped(*width as i128), grouped(*height as i128))
            }
            Self::Stranger(number) => format!("here {number} is such a number"),
            Self::Behind(child, parent) => format!("here node {child} stands behind its parent, node {parent}"),
            Self::Last(number, root) => format!("here it ends with {number}, and the root is {root}"),
            Self::Order(count, needed) => {
                format!("here that is {}, and it has {}", grouped(*needed as i128), grouped(*count as i128))
            }
            Self::Sectors(count) => format!("the count given is {}", grouped(*count as i128)),
            Self::Index(found) => found.to_string(),
        }
    }

    /// What was found as an object, a member for each number.
    pub fn json(&self) -> Object {
        let object = Object::new();
        match self {
            Self::File(found) => found.json(),
            Self::Lumps(found, _) => found.json(),
            Self::Nodes(kind) => object.text("nodes", kind.name()),
            Self::Maps(maps) => object.texts("maps", maps),
            Self::Size(size) => object.count("size", *size),
            Self::Records(count) => object.count("count", *count),
            Self::Flat(None) => object.flag("flat", true),
            Self::Flat(Some((width, height))) => object.count("width", *width).count("height", *height).flag("flat", true),
            Self::Picture(width, height) => object.count("width", *width).count("height", *height),
            Self::Stranger(number) => object.number("number", i64::from(*number)),
            Self::Behind(child, parent) => object.number("child", i64::from(*child)).number("parent", i64::from(*parent)),
            Self::Last(number, root) => object.number("number", i64::from(*number)).number("root", i64::from(*root)),
            Self::Order(count, needed) => object.count("count", *count).count("needed", *needed),
            Self::Sectors(count) => object.count("sectors", *count),
            Self::Index(found) => found.json(),
        }
    }
}

/// The first number of an order that no node of a good one has, or that comes a second time.
fn stranger(order: &[u16], good: &[u16]) -> Option<u16> {
    let mut left: HashSet<u16> = good.iter().copied().collect();
    order.iter().copied().find(|number| !left.remove(number))
}

/// The first child of an order that stands behind its parent, and the parent; every number must be a node's.
fn behind(order: &[u16], nodes: &[u8]) -> Option<(u16, u16)> {
    let mut left: HashSet<u16> = order.iter().copied().collect();
    order.iter().find_map(|parent| {
        left.remove(parent);
        let Node { right, left: other, .. } = Node::read(nodes, usize::from(*parent)).ok()?;
        [right, other].into_iter().find(|child| left.contains(child)).map(|child| (child, *parent))
    })
}

#[cfg(test)]
mod tests {
    use super::*;

    #[test]
    fn numbers_without_a_count_find_nothing() {
        let refusal = |number| Refusal { number, place: 0, record: 0 };
        assert_eq!(Finding::in_picture(refusal(50), b"short"), None);
    }
}
