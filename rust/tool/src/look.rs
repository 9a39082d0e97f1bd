//! The tool's own look at the records of a map that the library judged: which ones there are, and where they lie. It answers nothing for
//! what is not there, whatever the bytes hold.

use crate::wad::Wad;
use meshpigeon::{Linedef, Node, Seg, Subsector, Vertex};

/// The place of REJECT and of BLOCKMAP in a map.
pub const REJECT: usize = 9;
pub const BLOCKMAP: usize = 10;

/// The marker and the ten lumps.
const PLACES: usize = 11;

/// A cell of BLOCKMAP is so many units wide and high.
const CELL: i32 = 128;

/// A point of the map.
pub type Point = (i32, i32);

/// The lumps of a map by place, and whose records they hold.
pub struct Look<'a> {
    lumps: [&'a [u8]; PLACES],
    /// Whether they are Hexen's.
    pub hexen: bool,
}

impl<'a> Look<'a> {
    /// The map of a name, if its marker is there.
    pub fn of(wad: &'a Wad, map: &[u8]) -> Option<Self> {
        let marker = wad.marker(map)?;
        let hexen = meshpigeon::map_game(wad.bytes(), marker).unwrap_or_default();
        Some(Self { lumps: std::array::from_fn(|place| wad.lump(marker + place)), hexen })
    }

    /// A lump's bytes.
    pub fn lump(&self, place: usize) -> &'a [u8] {
        self.lumps.get(place).copied().unwrap_or_default()
    }

    /// A vertex's point.
    pub fn vertex(&self, index: u16) -> Option<Point> {
        let vertex = Vertex::read(self.lump(Vertex::PLACE), index.into()).ok()?;
        Some((vertex.x.into(), vertex.y.into()))
    }

    /// A linedef.
    pub fn linedef(&self, index: usize) -> Option<Linedef> {
        Linedef::read(self.lump(Linedef::PLACE), index, self.hexen).ok()
    }

    /// A seg.
    pub fn seg(&self, index: usize) -> Option<Seg> {
        Seg::read(self.lump(Seg::PLACE), index).ok()
    }

    /// A subsector.
    pub fn subsector(&self, index: usize) -> Option<Subsector> {
        Subsector::read(self.lump(Subsector::PLACE), index).ok()
    }

    /// A node.
    pub fn node(&self, index: usize) -> Option<Node> {
        Node::read(self.lump(Node::PLACE), index).ok()
    }

    /// How many segs there are.
    pub fn segs(&self) -> usize {
        self.lump(Seg::PLACE).len() / Seg::SIZE
    }

    /// The first linedef that has a sidedef, and whether that is its right side.
    pub fn linedef_of(&self, sidedef: usize) -> Option<(usize, bool)> {
        let count = self.lump(Linedef::PLACE).len() / Linedef::size(self.hexen);
        (0..count).find_map(|index| {
            let Linedef { right, left, .. } = self.linedef(index)?;
            let is_side = |side: u16| usize::from(side) == sidedef;
            (is_side(right) || is_side(left)).then(|| (index, is_side(right)))
        })
    }

    /// Two opposite corners of the square of a cell of BLOCKMAP: south-west and north-east.
    pub fn square(&self, cell: usize) -> Option<[Point; 2]> {
        let word = |at: usize| self.lump(BLOCKMAP).get(2 * at..)?.first_chunk().map(|it| u16::from_le_bytes(*it));
        let signed = |at| word(at).map(|it| i32::from(it as i16));
        let columns = usize::from(word(2)?);
        let (column, row) = (cell.checked_rem(columns)? as i32, cell.checked_div(columns)? as i32);
        let (west, south) = (signed(0)? + CELL * column, signed(1)? + CELL * row);
        Some([(west, south), (west + CELL, south + CELL)])
    }

    /// `, from (0, 0) to (64, 0),`: where a line between two vertices lies, as far as they are there.
    pub fn between(&self, start: u16, end: u16) -> String {
        match [start, end].map(|vertex| self.vertex(vertex)) {
            [Some(start), Some(end)] => format!(", {},", from_to(start, end)),
            [Some(start), None] => format!(", which starts at {},", point(start)),
            [None, Some(end)] => format!(", which ends at {},", point(end)),
            [None, None] => String::new(),
        }
    }
}

/// `from (0, 0) to (64, 0)`.
pub fn from_to(start: Point, end: Point) -> String {
    format!("from {} to {}", point(start), point(end))
}

/// `(64, 0)`.
fn point((x, y): Point) -> String {
    format!("({x}, {y})")
}
