//! Text maps: the bytes of a TEXTMAP lump, version 1.1 of the Universal Doom Map Format.
//!
//! The refusals 90 to 93 have a byte's place in the text as their record; the first place wins, then the smallest number.
//!
//! ```
//! use meshpigeon::text::{self, Block, Vertex};
//!
//! let map = br#"
//!     namespace = "Doom";
//!     vertex { x = -0.5; y = 64; }   // a whole number serves for a decimal
//!     Sector { TextureFloor = "FLOOR4_8"; textureceiling = "CEIL3_5"; ours = true; }
//! "#;
//! let whole = text::map(map).unwrap();
//! assert_eq!((whole.vertices, whole.sectors, whole.things), (1, 1, 0));
//! assert_eq!(whole.namespace.of(map), Some(&b"Doom"[..]));
//!
//! assert_eq!(Vertex::read(map, 0).unwrap().0, Vertex { x: -0.5, y: 64.0 });
//! assert_eq!(Vertex::read(map, 1).unwrap_err().number, 94);
//!
//! for block in text::blocks(map).unwrap() {
//!     if let Block::Sector(sector) = block {
//!         assert_eq!(sector.texturefloor.of(map), Some(&b"FLOOR4_8"[..]));
//!         assert_eq!((sector.lightlevel, sector.comment.of(map)), (160, None));
//!     }
//! }
//!
//! let refusal = text::map(b"vertex { x = 1; }").unwrap_err();
//! assert_eq!((refusal.number, refusal.record), (92, 16));
//! ```

mod record;

pub use record::{Linedef, Sector, Sidedef, Thing, Vertex};

use crate::{raw, Refusal};

/// Where a string lies in its text: from behind its opening quote to its closing one; both 0 where there is none.
#[repr(C)]
#[derive(Clone, Copy, Debug, Default, PartialEq, Eq)]
pub struct Quoted {
    /// Behind the opening quote.
    pub start: usize,
    /// At the closing quote.
    pub end: usize,
}

impl Quoted {
    /// The string itself, as written, of the text that it was read from; none where there is none.
    ///
    /// ```
    /// use meshpigeon::text::Sidedef;
    ///
    /// let text = br#"sidedef { sector = 0; texturetop = ""; comment = "a \"b\""; }"#;
    /// let (sidedef, _) = Sidedef::read(text, 0).unwrap();
    /// assert_eq!(sidedef.texturetop.of(text), Some(&b""[..]));
    /// assert_eq!(sidedef.texturebottom.of(text), None);
    /// assert_eq!(sidedef.comment.of(text), Some(&br#"a \"b\""#[..]));
    /// ```
    pub fn of<'a>(&self, text: &'a [u8]) -> Option<&'a [u8]> {
        if *self == Self::default() {
            return None;
        }
        text.get(self.start..self.end)
    }
}

/// What a whole text says of itself.
#[derive(Clone, Copy, Debug, PartialEq, Eq)]
pub struct Map {
    /// The last `namespace` of the text.
    pub namespace: Quoted,
    /// How many vertices it has.
    pub vertices: usize,
    /// How many linedefs.
    pub linedefs: usize,
    /// How many sidedefs.
    pub sidedefs: usize,
    /// How many sectors.
    pub sectors: usize,
    /// How many things.
    pub things: usize,
}

/// Judges a whole text and sums it up: 90 to 93.
pub fn map(text: &[u8]) -> Result<Map, Refusal> {
    raw::text::map(text)
}

/// The kind of a block.
#[derive(Clone, Copy, Debug, PartialEq, Eq)]
pub enum Kind {
    /// A vertex.
    Vertex,
    /// A linedef.
    Linedef,
    /// A sidedef.
    Sidedef,
    /// A sector.
    Sector,
    /// A thing.
    Thing,
}

impl Kind {
    /// All of them, in the order of their numbers, from 1 on.
    pub const ALL: [Self; 5] = [Self::Vertex, Self::Linedef, Self::Sidedef, Self::Sector, Self::Thing];
}

/// Where a block lies.
#[derive(Clone, Copy, Debug, PartialEq, Eq)]
pub struct Lies {
    /// Its kind.
    pub kind: Kind,
    /// The place of its name.
    pub start: usize,
}

/// The first block of a known kind among the statements from a place on, as if the text began there: 90 to 93 of what is read up to its opening
/// brace, of which only 90 and 91 come; 94 where none opens. Its fields, and the place from which the next one is read, come from `read_at` at
/// its start, which finds what is wrong in it.
///
/// ```
/// use meshpigeon::text::{self, Kind, Lies, Thing, Vertex};
///
/// let map = b"ours { } vertex { x = 1; y = 2; } thing { }";
/// let block = text::block(map, 0).unwrap();
/// assert_eq!(block, Lies { kind: Kind::Vertex, start: 9 });
/// let (vertex, next) = Vertex::read_at(map, block.start).unwrap();
/// assert_eq!((vertex, next), (Vertex { x: 1.0, y: 2.0 }, 33));
///
/// let block = text::block(map, next).unwrap();
/// assert_eq!(block, Lies { kind: Kind::Thing, start: 34 });
/// let refusal = Thing::read_at(map, block.start).unwrap_err();
/// assert_eq!((refusal.number, refusal.record), (92, 42));
///
/// assert_eq!(text::block(map, map.len()).unwrap_err().number, 94);
/// let refusal = text::block(b"ours = 01; thing { }", 0).unwrap_err();
/// assert_eq!((refusal.number, refusal.record), (90, 7));
/// ```
pub fn block(text: &[u8], place: usize) -> Result<Lies, Refusal> {
    raw::text::block(text, place)
}

/// A block with its fields.
#[derive(Clone, Copy, Debug, PartialEq)]
pub enum Block {
    /// A vertex.
    Vertex(Vertex),
    /// A linedef.
    Linedef(Linedef),
    /// A sidedef.
    Sidedef(Sidedef),
    /// A sector.
    Sector(Sector),
    /// A thing.
    Thing(Thing),
}

/// The blocks of a good text, as they come.
#[derive(Clone, Debug)]
pub struct Blocks<'a> {
    text: &'a [u8],
    namespace: Quoted,
    place: usize,
}

/// All blocks of a text as they come, in one pass behind the one that judges it: 90 to 93 of the whole text.
///
/// ```
/// use meshpigeon::text::{self, Block, Vertex};
///
/// let map = b"vertex { x = 1; y = 2; } sidedef { sector = 7; } vertex { x = 3; y = 4; }";
/// let blocks: Vec<Block> = text::blocks(map).unwrap().collect();
/// assert_eq!(blocks[0], Block::Vertex(Vertex { x: 1.0, y: 2.0 }));
/// assert!(matches!(blocks[1], Block::Sidedef(it) if it.sector == 7));
/// assert_eq!(blocks[2..], [Block::Vertex(Vertex { x: 3.0, y: 4.0 })]);
/// assert_eq!(text::blocks(b"vertex").unwrap_err().number, 90);
/// ```
pub fn blocks(text: &[u8]) -> Result<Blocks<'_>, Refusal> {
    let namespace = map(text)?.namespace;
    Ok(Blocks { text, namespace, place: 0 })
}

impl Iterator for Blocks<'_> {
    type Item = Block;

    fn next(&mut self) -> Option<Block> {
        let Lies { kind, start } = block(self.text, self.place).ok()?;
        let read = match kind {
            Kind::Vertex => Vertex::read_at(self.text, start).map(|(it, next)| (Block::Vertex(it), next)),
            Kind::Linedef => Linedef::read_at(self.text, start, self.namespace).map(|(it, next)| (Block::Linedef(it), next)),
            Kind::Sidedef => Sidedef::read_at(self.text, start).map(|(it, next)| (Block::Sidedef(it), next)),
            Kind::Sector => Sector::read_at(self.text, start).map(|(it, next)| (Block::Sector(it), next)),
            Kind::Thing => Thing::read_at(self.text, start).map(|(it, next)| (Block::Thing(it), next)),
        };
        let (block, next) = read.ok()?;
        self.place = next;
        Some(block)
    }
}
