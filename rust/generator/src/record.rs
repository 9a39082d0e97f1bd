//! The eight record kinds as bytes, things and linedefs in both games' forms, written field by field from document 004's tables, without
//! the reader's own writers.

use crate::Rng;
use reader::{Linedef, Node, Sector, Seg, Sidedef, Subsector, Thing, Vertex};

/// A record with named fields that can be laid out as bytes.
pub trait Encode {
    /// The record's bytes.
    fn encode(&self) -> Vec<u8>;
}

/// Words, least significant byte first.
pub(crate) fn words(words: &[u16]) -> Vec<u8> {
    words.iter().flat_map(|word| word.to_le_bytes()).collect()
}

fn signed(numbers: &[i16]) -> Vec<u8> {
    numbers.iter().flat_map(|number| number.to_le_bytes()).collect()
}

impl Encode for Thing {
    fn encode(&self) -> Vec<u8> {
        let Self { hexen, id, x, y, height, angle, kind, flags, action, args } = *self;
        let known = words(&[angle, kind, flags]);
        match hexen {
            false => [signed(&[x, y]), known].concat(),
            true => [signed(&[id, x, y, height]), known, vec![action], args.to_vec()].concat(),
        }
    }
}

impl Encode for Linedef {
    fn encode(&self) -> Vec<u8> {
        let Self { hexen, start, end, flags, special, tag, args, right, left } = *self;
        match hexen {
            false => words(&[start, end, flags, special, tag, right, left]),
            true => [words(&[start, end, flags]), vec![special as u8], args.to_vec(), words(&[right, left])].concat(),
        }
    }
}

impl Encode for Sidedef {
    fn encode(&self) -> Vec<u8> {
        let offsets = signed(&[self.x_offset, self.y_offset]);
        let names = [self.upper, self.lower, self.middle].concat();
        [offsets, names, words(&[self.sector])].concat()
    }
}

impl Encode for Vertex {
    fn encode(&self) -> Vec<u8> {
        signed(&[self.x, self.y])
    }
}

impl Encode for Seg {
    fn encode(&self) -> Vec<u8> {
        let Self { start, end, angle, linedef, direction, offset } = *self;
        [words(&[start, end, angle, linedef, direction]), signed(&[offset])].concat()
    }
}

impl Encode for Subsector {
    fn encode(&self) -> Vec<u8> {
        words(&[self.number, self.first])
    }
}

impl Encode for Node {
    fn encode(&self) -> Vec<u8> {
        let line = signed(&[self.x, self.y, self.dx, self.dy]);
        let boxes = [signed(&self.right_box), signed(&self.left_box)].concat();
        [line, boxes, words(&[self.right, self.left])].concat()
    }
}

impl Encode for Sector {
    fn encode(&self) -> Vec<u8> {
        let heights = signed(&[self.floor, self.ceiling]);
        let flats = [self.floor_flat, self.ceiling_flat].concat();
        [heights, flats, words(&[self.light, self.special, self.tag])].concat()
    }
}

/// A kind of record.
#[derive(Clone, Copy, Debug, PartialEq, Eq)]
#[allow(missing_docs)]
pub enum Kind {
    Thing,
    HexenThing,
    Linedef,
    HexenLinedef,
    Sidedef,
    Vertex,
    Seg,
    Subsector,
    Node,
    Sector,
}

/// A record of any kind.
#[derive(Clone, Copy, Debug, PartialEq, Eq)]
#[allow(missing_docs)]
pub enum Record {
    Thing(Thing),
    Linedef(Linedef),
    Sidedef(Sidedef),
    Vertex(Vertex),
    Seg(Seg),
    Subsector(Subsector),
    Node(Node),
    Sector(Sector),
}

impl Kind {
    /// All kinds, in place order, Doom's before Hexen's.
    pub const ALL: [Self; 10] = [
        Self::Thing,
        Self::HexenThing,
        Self::Linedef,
        Self::HexenLinedef,
        Self::Sidedef,
        Self::Vertex,
        Self::Seg,
        Self::Subsector,
        Self::Node,
        Self::Sector,
    ];

    /// Bytes of one record.
    pub fn size(self) -> usize {
        [10, 20, 14, 16, 30, 4, 12, 4, 28, 26][self as usize]
    }

    /// The kind of the records at `place`, 1 to 8, of a game's map.
    pub fn at(place: usize, hexen: bool) -> Self {
        match (place, hexen) {
            (1, false) => Self::Thing,
            (1, true) => Self::HexenThing,
            (2, false) => Self::Linedef,
            (2, true) => Self::HexenLinedef,
            _ => Self::ALL[place + 1],
        }
    }

    /// A record of this kind with any fields.
    pub fn any(self, rng: &mut Rng) -> Record {
        match self {
            Self::Thing => Record::Thing(any_thing(false, rng)),
            Self::HexenThing => Record::Thing(any_thing(true, rng)),
            Self::Linedef => Record::Linedef(any_linedef(false, rng)),
            Self::HexenLinedef => Record::Linedef(any_linedef(true, rng)),
            Self::Sidedef => Record::Sidedef(any_sidedef(rng)),
            Self::Vertex => Record::Vertex(any_vertex(rng)),
            Self::Seg => Record::Seg(any_seg(rng)),
            Self::Subsector => Record::Subsector(any_subsector(rng)),
            Self::Node => Record::Node(any_node(rng)),
            Self::Sector => Record::Sector(any_sector(rng)),
        }
    }
}

impl Encode for Record {
    fn encode(&self) -> Vec<u8> {
        match self {
            Self::Thing(record) => record.encode(),
            Self::Linedef(record) => record.encode(),
            Self::Sidedef(record) => record.encode(),
            Self::Vertex(record) => record.encode(),
            Self::Seg(record) => record.encode(),
            Self::Subsector(record) => record.encode(),
            Self::Node(record) => record.encode(),
            Self::Sector(record) => record.encode(),
        }
    }
}

fn any_name(rng: &mut Rng) -> [u8; 8] {
    rng.word().to_le_bytes()
}

fn any_args(rng: &mut Rng) -> [u8; 5] {
    std::array::from_fn(|_| rng.byte())
}

/// A thing with any fields that its game has.
pub(crate) fn any_thing(hexen: bool, rng: &mut Rng) -> Thing {
    let (x, y, angle, kind, flags) = (rng.i16(), rng.i16(), rng.u16(), rng.u16(), rng.u16());
    let thing = Thing { hexen, x, y, angle, kind, flags, ..Thing::default() };
    match hexen {
        false => thing,
        true => Thing { id: rng.i16(), height: rng.i16(), action: rng.byte(), args: any_args(rng), ..thing },
    }
}

/// A linedef with any fields that its game has.
pub(crate) fn any_linedef(hexen: bool, rng: &mut Rng) -> Linedef {
    let (start, end, flags, right, left) = (rng.u16(), rng.u16(), rng.u16(), rng.u16(), rng.u16());
    let linedef = Linedef { hexen, start, end, flags, right, left, ..Linedef::default() };
    match hexen {
        false => Linedef { special: rng.u16(), tag: rng.u16(), ..linedef },
        true => Linedef { special: rng.byte().into(), args: any_args(rng), ..linedef },
    }
}

/// A sidedef with any fields.
pub(crate) fn any_sidedef(rng: &mut Rng) -> Sidedef {
    let (x_offset, y_offset, sector) = (rng.i16(), rng.i16(), rng.u16());
    let (upper, lower, middle) = (any_name(rng), any_name(rng), any_name(rng));
    Sidedef { x_offset, y_offset, upper, lower, middle, sector }
}

/// A vertex with any fields.
pub(crate) fn any_vertex(rng: &mut Rng) -> Vertex {
    Vertex { x: rng.i16(), y: rng.i16() }
}

fn any_seg(rng: &mut Rng) -> Seg {
    let (start, end, angle, linedef) = (rng.u16(), rng.u16(), rng.u16(), rng.u16());
    Seg { start, end, angle, linedef, direction: rng.u16(), offset: rng.i16() }
}

fn any_subsector(rng: &mut Rng) -> Subsector {
    Subsector { number: rng.u16(), first: rng.u16() }
}

/// A node with any fields.
pub(crate) fn any_node(rng: &mut Rng) -> Node {
    let (x, y, dx, dy) = (rng.i16(), rng.i16(), rng.i16(), rng.i16());
    let right_box = std::array::from_fn(|_| rng.i16());
    let left_box = std::array::from_fn(|_| rng.i16());
    Node { x, y, dx, dy, right_box, left_box, right: rng.u16(), left: rng.u16() }
}

/// A sector with any fields.
pub(crate) fn any_sector(rng: &mut Rng) -> Sector {
    let (floor, ceiling, light) = (rng.i16(), rng.i16(), rng.u16());
    let (floor_flat, ceiling_flat) = (any_name(rng), any_name(rng));
    Sector { floor, ceiling, floor_flat, ceiling_flat, light, special: rng.u16(), tag: rng.u16() }
}
