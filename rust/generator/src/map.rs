//! A map from named records, and good maps of any size.

use crate::record::{any_linedef, any_node, any_sector, any_sidedef, any_thing, any_vertex};
use crate::{BlockmapSpec, Encode, Layout, Rng, Shape, Truth};
use reader::{Linedef, Node, Sector, Seg, Sidedef, Subsector, Thing, Vertex};
use reader::{NO_SIDEDEF, TWO_SIDED};

/// The ten lumps of a map, as records.
#[derive(Clone, Debug, PartialEq, Eq)]
#[allow(missing_docs)]
pub struct MapSpec {
    /// Whether it is Hexen's, and BEHAVIOR follows the ten lumps; things and linedefs must be of the same game.
    pub hexen: bool,
    pub things: Vec<Thing>,
    pub linedefs: Vec<Linedef>,
    pub sidedefs: Vec<Sidedef>,
    pub vertices: Vec<Vertex>,
    pub segs: Vec<Seg>,
    pub subsectors: Vec<Subsector>,
    pub nodes: Vec<Node>,
    pub sectors: Vec<Sector>,
    pub reject: Vec<u8>,
    pub blockmap: BlockmapSpec,
}

/// The game of a map, how many records of each kind it has, and how many cells its blockmap.
#[derive(Clone, Copy, Debug, PartialEq, Eq)]
#[allow(missing_docs)]
pub struct Sizes {
    pub hexen: bool,
    pub things: usize,
    pub linedefs: usize,
    pub sidedefs: usize,
    pub vertices: usize,
    pub segs: usize,
    pub subsectors: usize,
    pub nodes: usize,
    pub sectors: usize,
    pub columns: u16,
    pub rows: u16,
}

impl Sizes {
    /// Of Doom, everything once and no thing and no node.
    pub const LEAST: Self = Self {
        hexen: false,
        things: 0,
        linedefs: 1,
        sidedefs: 1,
        vertices: 1,
        segs: 1,
        subsectors: 1,
        nodes: 0,
        sectors: 1,
        columns: 1,
        rows: 1,
    };

    /// The least, but so many nodes, and a subsector for each place where their tree ends: a tree of R nodes has R + 1.
    pub const fn tree(nodes: usize) -> Self {
        Self { nodes, subsectors: nodes + 1, ..Self::LEAST }
    }

    /// The same of Hexen, if so.
    pub const fn of(self, hexen: bool) -> Self {
        Self { hexen, ..self }
    }

    /// A few of everything, of either game; at least two of all but things, so that any damage finds its place.
    pub fn few(rng: &mut Rng) -> Self {
        let nodes = rng.between(2, 9);
        Self {
            hexen: rng.once_in(3),
            things: rng.between(0, 3),
            linedefs: rng.between(2, 8),
            sidedefs: rng.between(2, 6),
            vertices: rng.between(2, 8),
            segs: rng.between(2, 8),
            subsectors: rng.between(nodes + 1, nodes + 4),
            nodes,
            sectors: rng.between(2, 6),
            columns: rng.between(1, 4) as u16,
            rows: rng.between(1, 4) as u16,
        }
    }

    /// Counts near the least ones, or a few, or some dozens. Now and then the subsectors are too few for a tree of all nodes.
    pub fn any(rng: &mut Rng) -> Self {
        let nodes = match rng.below(4) {
            0 => return Self { hexen: rng.once_in(3), things: rng.below(2), ..Self::tree(rng.below(3)) },
            1 => rng.between(10, 60),
            _ => rng.between(1, 9),
        };
        let subsectors = if rng.once_in(8) { rng.between(1, nodes) } else { rng.between(nodes + 1, nodes + 4) };
        Self { nodes, subsectors, ..Self::few(rng) }
    }
}

impl MapSpec {
    /// A good map but for its graph, which has the loops and shared children of its shape. Linedef 0 has one side;
    /// linedef 1, where there is one, has two.
    pub fn new(sizes: Sizes, shape: Shape, layout: Layout, rng: &mut Rng) -> (Self, Truth) {
        let linedefs: Vec<Linedef> = (0..sizes.linedefs).map(|index| linedef(index, &sizes, rng)).collect();
        let (nodes, truth) = nodes(shape, &sizes, rng);
        let Sizes { columns, rows, .. } = sizes;
        let map = Self {
            hexen: sizes.hexen,
            things: repeat(sizes.things, || any_thing(sizes.hexen, rng)),
            sidedefs: repeat(sizes.sidedefs, || sidedef(&sizes, rng)),
            vertices: repeat(sizes.vertices, || any_vertex(rng)),
            segs: repeat(sizes.segs, || seg(&linedefs, &sizes, rng)),
            subsectors: repeat(sizes.subsectors, || subsector(&sizes, rng)),
            nodes,
            sectors: repeat(sizes.sectors, || any_sector(rng)),
            reject: vec![rng.byte(); reject_size(sizes.sectors)],
            blockmap: BlockmapSpec::new(layout, columns, rows, sizes.linedefs, rng),
            linedefs,
        };
        (map, truth)
    }

    /// A good map of the given sizes, which must have more subsectors than nodes: a balanced tree and one shared list.
    pub fn plain(sizes: Sizes, rng: &mut Rng) -> Self {
        Self::new(sizes, Shape::Balanced, Layout::Shared, rng).0
    }

    /// The lump at `place`, 1 to 10.
    pub fn lump(&self, place: usize) -> Vec<u8> {
        match place {
            1 => encode(&self.things),
            2 => encode(&self.linedefs),
            3 => encode(&self.sidedefs),
            4 => encode(&self.vertices),
            5 => encode(&self.segs),
            6 => encode(&self.subsectors),
            7 => encode(&self.nodes),
            8 => encode(&self.sectors),
            9 => self.reject.clone(),
            10 => self.blockmap.encode(),
            _ => Vec::new(),
        }
    }
}

/// Bytes of REJECT: one bit for every two sectors.
pub(crate) fn reject_size(sectors: usize) -> usize {
    (sectors * sectors + 7) >> 3
}

/// All records of a lump as bytes.
pub(crate) fn encode<R: Encode>(records: &[R]) -> Vec<u8> {
    records.iter().flat_map(Encode::encode).collect()
}

fn repeat<R>(count: usize, record: impl FnMut() -> R) -> Vec<R> {
    std::iter::repeat_with(record).take(count).collect()
}

fn linedef(index: usize, sizes: &Sizes, rng: &mut Rng) -> Linedef {
    let has_left = index == 1 || (index > 1 && rng.once_in(2));
    let two_sided = has_left && rng.once_in(2);
    let flags = rng.u16() & !TWO_SIDED | if two_sided { TWO_SIDED } else { 0 };
    let left = rng.below(sizes.sidedefs) as u16;
    Linedef {
        start: rng.below(sizes.vertices) as u16,
        end: rng.below(sizes.vertices) as u16,
        flags,
        right: rng.below(sizes.sidedefs) as u16,
        left: if has_left { left } else { NO_SIDEDEF },
        ..any_linedef(sizes.hexen, rng)
    }
}

fn sidedef(sizes: &Sizes, rng: &mut Rng) -> Sidedef {
    Sidedef { sector: rng.below(sizes.sectors) as u16, ..any_sidedef(rng) }
}

fn seg(linedefs: &[Linedef], sizes: &Sizes, rng: &mut Rng) -> Seg {
    let linedef = rng.below(linedefs.len());
    let has_left = linedefs[linedef].left != NO_SIDEDEF;
    Seg {
        start: rng.below(sizes.vertices) as u16,
        end: rng.below(sizes.vertices) as u16,
        angle: rng.u16(),
        linedef: linedef as u16,
        direction: u16::from(has_left && rng.once_in(2)),
        offset: rng.i16(),
    }
}

fn subsector(sizes: &Sizes, rng: &mut Rng) -> Subsector {
    let first = rng.below(sizes.segs);
    Subsector { number: rng.between(1, sizes.segs - first) as u16, first: first as u16 }
}

fn nodes(shape: Shape, sizes: &Sizes, rng: &mut Rng) -> (Vec<Node>, Truth) {
    let (children, truth) = shape.children(sizes.nodes, sizes.subsectors, rng);
    let nodes = children.iter().map(|&[right, left]| Node { right, left, ..any_node(rng) });
    (nodes.collect(), truth)
}
