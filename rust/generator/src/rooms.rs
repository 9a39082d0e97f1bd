//! A real map, drawn by hand: a row of square rooms, each open to the next. No number in it comes by chance.

use crate::blockmap::LIST_END;
use crate::map::reject_size;
use crate::{BlockmapSpec, MapSpec};
use reader::{Linedef, Node, Sector, Seg, Sidedef, Subsector, Thing, Vertex};
use reader::{NO_SIDEDEF, SUBSECTOR_BIT, TWO_SIDED};

/// How many rooms; a power of two.
const ROOMS: u16 = 4;
/// Width and depth of a room.
const SIDE: i16 = 256;
/// Width and depth of a blockmap cell.
const CELL: i16 = 128;
/// The blockmap begins a little before the first vertex.
const MARGIN: i16 = 8;
/// Linedef flag: nothing passes.
const BLOCKING: u16 = 1;
/// Flags of a Hexen thing that is there at every skill, for every class and in every kind of game.
const EVERYWHERE: u16 = 0x07E7;
/// Hexen's specials: a door with a tag, a speed and a delay, and a script.
const DOOR_RAISE: u16 = 12;
const ACS_EXECUTE: u8 = 80;
/// Angles of a seg: a full turn is 65,536, and 0 is east.
const EAST: u16 = 0;
const NORTH: u16 = 0x4000;
const WEST: u16 = 0x8000;
const SOUTH: u16 = 0xC000;

/// The map of four rooms: depth 2, three nodes, four subsectors.
pub fn rooms() -> MapSpec {
    let mut drawing = Drawing::default();
    drawing.west_wall();
    (0..ROOMS).for_each(|room| drawing.room(room));
    let vertices: Vec<Vertex> = (0..=ROOMS as i16).flat_map(|x| [0, SIDE].map(|y| Vertex { x: x * SIDE, y })).collect();
    MapSpec {
        hexen: false,
        things: vec![Thing { x: SIDE / 2, y: SIDE / 2, kind: 1, flags: 7, ..Thing::default() }],
        blockmap: blockmap(&drawing.linedefs, &vertices),
        linedefs: drawing.linedefs,
        sidedefs: drawing.sidedefs,
        vertices,
        segs: drawing.segs,
        subsectors: (0..ROOMS).map(|room| Subsector { number: 4, first: 4 * room }).collect(),
        nodes: nodes(),
        sectors: (0..ROOMS).map(sector).collect(),
        reject: vec![0; reject_size(usize::from(ROOMS))],
    }
}

/// The same rooms as a map of Hexen, with a bell in the last room and a door's special on the first opening.
pub fn hexen_rooms() -> MapSpec {
    let mut map = rooms();
    map.hexen = true;
    map.things[0].flags = EVERYWHERE;
    map.things.push(Thing {
        id: 7,
        x: 7 * SIDE / 2,
        y: SIDE / 2,
        height: 48,
        angle: 90,
        kind: 8065,
        flags: EVERYWHERE,
        ..Thing::default()
    });
    map.things[1].action = ACS_EXECUTE;
    map.things[1].args = [1, 0, 0, 0, 0];
    map.things.iter_mut().for_each(|thing| thing.hexen = true);
    map.linedefs.iter_mut().for_each(|linedef| linedef.hexen = true);
    if let Some(opening) = map.linedefs.iter_mut().find(|linedef| linedef.left != NO_SIDEDEF) {
        (opening.special, opening.args) = (DOOR_RAISE, [0, 16, 150, 0, 0]);
    }
    map
}

/// The vertex at the south or the north end of the line west of a room.
fn south_of(room: u16) -> u16 {
    2 * room
}

fn north_of(room: u16) -> u16 {
    2 * room + 1
}

/// Linedefs, sidedefs and segs as they are drawn.
#[derive(Default)]
struct Drawing {
    linedefs: Vec<Linedef>,
    sidedefs: Vec<Sidedef>,
    segs: Vec<Seg>,
    /// The linedef between the room being drawn and the one before it.
    west: u16,
}

impl Drawing {
    /// The wall at the western end, which faces room 0.
    fn west_wall(&mut self) {
        self.west = self.wall(south_of(0), north_of(0), 0);
    }

    /// The north, east and south of a room, and the segs of all four sides, clockwise.
    fn room(&mut self, room: u16) {
        let next = room + 1;
        let north = self.wall(north_of(room), north_of(next), room);
        let east = match next {
            ROOMS => self.wall(north_of(next), south_of(next), room),
            _ => self.opening(north_of(next), south_of(next), room, next),
        };
        let south = self.wall(south_of(next), south_of(room), room);
        self.seg(south_of(room), north_of(room), NORTH, self.west);
        self.seg(north_of(room), north_of(next), EAST, north);
        self.seg(north_of(next), south_of(next), SOUTH, east);
        self.seg(south_of(next), south_of(room), WEST, south);
        self.west = east;
    }

    /// A linedef with a right side only.
    fn wall(&mut self, start: u16, end: u16, room: u16) -> u16 {
        let right = self.side(room, b"STARTAN3");
        self.linedef(Linedef { start, end, flags: BLOCKING, right, left: NO_SIDEDEF, ..Linedef::default() })
    }

    /// A linedef that joins the room at its right to the one at its left.
    fn opening(&mut self, start: u16, end: u16, room: u16, next: u16) -> u16 {
        let (right, left) = (self.side(room, b"-\0\0\0\0\0\0\0"), self.side(next, b"-\0\0\0\0\0\0\0"));
        self.linedef(Linedef { start, end, flags: TWO_SIDED, right, left, ..Linedef::default() })
    }

    fn linedef(&mut self, linedef: Linedef) -> u16 {
        self.linedefs.push(linedef);
        self.linedefs.len() as u16 - 1
    }

    fn side(&mut self, sector: u16, middle: &[u8; 8]) -> u16 {
        let step = *b"STEP1\0\0\0";
        self.sidedefs.push(Sidedef { x_offset: 0, y_offset: 0, upper: step, lower: step, middle: *middle, sector });
        self.sidedefs.len() as u16 - 1
    }

    /// A seg along its whole linedef, or against it.
    fn seg(&mut self, start: u16, end: u16, angle: u16, linedef: u16) {
        let direction = u16::from(self.linedefs[usize::from(linedef)].start != start);
        self.segs.push(Seg { start, end, angle, linedef, direction, offset: 0 });
    }
}

/// Each room is a step higher and a little darker than the one before it.
fn sector(room: u16) -> Sector {
    Sector {
        floor: 16 * room as i16,
        ceiling: 192,
        floor_flat: *b"FLOOR4_8",
        ceiling_flat: *b"CEIL3_5\0",
        light: 224 - 32 * room,
        special: 0,
        tag: 0,
    }
}

/// Halves the row of rooms at x = 512, and the halves at 256 and 768. East is right of a line that runs north.
fn nodes() -> Vec<Node> {
    let room = |room: u16| SUBSECTOR_BIT | room;
    vec![node(1, 1, [room(1), room(0)]), node(3, 1, [room(3), room(2)]), node(2, 2, [1, 0])]
}

/// A line north at the west of room `at`, with so many rooms on either side.
fn node(at: i16, rooms: i16, [right, left]: [u16; 2]) -> Node {
    let sides = |west: i16, east: i16| [SIDE, 0, west * SIDE, east * SIDE];
    let (right_box, left_box) = (sides(at, at + rooms), sides(at - rooms, at));
    Node { x: at * SIDE, y: 0, dx: 0, dy: SIDE, right_box, left_box, right, left }
}

/// A list of its own to each cell, with the linedefs that touch it.
fn blockmap(linedefs: &[Linedef], vertices: &[Vertex]) -> BlockmapSpec {
    let (columns, rows) = ((ROOMS as i16 * SIDE + MARGIN) / CELL + 1, (SIDE + MARGIN) / CELL + 1);
    let cells = columns * rows;
    let (origin_x, origin_y) = (-MARGIN, -MARGIN);
    let (offsets, lists) = (vec![0; cells as usize], Vec::new());
    let mut blockmap = BlockmapSpec { origin_x, origin_y, columns: columns as u16, rows: rows as u16, offsets, lists, cut: None };
    for cell in 0..cells {
        let corner = Vertex { x: origin_x + cell % columns * CELL, y: origin_y + cell / columns * CELL };
        let inside = (0..).zip(linedefs).filter(|(_, it)| touches(it, vertices, corner)).map(|(index, _)| index);
        let list: Vec<u16> = [0].into_iter().chain(inside).chain([LIST_END]).collect();
        blockmap.give_list(cell as usize, &list);
    }
    blockmap
}

/// Whether a linedef, which runs straight north or east, has a point in the cell with this south-western corner.
fn touches(linedef: &Linedef, vertices: &[Vertex], corner: Vertex) -> bool {
    let [start, end] = [linedef.start, linedef.end].map(|it| vertices[usize::from(it)]);
    let meets = |one: i16, other: i16, least: i16| one.min(other) < least + CELL && one.max(other) >= least;
    meets(start.x, end.x, corner.x) && meets(start.y, end.y, corner.y)
}
