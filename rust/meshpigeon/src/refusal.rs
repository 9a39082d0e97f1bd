//! A refusal: the papers' three numbers, and what they say in words.

use crate::{Linedef, Node, Sector, Seg, Sidedef, Subsector, Thing, Vertex};
use std::error::Error;
use std::fmt;

/// The lumps of a map by place; place 0 is the marker.
const LUMPS: [&str; 11] =
    ["the marker", "THINGS", "LINEDEFS", "SIDEDEFS", "VERTEXES", "SEGS", "SSECTORS", "NODES", "SECTORS", "REJECT", "BLOCKMAP"];

/// Bytes of a record by place, in a game, for the lumps that hold records.
const fn sizes(hexen: bool) -> [usize; 9] {
    let (thing, linedef) = (Thing::size(hexen), Linedef::size(hexen));
    [0, thing, linedef, Sidedef::SIZE, Vertex::SIZE, Seg::SIZE, Subsector::SIZE, Node::SIZE, Sector::SIZE]
}

/// Why something was refused.
#[derive(Clone, Copy, Debug, PartialEq, Eq)]
pub struct Refusal {
    /// The number in the table of refusals: 1 to 7, 10 to 12, 20 to 28, 30 to 32, 40 to 46, 50 to 58, 60, 61, 70 to 76, 80 to
    /// 86, 90 to 94.
    pub number: u32,
    /// The map lump concerned, 0 (the marker) to 10 (BLOCKMAP); 0 where none is.
    pub place: usize,
    /// The entry, record, cell, node or column concerned, or the byte of a text; 0 where none is.
    pub record: usize,
}

impl Refusal {
    /// The name of the lump concerned, for the numbers that name a place.
    pub fn lump(&self) -> Option<&'static str> {
        match self.number {
            12 | 20..=28 | 30..=32 => LUMPS.get(self.place).copied(),
            _ => None,
        }
    }

    /// Bytes of one record of the lump concerned, in a game, for the numbers that name a lump of records.
    pub fn record_size(&self, hexen: bool) -> Option<usize> {
        self.lump().and(sizes(hexen).get(self.place).copied()).filter(|&size| size > 0)
    }

    /// Whether the record part has a meaning for this number.
    pub fn names_record(&self) -> bool {
        matches!(self.number, 5 | 6 | 23..=28 | 42 | 53 | 54 | 90..=93)
    }

    /// Where the fault is, in a word or two, for the numbers that name a place or a record: `NODES`, `LINEDEFS 17`, `entry 3`.
    pub fn whereabouts(&self) -> Option<String> {
        let part = match self.number {
            5 | 6 => "entry",
            42 => "node",
            53 | 54 => "column",
            90..=93 => "byte",
            _ => self.lump()?,
        };
        Some(if self.names_record() { format!("{part} {}", self.record) } else { part.to_string() })
    }

    /// True if the caller's arguments or buffers are at fault, and not the file: too few words, a short buffer, a number or a name
    /// that cannot be asked for, a record that cannot be written, a bad order of nodes, maps that cannot be compared, an index of
    /// another file, a block that a text does not have.
    pub fn is_callers(&self) -> bool {
        matches!(self.number, 7 | 10 | 30 | 41 | 45 | 55..=58 | 60 | 61 | 70..=76 | 80 | 82..=86 | 94)
    }

    fn say_of_file(&self, out: &mut fmt::Formatter<'_>) -> fmt::Result {
        let record = self.record;
        match self.number {
            1 => write!(out, "the file is too short or too long: a WAD file has 12 to 16,777,216 bytes"),
            2 => write!(out, "this is no WAD file: it does not begin with IWAD or PWAD"),
            3 => write!(out, "the header's count of lumps is wrong: 0 to 4,096 are allowed"),
            4 => write!(
                out,
                "the directory does not lie inside the file: it starts at byte 12 or later and has 16 bytes for each lump"
            ),
            5 => write!(
                out,
                "entry {record} claims bytes outside the file: a lump starts at byte 12 or later, and its offset and size end \
                 inside the file"
            ),
            6 => write!(
                out,
                "entry {record} has a bad name: a name is what precedes its first zero, one to eight of A-Z, 0-9, [ ] - _ \\"
            ),
            _ => write!(out, "there is no entry of that number"),
        }
    }

    fn say_of_marker(&self, out: &mut fmt::Formatter<'_>) -> fmt::Result {
        match self.number {
            10 => write!(out, "that is no map's name: maps are called E1M1 to E9M9, or MAP01 to MAP99"),
            11 => write!(out, "the file has no map of that name"),
            12 if self.place == 0 => write!(out, "the map's marker is not empty: a marker has size 0"),
            _ => write!(
                out,
                "{} is missing or misnamed: after the marker come THINGS, LINEDEFS, SIDEDEFS, VERTEXES, SEGS, SSECTORS, NODES, \
                 SECTORS, REJECT and BLOCKMAP, in this order",
                self.lump().unwrap_or("a lump")
            ),
        }
    }

    fn say_of_sizes(&self, out: &mut fmt::Formatter<'_>) -> fmt::Result {
        let lump = self.lump().unwrap_or("a lump");
        let [doom, hexen] = [false, true].map(|hexen| self.record_size(hexen).unwrap_or_default());
        match (self.number, self.place) {
            (20, _) if doom != hexen => write!(
                out,
                "{lump} is cut off inside a record: its size must be a multiple of {doom} bytes, or of {hexen} in a Hexen map"
            ),
            (20, _) => write!(out, "{lump} is cut off inside a record: its size must be a multiple of {doom} bytes"),
            (21, 1) => write!(out, "there are too many things: a map has 0 to 65,535"),
            (21, 6) => write!(out, "there are too few or too many subsectors: a map has 1 to 32,767"),
            (21, 7) => {
                write!(out, "the count of nodes is wrong: a map has 0 to 32,767, and none only if it has a single subsector")
            }
            (21, _) => write!(out, "{lump} has too few or too many records: a map has 1 to 65,535"),
            _ => write!(out, "REJECT has the wrong length: it must have sectors times sectors bits, rounded up to whole bytes"),
        }
    }

    fn say_of_reference(&self, out: &mut fmt::Formatter<'_>) -> fmt::Result {
        let record = self.record;
        match self.number {
            23 => write!(
                out,
                "linedef {record} names a vertex or a sidedef that is not there, or is two-sided without a left side: both ends and \
                 the right side must be there, and the left side if it has one"
            ),
            24 => write!(out, "sidedef {record} names a sector that is not there: every sidedef faces a sector of the map"),
            25 => write!(
                out,
                "seg {record} names a vertex or a linedef that is not there, or a side that its linedef does not have: its direction \
                 is 0 for the right side, or 1 for a left side that is there"
            ),
            26 => write!(out, "subsector {record} has no seg, or segs past the last one: it has one or more, all of them in SEGS"),
            _ => write!(
                out,
                "node {record} has a child that is not there: a child is a node of the map, or 32,768 and a subsector of the map"
            ),
        }
    }

    fn say_of_blockmap(&self, out: &mut fmt::Formatter<'_>) -> fmt::Result {
        match self.record {
            0 => write!(
                out,
                "BLOCKMAP is broken in its header or at cell 0: it has 1 to 512 columns and rows, an offset to each cell, "
            )?,
            cell => write!(out, "BLOCKMAP is broken at cell {cell}: its offset leads behind the offsets and into the lump, ")?,
        }
        write!(out, "and a cell's list is 0, linedefs that are there, and 65,535")
    }

    fn say_of_descent(&self, out: &mut fmt::Formatter<'_>) -> fmt::Result {
        match self.number {
            40 => write!(out, "these are no nodes: a multiple of 28 bytes, and at most 32,767 nodes"),
            41 => write!(out, "the count of subsectors is not 1 to 32,767, or not 1 where there are no nodes"),
            42 => write!(out, "the way down came to node {}, one of whose children is not there", self.record),
            44 => write!(out, "a way down passes more than 256 nodes: a draw order follows ways of at most 256"),
            45 => write!(out, "too few words were lent for the draw order: it needs one more than there are nodes"),
            46 => write!(
                out,
                "the draw order grows too long: it lists at most one subsector more than there are nodes, each reached by one way only"
            ),
            _ => write!(
                out,
                "the descent passed as many nodes as there are and is still on a node: the nodes turn back on themselves"
            ),
        }
    }

    fn say_of_order(&self, out: &mut fmt::Formatter<'_>) -> fmt::Result {
        match self.number {
            70 => write!(
                out,
                "the order lists a node twice, or one that the root does not reach: it must hold each reached node once"
            ),
            71 => write!(out, "the order has a child behind its parent: every child that is a node must come before its parent"),
            72 => write!(out, "the order does not end with the root: the root, the last of the old nodes, must come last"),
            73 => write!(
                out,
                "the order is too short or too long: it must have as many numbers as there are nodes that the root reaches"
            ),
            _ => write!(out, "the output is too short for the new NODES: they have 28 bytes for each node of the order"),
        }
    }

    fn say_of_index(&self, out: &mut fmt::Formatter<'_>) -> fmt::Result {
        match self.number {
            82 => write!(
                out,
                "the index is not of this file: it begins with WIX, has the file's count of entries and its length, and is at least 11 \
                 bytes long and 10 for each entry"
            ),
            83 => write!(out, "the index has another version: only version 1 is known"),
            84 => write!(
                out,
                "the index is not the one of this directory: it holds the name and number of each entry once, sorted by name and then by \
                 number, with zeros after a name's first zero, and nothing behind them"
            ),
            _ => write!(
                out,
                "too few records or too short an output was lent for the index: it needs one record for each entry, and has 11 bytes and \
                 10 for each entry"
            ),
        }
    }

    fn say_of_text(&self, out: &mut fmt::Formatter<'_>) -> fmt::Result {
        match self.number {
            90 => write!(
                out,
                "the text does not go on as it must: a text map has assignments, a name, =, a value and ;, and blocks of them in braces; a value \
                 is a number, a string in double quotes, true or false, and a known field takes its own kind of value only"
            ),
            91 => write!(
                out,
                "a number is over its limits: a whole number is -2,147,483,648 to 2,147,483,647, and a decimal has at most 15 digits, 6 of \
                 them behind the point"
            ),
            92 => write!(
                out,
                "the block ends without a field that it must have: a vertex has x and y, a linedef v1, v2 and sidefront, a sidedef sector, a \
                 sector texturefloor and textureceiling, a thing x, y and type"
            ),
            93 => write!(out, "there are too many blocks of this kind: a text map has at most 65,535 of each"),
            _ => write!(
                out,
                "the text has no block of that kind with that number, or none from that place on: a block's number is below the \
                 count of its kind"
            ),
        }
    }

    fn say_of_picture(&self, out: &mut fmt::Formatter<'_>) -> fmt::Result {
        let record = self.record;
        match self.number {
            50 => write!(out, "the picture is too short: its header alone has 8 bytes"),
            51 => write!(out, "the picture's size is wrong: 1 to 320 across and 1 to 200 down are allowed"),
            52 => write!(out, "the picture's column offsets run past its end: there are four bytes for each column"),
            53 => write!(
                out,
                "column {record} starts before the end of the column offsets, or runs past the picture's end: a column is posts \
                 and then the byte 255, all of them inside"
            ),
            54 => write!(
                out,
                "column {record} has a post that starts above the end of the one before it, or ends below the picture's last row: \
                 posts go downward and do not overlap"
            ),
            56 => write!(out, "a picture of that size cannot be written: 1 to 320 across and 1 to 200 down are allowed"),
            57 => write!(out, "a byte of the cover is neither 0 nor 1: a pixel is painted with 1 and left open with 0"),
            58 => write!(
                out,
                "the output is too short for the picture: it has 8 bytes, 5 for each column, 4 for each unbroken run in a column, and \
                 1 for each painted pixel"
            ),
            _ => write!(out, "a pixel buffer is shorter than width times height"),
        }
    }
}

impl fmt::Display for Refusal {
    fn fmt(&self, out: &mut fmt::Formatter<'_>) -> fmt::Result {
        match self.number {
            1..=7 => self.say_of_file(out),
            10..=12 => self.say_of_marker(out),
            20..=22 => self.say_of_sizes(out),
            23..=27 => self.say_of_reference(out),
            28 => self.say_of_blockmap(out),
            30 => write!(out, "too few work words were lent: four for each node"),
            31 => write!(
                out,
                "the nodes turn back on themselves: some way down from the root never ends, and every way must end at a subsector"
            ),
            32 => write!(
                out,
                "two ways down lead to the same node or subsector: the box would draw it more than once, and each must be reached by \
                 one way only"
            ),
            40..=46 => self.say_of_descent(out),
            50..=58 => self.say_of_picture(out),
            60 => write!(out, "that record does not lie wholly inside the lump"),
            61 => write!(
                out,
                "that record holds what its game has no room for: a Doom thing has no id, height, action or arguments, a Doom linedef \
                 no arguments, and a Hexen linedef no tag and no special above 255"
            ),
            70..=74 => self.say_of_order(out),
            75 => write!(out, "the list is too short for the differing records: it has one word for each of them"),
            76 => write!(out, "one map is Doom's and the other Hexen's: only two maps of one game can be compared"),
            80 => write!(out, "the count of sectors is not one that a map can have: a map has 1 to 65,535"),
            81 => write!(out, "more bytes came than any SIDEDEFS may have: at most 16,777,216 may come"),
            82..=84 | 86 => self.say_of_index(out),
            85 => write!(
                out,
                "the output is too short for the reason: a field has 16 bytes, and a list of choices one for each, at most as many \
                 as there are nodes"
            ),
            90..=94 => self.say_of_text(out),
            number => write!(out, "refused with number {number}"),
        }
    }
}

impl Error for Refusal {}
