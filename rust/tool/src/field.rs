//! The fields that a refusal of 23 to 28 can name, in one table for both games. docs/TOOL.md has the same table.

use meshpigeon::Refusal;

/// BLOCKMAP's header in bytes, and where its columns and rows stand.
const HEADER: u32 = 8;
const COLUMNS: u32 = 4;
const ROWS: u32 = 6;

/// Where a field stands, in bytes from its record's start; of BLOCKMAP, from the lump's.
#[derive(Clone, Copy)]
enum Place {
    /// There in both games.
    At(u32),
    /// There in Doom, and there in Hexen.
    In(u32, u32),
    /// At the cell's own place among the offsets.
    Cell,
    /// Where the cell's offset leads.
    List,
    /// Anywhere behind that.
    Listed,
}

/// A row of the table.
struct Named {
    /// The refusal.
    number: u32,
    place: Place,
    /// What JSON calls it.
    name: &'static str,
}

const fn row(number: u32, place: Place, name: &'static str) -> Named {
    Named { number, place, name }
}

/// All fields, by refusal and in the order in which they are looked at.
static FIELDS: [Named; 19] = [
    row(23, Place::At(0), "start"),
    row(23, Place::At(2), "end"),
    row(23, Place::In(10, 12), "right"),
    row(23, Place::In(12, 14), "left"),
    row(24, Place::At(28), "sector"),
    row(25, Place::At(0), "start"),
    row(25, Place::At(2), "end"),
    row(25, Place::At(6), "linedef"),
    row(25, Place::At(8), "direction"),
    row(26, Place::At(0), "number"),
    row(26, Place::At(2), "first"),
    row(27, Place::At(24), "right"),
    row(27, Place::At(26), "left"),
    row(28, Place::At(0), "size"),
    row(28, Place::At(COLUMNS), "columns"),
    row(28, Place::At(ROWS), "rows"),
    row(28, Place::Cell, "offset"),
    row(28, Place::List, "zero"),
    row(28, Place::Listed, "linedef"),
];

/// The name of the field at an offset of the record, header or cell that was refused. Of the map's bytes only BLOCKMAP is looked into.
pub fn name_of(refusal: Refusal, offset: u32, hexen: bool, blockmap: &[u8]) -> Option<&'static str> {
    let is_at = |place: Place| match place {
        Place::At(there) => offset == there,
        Place::In(doom, hexens) => offset == if hexen { hexens } else { doom },
        Place::Cell => offset == cell(refusal),
        Place::List => offset == 2 * word(blockmap, cell(refusal)),
        Place::Listed => true,
    };
    FIELDS.iter().find(|row| row.number == refusal.number && is_at(row.place)).map(|row| row.name)
}

/// What BLOCKMAP's size cuts off, in the order in which that is looked at.
#[derive(Clone, Copy, Debug, PartialEq, Eq)]
pub enum Cut {
    /// Its header.
    Header,
    /// The offsets of its cells.
    Offsets,
    /// Its last word.
    Word,
    /// The list of the cell that was refused.
    List,
}

impl Cut {
    /// Where a BLOCKMAP of a wrong size ends.
    pub fn of(blockmap: &[u8]) -> Self {
        let (size, cells) = (blockmap.len(), word(blockmap, COLUMNS) as usize * word(blockmap, ROWS) as usize);
        match () {
            () if size < HEADER as usize => Self::Header,
            () if size < HEADER as usize + 2 * cells => Self::Offsets,
            () if size % 2 == 1 => Self::Word,
            () => Self::List,
        }
    }
}

/// Whether a field of BLOCKMAP is no cell's.
pub fn is_of_header(name: &str, blockmap: &[u8]) -> bool {
    matches!(name, "columns" | "rows") || (name == "size" && Cut::of(blockmap) != Cut::List)
}

/// Where the cell's offset stands.
fn cell(refusal: Refusal) -> u32 {
    HEADER + 2 * refusal.record as u32
}

/// A word of BLOCKMAP, 0 past its end.
fn word(blockmap: &[u8], at: u32) -> u32 {
    let bytes = blockmap.get(at as usize..).and_then(|rest| rest.first_chunk().copied());
    u32::from(u16::from_le_bytes(bytes.unwrap_or_default()))
}
