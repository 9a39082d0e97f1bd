//! Safe bindings to Meshpigeon, a fully proved judge of Doom and Hexen map files.
//!
//! Every function takes any bytes at all and answers, or gives the one [`Refusal`] that the table of refusals names.
//!
//! ```
//! let wad = [*b"PWAD", [0; 4], [12, 0, 0, 0]].concat();
//! assert_eq!(meshpigeon::directory(&wad).unwrap().count, 0);
//! let refusal = meshpigeon::judge_map(&wad, b"MAP01\0\0\0").unwrap_err();
//! assert_eq!(refusal.number, 11);
//! assert_eq!(refusal.to_string(), "the file has no map of that name");
//! ```
#![deny(missing_docs)]

mod differences;
mod game;
mod index;
mod pair;
mod raw;
mod record;
mod refusal;
mod renumber;
mod sidedefs;
pub mod text;
mod why;

pub use differences::{differences, differences_with, DifferenceFile, DifferenceRefusal, Differences};
pub use game::{Linedef, Thing};
pub use index::{index_build, index_build_with, index_check, index_find, IndexRecord, IndexSearch};
pub use pair::{pair_find, pair_judge_map, pair_judge_map_with, pair_lump, PairEntry, PairFile, PairLump, PairMap, PairRefusal};
pub use record::{Node, Sector, Seg, Sidedef, Subsector, Vertex};
pub use refusal::Refusal;
pub use renumber::{renumber, renumber_with};
pub use sidedefs::Sidedefs;
pub use why::{why, why_with, Choice, Explained, Field, Reason};

/// As many work words as any map needs: four for each of 32,767 nodes.
pub const MOST_WORDS: usize = 4 * 32_767;

/// As many bytes as any reason needs: a choice at each of 32,767 nodes.
pub const MOST_REASON: usize = 32_767;

/// As many bytes as any renumbered NODES has: those of 32,766 nodes, since an accepted map reaches one subsector more than nodes.
pub const MOST_RENUMBERED: usize = Node::SIZE * 32_766;

/// As many words as any list of differing records needs: six lumps of 65,535 records and two of 32,767.
pub const MOST_DIFFERENCES: usize = 6 * 65_535 + 2 * 32_767;

/// As many records as the building of any index needs: one for each of 4,096 entries.
pub const MOST_INDEXED: usize = 4_096;

/// As many bytes as any index has: a header of 11, and 10 for each of 4,096 entries.
pub const MOST_INDEX: usize = 11 + 10 * MOST_INDEXED;

/// As many words as any draw order needs: one more than 32,767 nodes.
pub const MOST_DRAWN: usize = 32_767 + 1;

/// As many bytes as any written picture needs: a header, and 320 columns with an offset, an end byte, and a hundred posts over two hundred rows.
pub const MOST_WRITTEN: usize = 8 + 320 * (4 + 1 + 100 * 4 + 101);

/// A file's directory.
#[derive(Clone, Copy, Debug, PartialEq, Eq)]
pub struct Directory {
    /// How many lumps the file has.
    pub count: usize,
    /// Where the directory starts.
    pub start: usize,
}

/// What the search for a map's marker answers.
#[derive(Clone, Copy, Debug, PartialEq, Eq)]
pub struct Search {
    /// The marker's entry number, or the refusal: 1 to 6, 10, 11.
    pub marker: Result<usize, Refusal>,
    /// How many names were compared: the count of entries less the marker's number, or with 11 the whole count. With any other
    /// refusal nothing was compared, and it is 0.
    pub compared: usize,
}

/// An accepted map.
#[derive(Clone, Copy, Debug, PartialEq, Eq)]
pub struct Accepted {
    /// The largest number of nodes on a route.
    pub depth: usize,
    /// The marker's entry number.
    pub marker: usize,
}

/// Where a descent ends.
#[derive(Clone, Copy, Debug, PartialEq, Eq)]
pub struct Found {
    /// The subsector.
    pub subsector: usize,
    /// How many nodes were passed.
    pub count: usize,
}

/// A picture's header.
#[repr(C)]
#[derive(Clone, Copy, Debug, PartialEq, Eq)]
pub struct Picture {
    /// Pixels across.
    pub width: usize,
    /// Pixels down.
    pub height: usize,
    /// Left offset.
    pub left: i16,
    /// Top offset.
    pub top: i16,
}

/// Judges a file's header and directory: 1 to 6.
pub fn directory(wad: &[u8]) -> Result<Directory, Refusal> {
    raw::directory(wad).map(|answer| Directory { count: answer.count, start: answer.start })
}

/// Where an entry's part of the file lies, and its size: 1 to 7.
pub fn entry(wad: &[u8], number: usize) -> Result<(usize, usize), Refusal> {
    raw::entry(wad, number).map(|answer| (answer.offset, answer.size))
}

/// An entry's part of the file itself: 1 to 7.
pub fn lump(wad: &[u8], number: usize) -> Result<&[u8], Refusal> {
    entry(wad, number).map(|(offset, size)| &wad[offset..offset + size])
}

/// The entry number of a map's marker, by its name in eight bytes: 1 to 6, 10, 11. The search goes from the last entry down and stops
/// at the first of the name.
///
/// A name is what precedes its first zero, here and in the directory: bytes behind that do not count.
///
/// ```
/// # let entry = |name: &[u8; 8]| [&[0; 8][..], name].concat();
/// let names = [b"DEMO1\0\0\0", b"MAP01\0AP", b"THINGS\0P"];
/// # let directory: Vec<u8> = names.into_iter().flat_map(entry).collect();
/// # let wad = [&b"PWAD\x03\0\0\0\x0C\0\0\0"[..], &directory].concat();
/// let search = meshpigeon::find_map(&wad, b"MAP01\0\0\0");
/// assert_eq!((search.marker, search.compared), (Ok(1), 2));
///
/// let search = meshpigeon::find_map(&wad, b"MAP02\0\0\0");
/// assert_eq!((search.marker.unwrap_err().number, search.compared), (11, 3));
/// ```
pub fn find_map(wad: &[u8], name: &[u8]) -> Search {
    raw::find_map(wad, name)
}

/// Whether the map whose marker is that entry is Hexen's: 1 to 7. It is exactly if the eleventh entry after the marker is called
/// BEHAVIOR; nothing else is asked of any entry.
///
/// ```
/// # let entry = |name: &[u8; 8]| [&[0; 8][..], name].concat();
/// let mut names = [b"BLOCKMAP"; 12];
/// names[11] = b"BEHAVIOR";
/// # let directory: Vec<u8> = names.into_iter().flat_map(entry).collect();
/// # let wad = [&b"PWAD\x0C\0\0\0\x0C\0\0\0"[..], &directory].concat();
/// assert_eq!(meshpigeon::map_game(&wad, 0), Ok(true));
/// assert_eq!(meshpigeon::map_game(&wad, 1), Ok(false));
/// assert_eq!(meshpigeon::map_game(&wad, 12).unwrap_err().number, 7);
/// ```
pub fn map_game(wad: &[u8], marker: usize) -> Result<bool, Refusal> {
    raw::map_game(wad, marker).map(|answer| answer.hexen)
}

/// Judges one map of either game, with work words of its own.
pub fn judge_map(wad: &[u8], name: &[u8]) -> Result<Accepted, Refusal> {
    judge_map_with(wad, name, &mut vec![0; MOST_WORDS])
}

/// Judges one map of either game over lent work words, four for each node. A refusal below 31 leaves them as found; 31, 32 and acceptance leave
/// the first four for each node zero and the others as found.
pub fn judge_map_with(wad: &[u8], name: &[u8], words: &mut [u16]) -> Result<Accepted, Refusal> {
    raw::judge_map(wad, name, words).map(|answer| Accepted { depth: answer.depth, marker: answer.marker })
}

/// The subsector of a point, over any NODES bytes and any count of subsectors: 40 to 43.
pub fn descend(nodes: &[u8], subsectors: usize, x: i16, y: i16) -> Result<Found, Refusal> {
    raw::descend(nodes, subsectors, x, y).map(|answer| Found { subsector: answer.subsector, count: answer.count })
}

/// The subsectors that a point sees, front first, over any NODES bytes and any count of subsectors: 40 to 42, 44, 46. At each node the
/// subsectors of the child on the point's side come before those of the other.
///
/// ```
/// use meshpigeon::Node;
///
/// // Two lines northward, at 20 and, the root, at 10: subsectors 0, 1 and 2 from west to east.
/// let mut nodes = [0; 2 * Node::SIZE];
/// Node { x: 20, dy: 64, right: 0x8002, left: 0x8001, ..Node::default() }.write(&mut nodes, 0).unwrap();
/// Node { x: 10, dy: 64, right: 0, left: 0x8000, ..Node::default() }.write(&mut nodes, 1).unwrap();
/// assert_eq!(meshpigeon::draw_order(&nodes, 3, 15, 0), Ok(vec![1, 2, 0]));
/// assert_eq!(meshpigeon::draw_order(&nodes, 3, 5, 0), Ok(vec![0, 1, 2]));
///
/// // Lent words hold the list, and what they held behind it.
/// let mut words = [7; 4];
/// assert_eq!(meshpigeon::draw_order_with(&nodes, 3, 30, 0, &mut words), Ok(3));
/// assert_eq!(words, [2, 1, 0, 7]);
/// assert_eq!(meshpigeon::draw_order_with(&nodes, 3, 30, 0, &mut words[..2]).unwrap_err().number, 45);
/// ```
pub fn draw_order(nodes: &[u8], subsectors: usize, x: i16, y: i16) -> Result<Vec<u16>, Refusal> {
    let mut words = vec![0; MOST_DRAWN.min(nodes.len() / Node::SIZE + 1)];
    let count = draw_order_with(nodes, subsectors, x, y, &mut words)?;
    words.truncate(count);
    Ok(words)
}

/// The same over lent words, one more than the nodes, and answers how many were written: 40 to 42, 44 to 46. 40, 41 and 45 leave all
/// words as found; 42, 44 and 46 leave one more than the nodes zero. All words behind the list, or behind those, stay as found.
pub fn draw_order_with(nodes: &[u8], subsectors: usize, x: i16, y: i16, words: &mut [u16]) -> Result<usize, Refusal> {
    raw::draw_order(nodes, subsectors, x, y, words).map(|answer| answer.count)
}

/// Judges a picture: 50 to 54.
pub fn judge_picture(lump: &[u8]) -> Result<Picture, Refusal> {
    raw::judge_picture(lump).map(|answer| answer.picture)
}

/// Paints a picture row by row from the top into the first width × height bytes of both buffers: 50 to 55. A refusal writes nothing.
pub fn paint_picture(lump: &[u8], colour: &mut [u8], cover: &mut [u8]) -> Result<Picture, Refusal> {
    raw::paint_picture(lump, colour, cover).map(|answer| answer.picture)
}

/// A picture lump from its pixels, row by row from the top; those with 1 in `cover` are painted, those with 0 are not: 55 to 57.
///
/// Each unbroken covered run of a column is one post. Painted again, the lump gives the cover back, and the colour wherever it is covered.
///
/// ```
/// use meshpigeon::Picture;
///
/// // Two columns of three rows: a pixel of colour 7 over a hole and one of colour 9, and nothing.
/// let picture = Picture { width: 2, height: 3, left: -1, top: 5 };
/// let (colour, cover) = ([7, 0, 0, 0, 9, 0], [1, 0, 0, 0, 1, 0]);
/// let lump = meshpigeon::write_picture(picture, &colour, &cover).unwrap();
/// assert_eq!(lump[16..], [0, 1, 0, 7, 0, 2, 1, 0, 9, 0, 255, 255]);
///
/// let (mut painted, mut covered) = ([1; 6], [1; 6]);
/// assert_eq!(meshpigeon::paint_picture(&lump, &mut painted, &mut covered), Ok(picture));
/// assert_eq!((painted, covered), (colour, cover));
///
/// // A lent output holds the lump, and what it held behind it.
/// let mut out = [3; 30];
/// assert_eq!(meshpigeon::write_picture_with(picture, &colour, &cover, &mut out), Ok(28));
/// assert_eq!((&out[..28], &out[28..]), (&lump[..], &[3, 3][..]));
/// assert_eq!(meshpigeon::write_picture_with(picture, &colour, &cover, &mut out[..27]).unwrap_err().number, 58);
/// ```
pub fn write_picture(picture: Picture, colour: &[u8], cover: &[u8]) -> Result<Vec<u8>, Refusal> {
    let mut out = vec![0; MOST_WRITTEN];
    let length = write_picture_with(picture, colour, cover, &mut out)?;
    out.truncate(length);
    Ok(out)
}

/// The same into a lent output, and answers how many bytes were written: 55 to 58 in this order. The bytes behind the lump stay as found;
/// a refusal writes nothing.
pub fn write_picture_with(picture: Picture, colour: &[u8], cover: &[u8], out: &mut [u8]) -> Result<usize, Refusal> {
    raw::write_picture(picture, colour, cover, out).map(|answer| answer.length)
}
