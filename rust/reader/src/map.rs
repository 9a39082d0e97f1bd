//! The map check: the marker's run of lumps, their sizes, and then everything inside them.

use crate::wad::{self, entries, find_marker, Directory, Entry};
use crate::{blockmap, graph, reference, Refusal};
use std::ops::RangeInclusive;

/// A map that passed every check.
#[derive(Clone, Copy, Debug, PartialEq, Eq)]
pub struct Accepted {
    /// The largest number of nodes on a route from the root to a subsector.
    pub depth: usize,
    /// The entry number of the map's marker.
    pub marker: usize,
}

/// A row of the table of map lumps.
struct Row {
    name: &'static [u8],
    /// The records' rule; `None` for REJECT and BLOCKMAP.
    records: Option<Records>,
}

/// Bytes of a record, in Doom and in Hexen, with the least and the largest count.
struct Records {
    sizes: [usize; 2],
    counts: RangeInclusive<usize>,
}

impl Records {
    fn size(&self, hexen: bool) -> usize {
        self.sizes[usize::from(hexen)]
    }
}

const fn row(name: &'static [u8], sizes: [usize; 2], counts: RangeInclusive<usize>) -> Row {
    Row { name, records: Some(Records { sizes, counts }) }
}

/// Places 1 to 10.
const TABLE: [Row; 10] = [
    row(b"THINGS", [10, 20], 0..=65_535),
    row(b"LINEDEFS", [14, 16], 1..=65_535),
    row(b"SIDEDEFS", [30; 2], 1..=65_535),
    row(b"VERTEXES", [4; 2], 1..=65_535),
    row(b"SEGS", [12; 2], 1..=65_535),
    row(b"SSECTORS", [4; 2], 1..=32_767),
    row(b"NODES", [28; 2], 0..=32_767),
    row(b"SECTORS", [26; 2], 1..=65_535),
    Row { name: b"REJECT", records: None },
    Row { name: b"BLOCKMAP", records: None },
];

/// The lump behind the ten that makes a Hexen map.
const BEHAVIOR: &[u8] = b"BEHAVIOR";
/// How far it stands behind the marker.
const BEHAVIOR_PLACE: usize = 11;

/// The ten lumps of a map, in place order.
pub(crate) struct Lumps<'a> {
    parts: [&'a [u8]; 10],
    /// Whether they are Hexen's.
    pub(crate) hexen: bool,
}

impl<'a> Lumps<'a> {
    /// The lump at `place`, 1 to 10.
    pub(crate) fn at(&self, place: usize) -> &'a [u8] {
        self.parts[place - 1]
    }

    /// How many records the lump at `place`, 1 to 8, has.
    pub(crate) fn count(&self, place: usize) -> usize {
        TABLE[place - 1].records.as_ref().map_or(0, |records| self.at(place).len() / records.size(self.hexen))
    }

    /// The bytes of each record of the lump at `place`, 1 to 8, in turn.
    pub(crate) fn records(&self, place: usize) -> impl Iterator<Item = &'a [u8]> {
        let size = TABLE[place - 1].records.as_ref().map_or(1, |records| records.size(self.hexen));
        self.at(place).chunks_exact(size)
    }
}

/// Judges the last map called `name`, of either game: refusals 1 to 6, 10 to 12 and 20 to 32.
///
/// `words` must be at least four for each node. A refusal below 31 leaves them as found; 31, 32
/// and acceptance leave the first four for each node zero and the later ones as found.
pub fn judge_map(wad: &[u8], name: &[u8], words: &mut [u16]) -> Result<Accepted, Refusal> {
    let (directory, marker) = find_marker(wad, name)?;
    judge_run(wad, directory, marker, words)
}

/// Judges the map whose marker is entry `marker` of a good directory: refusals 12 and 20 to 32.
pub(crate) fn judge_run(wad: &[u8], directory: Directory, marker: usize, words: &mut [u16]) -> Result<Accepted, Refusal> {
    let lumps = run_of(wad, directory, marker)?;
    Ok(Accepted { depth: judge_lumps(&lumps, words)?, marker })
}

/// Judges the ten lumps of a map and answers the depth: refusals 20 to 32.
pub(crate) fn judge_lumps(lumps: &Lumps, words: &mut [u16]) -> Result<usize, Refusal> {
    judge_sizes(lumps)?;
    if lumps.at(9).len() != reject_size(lumps.count(8)) {
        return Err(Refusal::new(22, 9, 0));
    }
    reference::judge(lumps)?;
    blockmap::judge(lumps.at(10), lumps.count(2))?;
    let wanted = 4 * lumps.count(7);
    if words.len() < wanted {
        return Err(Refusal::new(30, 7, 0));
    }
    words[..wanted].fill(0);
    graph::judge(lumps.at(7))
}

/// Bytes of REJECT for a number of sectors: their square in bits, rounded up to whole bytes.
pub fn reject_size(sectors: usize) -> usize {
    (sectors * sectors).div_ceil(8)
}

/// Whether the map whose marker is entry `marker` is Hexen's: refusals 1 to 7. Nothing else is asked of the entry.
pub fn map_game(wad: &[u8], marker: usize) -> Result<bool, Refusal> {
    let directory = wad::directory(wad)?;
    if marker < directory.count {
        Ok(is_hexen(wad, directory, marker))
    } else {
        Err(Refusal::plain(7))
    }
}

/// Whether the eleventh entry after the marker is there and is BEHAVIOR.
fn is_hexen(wad: &[u8], directory: Directory, marker: usize) -> bool {
    entries(wad, directory).nth(marker + BEHAVIOR_PLACE).is_some_and(|entry| entry.name == BEHAVIOR)
}

/// The ten lumps of the map called `name`, and its marker: refusals 1 to 6 and 10 to 12.
pub(crate) fn lumps_of<'a>(wad: &'a [u8], name: &[u8]) -> Result<(Lumps<'a>, usize), Refusal> {
    let (directory, marker) = find_marker(wad, name)?;
    Ok((run_of(wad, directory, marker)?, marker))
}

/// The ten lumps after the marker: refusal 12.
pub(crate) fn run_of(wad: &[u8], directory: Directory, marker: usize) -> Result<Lumps<'_>, Refusal> {
    let run: Vec<Entry> = entries(wad, directory).skip(marker).take(11).collect();
    if run[0].size != 0 {
        return Err(Refusal::new(12, 0, 0));
    }
    for place in 1..=10 {
        if run.get(place).map(|entry| entry.name) != Some(TABLE[place - 1].name) {
            return Err(Refusal::new(12, place, 0));
        }
    }
    let parts = std::array::from_fn(|index| run[index + 1].lump(wad));
    Ok(Lumps { parts, hexen: is_hexen(wad, directory, marker) })
}

/// Whole records, and as many as the table allows, lump by lump: refusals 20 and 21.
fn judge_sizes(lumps: &Lumps) -> Result<(), Refusal> {
    for place in 1..=8 {
        judge_size(lumps.at(place), place, lumps.hexen)?;
        if place == 7 && lumps.count(7) == 0 && lumps.count(6) != 1 {
            return Err(Refusal::new(21, 7, 0));
        }
    }
    Ok(())
}

/// The same of the lump at one place, as far as it stands by itself.
pub(crate) fn judge_size(lump: &[u8], place: usize, hexen: bool) -> Result<(), Refusal> {
    let Some(records) = &TABLE[place - 1].records else { return Ok(()) };
    let size = records.size(hexen);
    if !lump.len().is_multiple_of(size) {
        return Err(Refusal::new(20, place, 0));
    }
    if !records.counts.contains(&(lump.len() / size)) {
        return Err(Refusal::new(21, place, 0));
    }
    Ok(())
}
