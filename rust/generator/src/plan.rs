//! A WAD file from its parts, each of which can be given a wrong value.

use crate::{MapSpec, Rng};
use std::collections::HashMap;

/// The name of the map in every file made for a benchmark or a limit.
pub const MAP_NAME: [u8; 8] = *b"MAP01\0\0\0";

/// Names of the ten lumps at places 1 to 10.
pub const LUMP_NAMES: [[u8; 8]; 10] = [
    *b"THINGS\0\0", *b"LINEDEFS", *b"SIDEDEFS", *b"VERTEXES", *b"SEGS\0\0\0\0", *b"SSECTORS", *b"NODES\0\0\0", *b"SECTORS\0",
    *b"REJECT\0\0", *b"BLOCKMAP",
];

/// The lump that follows the ten of a Hexen map.
pub const BEHAVIOR: [u8; 8] = *b"BEHAVIOR";

/// What it holds at least: its mark, and where it counts its scripts and its strings, none of either.
const NO_SCRIPTS: &[u8; 16] = b"ACS\0\x08\0\0\0\0\0\0\0\0\0\0\0";

/// A file with one map in it, and the questions' parameters.
#[derive(Clone, Debug)]
pub struct Plan {
    /// The header's mark.
    pub mark: [u8; 4],
    /// The header's count, if it is not to be the right one.
    pub count: Option<i32>,
    /// The header's start of the directory, if it is not to be the right one.
    pub start: Option<i32>,
    /// The file is cut, or filled with zeros, to this length.
    pub length: Option<usize>,
    /// Whether the directory stands before the lumps.
    pub directory_first: bool,
    /// Whether lumps of the same bytes are stored once.
    pub overlap: bool,
    /// The directory.
    pub entries: Vec<EntryPlan>,
    /// The marker's entry number, as planned.
    pub marker: usize,
    /// The map's lumps.
    pub map: MapSpec,
    /// The name to ask for.
    pub name: Vec<u8>,
    /// Work words lent beyond four for each node, or too few.
    pub spare_words: isize,
    /// What the first work word holds at first.
    pub fill: u16,
    /// By how much each further word is larger.
    pub step: u16,
}

/// An entry of the directory.
#[derive(Clone, Debug)]
pub struct EntryPlan {
    /// Its name.
    pub name: [u8; 8],
    /// What its lump holds.
    pub content: Content,
    /// Bytes added to the lump's end.
    pub padding: Vec<u8>,
    /// The offset, if it is not to be the right one.
    pub offset: Option<i32>,
    /// The size, if it is not to be the right one.
    pub size: Option<i32>,
}

/// The bytes of a lump.
#[derive(Clone, Debug)]
pub enum Content {
    /// These.
    Bytes(Vec<u8>),
    /// The map's lump at this place.
    Place(usize),
}

impl EntryPlan {
    /// An entry with these bytes.
    pub fn new(name: [u8; 8], content: Content) -> Self {
        Self { name, content, padding: Vec::new(), offset: None, size: None }
    }

    /// An entry of size 0.
    pub fn empty(name: [u8; 8]) -> Self {
        Self::new(name, Content::Bytes(Vec::new()))
    }
}

impl Plan {
    /// A file that holds a map called `name` and nothing else.
    pub fn new(map: MapSpec, name: [u8; 8]) -> Self {
        let mut entries = vec![EntryPlan::empty(name)];
        for (place, name) in (1..).zip(LUMP_NAMES) {
            entries.push(EntryPlan::new(name, Content::Place(place)));
        }
        if map.hexen {
            entries.push(EntryPlan::new(BEHAVIOR, Content::Bytes(NO_SCRIPTS.to_vec())));
        }
        Self {
            mark: *b"PWAD",
            count: None,
            start: None,
            length: None,
            directory_first: false,
            overlap: false,
            entries,
            marker: 0,
            map,
            name: name.to_vec(),
            spare_words: 0,
            fill: 0,
            step: 0,
        }
    }

    /// The file with just `map`, called [`MAP_NAME`].
    pub fn wad_of(map: MapSpec) -> Vec<u8> {
        Self::new(map, MAP_NAME).wad()
    }

    /// Puts entries around the map: other lumps, an earlier and worse map of the same name; and now and then rubbish behind all names.
    pub fn surround(&mut self, rng: &mut Rng) {
        let marker_name = self.entries[self.marker].name;
        let mut before = Vec::new();
        for _ in 0..rng.between(1, 3) {
            before.push(if rng.once_in(4) { EntryPlan::empty(marker_name) } else { other(rng) });
        }
        before.push(other(rng));
        self.marker += before.len();
        self.entries.splice(0..0, before);
        for _ in 0..rng.below(3) {
            self.entries.push(other(rng));
        }
        (self.directory_first, self.overlap) = (rng.once_in(2), rng.once_in(3));
        (self.mark, self.fill) = (rng.pick(&[*b"IWAD", *b"PWAD"]), rng.pick(&[0, 1, 0xA5A5, 0xFFFF]));
        (self.spare_words, self.step) = (rng.pick(&[0, 0, 1, 3, 7]), rng.pick(&[0, 1, 0x1003]));
        if rng.once_in(4) {
            self.litter(rng);
        }
    }

    /// The entry at `place` of the map.
    pub fn entry_at(&mut self, place: usize) -> &mut EntryPlan {
        &mut self.entries[self.marker + place]
    }

    /// The work words to lend.
    pub fn words(&self) -> Vec<u16> {
        let count = 4 * self.map.nodes.len() as isize + self.spare_words;
        let word = |at: isize| self.fill.wrapping_add(self.step.wrapping_mul(at as u16));
        (0..count).map(word).collect()
    }

    /// The file.
    pub fn wad(&self) -> Vec<u8> {
        let directory_size = 16 * self.entries.len();
        let first = if self.directory_first { 12 + directory_size } else { 12 };
        let (mut data, mut directory) = (Vec::new(), Vec::new());
        let mut known = HashMap::new();
        for entry in &self.entries {
            let lump = self.lump(entry);
            let size = entry.size.unwrap_or(lump.len() as i32);
            let place = first + data.len();
            let same = known.get(&lump).copied().filter(|_| self.overlap);
            let offset = entry.offset.unwrap_or(same.unwrap_or(place) as i32);
            directory.extend([offset.to_le_bytes(), size.to_le_bytes()].concat());
            directory.extend(entry.name);
            if same.is_none() {
                data.extend(&lump);
                if self.overlap {
                    known.insert(lump, place);
                }
            }
        }
        self.join(data, directory)
    }

    fn lump(&self, entry: &EntryPlan) -> Vec<u8> {
        let mut lump = match &entry.content {
            Content::Bytes(bytes) => bytes.clone(),
            Content::Place(place) => self.map.lump(*place),
        };
        lump.extend(&entry.padding);
        lump
    }

    fn join(&self, data: Vec<u8>, directory: Vec<u8>) -> Vec<u8> {
        let start = if self.directory_first { 12 } else { 12 + data.len() as i32 };
        let count = self.count.unwrap_or(self.entries.len() as i32).to_le_bytes();
        let start = self.start.unwrap_or(start).to_le_bytes();
        let (first, last) = if self.directory_first { (directory, data) } else { (data, directory) };
        let mut wad = [&self.mark[..], &count, &start, &first, &last].concat();
        wad.resize(self.length.unwrap_or(wad.len()), 0);
        wad
    }
}

/// An entry that has nothing to do with a map.
fn other(rng: &mut Rng) -> EntryPlan {
    let name = rng.pick(&[b"PLAYPAL\0", b"DEMO1\0\0\0", b"THINGS\0\0", b"A\\B[C]-_", b"F_START\0"]);
    let size = rng.pick(&[0, 0, 1, 5, 30]);
    let mut entry = EntryPlan::new(*name, Content::Bytes(rng.bytes(size)));
    if size == 0 {
        entry.offset = Some(rng.pick(&[0, -1, 12, i32::MIN, i32::MAX]));
    }
    entry
}
