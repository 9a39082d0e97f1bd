//! A file whose directory the library accepted, and the entries in it.

use crate::about::About;
use crate::file_finding::FileFinding;
use crate::input::{self, Digest, Fault};
use crate::name;
use crate::report::Report;
use crate::verdict::{Game, LUMPS_ARE_THERE};
use meshpigeon::{Directory, Node, Refusal, Subsector};
use std::ffi::OsStr;
use std::ops::Range;

/// The smallest good file: a header, and no entry.
const EMPTY: &[u8; 12] = b"PWAD\0\0\0\0\x0C\0\0\0";

/// Where a file's header has its count of lumps.
const COUNT: usize = 4;

/// The lump that makes a map a text map, where it follows the marker.
const TEXTMAP: &[u8] = b"TEXTMAP";

/// Bytes of an entry, and where its parts begin.
const ENTRY: usize = 16;
const OFFSET: usize = 0;
const SIZE: usize = 4;
const NAME: usize = 8;

/// A file with a good directory.
pub struct Wad {
    bytes: Vec<u8>,
    directory: Directory,
}

/// An entry of a good directory, as the library answers it.
pub struct Entry<'a> {
    /// Its name: what precedes the first zero of eight bytes.
    pub name: &'a [u8],
    /// Where its part of the file lies; 0 where its size is 0.
    pub offset: usize,
    /// Its size in bytes.
    pub size: usize,
}

impl<'a> Entry<'a> {
    /// Takes sixteen bytes of a directory apart. In a good one no number that counts is negative.
    fn of(bytes: &'a [u8]) -> Self {
        let size = number_at(bytes, SIZE);
        let offset = if size == 0 { 0 } else { number_at(bytes, OFFSET) };
        Self { name: name::cut(&bytes[NAME..]), offset, size }
    }
}

/// The four bytes from `at` on, the lowest first.
fn number_at(bytes: &[u8], at: usize) -> usize {
    bytes[at..][..4].iter().rev().fold(0, |number, &byte| number << 8 | usize::from(byte))
}

impl Wad {
    /// Reads a file and has its directory judged.
    pub fn open(file: &OsStr) -> Result<Self, Fault> {
        Self::of(input::read(file)?).map_err(|(_, fault)| fault)
    }

    /// Has the directory of some bytes judged. Refused bytes are given back.
    pub fn of(bytes: Vec<u8>) -> Result<Self, (Vec<u8>, Fault)> {
        match meshpigeon::directory(&bytes) {
            Ok(directory) => Ok(Self { bytes, directory }),
            Err(refusal) => {
                let fault = Fault::Refused(refusal, FileFinding::of(refusal, &bytes), Digest::of(&bytes));
                Err((bytes, fault))
            }
        }
    }

    /// The whole file, given back.
    pub fn into_bytes(self) -> Vec<u8> {
        self.bytes
    }

    /// A file of these lumps, one behind the other, and its directory behind them.
    pub fn bytes_of(names: &[[u8; 8]], lumps: &[Vec<u8>]) -> Vec<u8> {
        let (mut data, mut directory) = (Vec::new(), Vec::new());
        for (name, lump) in names.iter().zip(lumps) {
            let offset = EMPTY.len() + data.len();
            directory.extend([offset, lump.len()].map(|number| (number as u32).to_le_bytes()).concat());
            directory.extend(name);
            data.extend(lump);
        }
        let start = EMPTY.len() + data.len();
        let numbers = [names.len(), start].map(|number| (number as u32).to_le_bytes()).concat();
        [&EMPTY[..COUNT], &numbers, &data, &directory].concat()
    }

    /// The file by its name, with its bytes where the report shows them.
    pub fn about(&self, file: &OsStr, report: &Report) -> About {
        if report.is_json() {
            About::of(file, self.digest())
        } else {
            About::unread(file)
        }
    }

    /// Length and checksum of the whole file.
    pub fn digest(&self) -> Digest {
        Digest::of(&self.bytes)
    }

    /// The whole file.
    pub fn bytes(&self) -> &[u8] {
        &self.bytes
    }

    /// All entries in turn. The directory was judged when the file was opened, and is not judged again for each of them.
    pub fn entries(&self) -> impl DoubleEndedIterator<Item = Entry<'_>> + ExactSizeIterator {
        let entries = &self.bytes[self.directory.start..][..ENTRY * self.directory.count];
        entries.chunks_exact(ENTRY).map(Entry::of)
    }

    /// The names of all entries in turn.
    fn names(&self) -> impl DoubleEndedIterator<Item = &[u8]> + ExactSizeIterator {
        self.entries().map(|entry| entry.name)
    }

    /// The last entry of a name.
    pub fn last(&self, name: &[u8]) -> Option<usize> {
        self.names().rposition(|it| it == name::cut(name))
    }

    /// An entry's bytes; none for a number past the last.
    pub fn lump(&self, number: usize) -> &[u8] {
        meshpigeon::lump(&self.bytes, number).unwrap_or_default()
    }

    /// The file with another lump for an entry, no longer than its own; every other entry, and every byte of the other lumps, stays. The
    /// lump takes the place of the old one, and bytes that it leaves there become zero. Where another lump or the directory has some of
    /// these bytes too, it comes behind the end of the file.
    pub fn with_lump(&self, number: usize, lump: &[u8]) -> Result<Vec<u8>, &'static str> {
        let mut bytes = self.bytes.clone();
        if lump == self.lump(number) {
            return Ok(bytes);
        }
        let entry = self.directory.start + ENTRY * number;
        if self.is_shared(number, entry..entry + NAME) {
            return Err("a lump has bytes of the directory that must change with NODES");
        }
        let old = self.part(number);
        let is_alone = !self.is_shared(number, old.clone()) && !overlap(&old, &self.directory_part());
        let offset = if is_alone { old.start } else { bytes.len() };
        bytes.resize(bytes.len().max(offset + lump.len()), 0);
        if bytes.len() as u64 > input::MOST_BYTES {
            return Err(
                "NODES shares bytes with another lump, and the file has no room at its end: it has at most 16,777,216 bytes",
            );
        }
        if is_alone {
            bytes[old].fill(0);
        }
        bytes[offset..offset + lump.len()].copy_from_slice(lump);
        bytes[entry + OFFSET..][..4].copy_from_slice(&(offset as u32).to_le_bytes());
        bytes[entry + SIZE..][..4].copy_from_slice(&(lump.len() as u32).to_le_bytes());
        Ok(bytes)
    }

    /// Where an entry's lump lies.
    fn part(&self, number: usize) -> Range<usize> {
        self.entries().nth(number).map_or(0..0, |entry| entry.offset..entry.offset + entry.size)
    }

    /// Where the directory lies.
    fn directory_part(&self) -> Range<usize> {
        self.directory.start..self.directory.start + ENTRY * self.directory.count
    }

    /// Whether another entry's lump has one of these bytes.
    fn is_shared(&self, number: usize, part: Range<usize>) -> bool {
        let others = self.entries().enumerate().filter(|(other, _)| *other != number);
        others.into_iter().any(|(_, entry)| overlap(&part, &(entry.offset..entry.offset + entry.size)))
    }

    /// The NODES of the map of a name, and its count of subsectors. The map's ten lumps must be there (1 to 12), and nothing else of
    /// it need be good.
    pub fn nodes_of(&self, map: &[u8]) -> Result<(&[u8], usize), Refusal> {
        match meshpigeon::judge_map(&self.bytes, map) {
            Err(refusal) if refusal.number < LUMPS_ARE_THERE => return Err(refusal),
            _ => {}
        }
        let marker = meshpigeon::find_map(&self.bytes, map).marker?;
        let subsectors = self.lump(marker + Subsector::PLACE).len() / Subsector::SIZE;
        Ok((self.lump(marker + Node::PLACE), subsectors))
    }

    /// The marker's entry number of the map of a name, if it is there.
    pub fn marker(&self, map: &[u8]) -> Option<usize> {
        meshpigeon::find_map(&self.bytes, map).marker.ok()
    }

    /// The TEXTMAP of the map of a name, if the map is there and is a text map.
    pub fn textmap(&self, map: &[u8]) -> Option<&[u8]> {
        let number = self.marker(map)? + 1;
        let is_text = self.names().nth(number) == Some(TEXTMAP);
        is_text.then(|| self.lump(number))
    }

    /// The game of the map of a name, if it is there.
    pub fn game(&self, map: &[u8]) -> Option<Game> {
        let hexen = meshpigeon::map_game(&self.bytes, self.marker(map)?).ok()?;
        Some(if hexen { Game::Hexen } else { Game::Doom })
    }

    /// The names of all maps, each once, where it first stands in the directory, zero-padded to eight bytes.
    pub fn maps(&self) -> Vec<Vec<u8>> {
        let mut maps: Vec<Vec<u8>> = Vec::new();
        for name in self.names().map(name::padded).filter(|name| is_map(name)) {
            if !maps.contains(&name) {
                maps.push(name);
            }
        }
        maps
    }
}

/// Whether two parts of a file have a byte in common.
fn overlap(one: &Range<usize>, other: &Range<usize>) -> bool {
    one.start.max(other.start) < one.end.min(other.end)
}

/// Whether a map can have this name. The library says so: asked of a file without entries, it refuses a map's name with 11 (no
/// such entry) and any other with 10.
pub fn is_map(name: &[u8]) -> bool {
    meshpigeon::find_map(EMPTY, name).marker.is_err_and(|refusal| refusal.number == 11)
}
