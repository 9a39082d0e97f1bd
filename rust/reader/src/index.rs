//! A name index beside the file: names and numbers of all entries, sorted.

use crate::bytes::{u16_at, u32_at};
use crate::wad::{self, entries, name_of, Directory};
use crate::Refusal;

const MARK: &[u8; 3] = b"WIX";
const VERSION: u16 = 1;
const HEADER_SIZE: usize = 11;
const ENTRY_SIZE: usize = 10;

/// A name in eight bytes, with zeros behind its first zero, and an entry's number.
#[derive(Clone, Copy, Debug, Default, PartialEq, Eq, PartialOrd, Ord)]
pub struct IndexRecord {
    /// The name.
    pub name: [u8; 8],
    /// The number.
    pub number: u16,
}

impl IndexRecord {
    fn decode(bytes: &[u8]) -> Self {
        Self { name: std::array::from_fn(|at| bytes[at]), number: u16_at(bytes, 8) }
    }

    fn encode(self) -> impl Iterator<Item = u8> {
        self.name.into_iter().chain(self.number.to_le_bytes())
    }
}

/// What a lookup answers.
#[derive(Clone, Copy, Debug, PartialEq, Eq)]
pub struct IndexSearch {
    /// The entry's number, or the refusal.
    pub entry: Result<usize, Refusal>,
    /// How many names of the index were compared with the asked one; 0 where none was.
    pub compared: usize,
}

/// Sorts all entries into the first records, writes the index into the front of `out`, and answers its length: refusals 1 to 6, and 86 where
/// there are fewer records than entries or fewer bytes than the index has. A refusal changes nothing.
pub fn index_build(wad: &[u8], records: &mut [IndexRecord], out: &mut [u8]) -> Result<usize, Refusal> {
    let directory = wad::directory(wad)?;
    let sorted = sorted(wad, directory);
    let index = written(wad, &sorted);
    if records.len() < sorted.len() || out.len() < index.len() {
        return Err(Refusal::plain(86));
    }
    records[..sorted.len()].copy_from_slice(&sorted);
    out[..index.len()].copy_from_slice(&index);
    Ok(index.len())
}

/// Accepts the index of that file alone: refusals 1 to 6 and 82 to 84.
pub fn index_check(wad: &[u8], index: &[u8]) -> Result<(), Refusal> {
    let directory = wad::directory(wad)?;
    judge_header(wad, directory, index)?;
    if index == written(wad, &sorted(wad, directory)) {
        Ok(())
    } else {
        Err(Refusal::plain(84))
    }
}

/// The entry to which the index leads for that name: refusals 1 to 6, 82, 83 and 11. The rest of the index is not judged.
pub fn index_find(wad: &[u8], index: &[u8], name: &[u8]) -> IndexSearch {
    let judged = wad::directory(wad).and_then(|directory| judge_header(wad, directory, index).map(|()| directory));
    let directory = match judged {
        Ok(directory) => directory,
        Err(refusal) => return IndexSearch { entry: Err(refusal), compared: 0 },
    };
    let (found, compared) = if name.len() == 8 { halve(index, directory.count, padded(name)) } else { (None, 0) };
    let number = found.map(|it| usize::from(it.number));
    let has_name = |number: &usize| entries(wad, directory).nth(*number).is_some_and(|entry| entry.name == name_of(name));
    IndexSearch { entry: number.filter(has_name).ok_or(Refusal::plain(11)), compared }
}

/// The last of `count` entries of an index that the search goes past, if it has the asked name, and how many were compared. Of those left it
/// compares the one behind half of them, goes on after it if it is not above the asked name, and otherwise before it.
fn halve(index: &[u8], count: usize, name: [u8; 8]) -> (Option<IndexRecord>, usize) {
    let at = |number: usize| IndexRecord::decode(&index[HEADER_SIZE + ENTRY_SIZE * number..]);
    let (mut first, mut left, mut passed, mut compared) = (0, count, None, 0);
    while left > 0 {
        let half = left / 2;
        let middle = at(first + half);
        compared += 1;
        if middle.name <= name {
            passed = Some(middle);
            first += half + 1;
            left -= half + 1;
        } else {
            left = half;
        }
    }
    (passed.filter(|it| it.name == name), compared)
}

/// Refusals 82 and 83.
fn judge_header(wad: &[u8], directory: Directory, index: &[u8]) -> Result<(), Refusal> {
    let count = directory.count;
    if index.len() < HEADER_SIZE + ENTRY_SIZE * count {
        return Err(Refusal::plain(82));
    }
    let is_of_file = usize::from(u16_at(index, 5)) == count && u32_at(index, 7) as usize == wad.len();
    if &index[..3] != MARK || !is_of_file {
        return Err(Refusal::plain(82));
    }
    if u16_at(index, 3) != VERSION {
        return Err(Refusal::plain(83));
    }
    Ok(())
}

/// All entries, by name and then by number.
fn sorted(wad: &[u8], directory: Directory) -> Vec<IndexRecord> {
    let of = |(number, entry): (u16, wad::Entry)| IndexRecord { name: padded(entry.name), number };
    let mut all: Vec<IndexRecord> = (0..).zip(entries(wad, directory)).map(of).collect();
    all.sort();
    all
}

/// The index with these entries.
fn written(wad: &[u8], sorted: &[IndexRecord]) -> Vec<u8> {
    let (count, length) = (sorted.len() as u16, wad.len() as u32);
    let header = [&MARK[..], &VERSION.to_le_bytes(), &count.to_le_bytes(), &length.to_le_bytes()].concat();
    header.into_iter().chain(sorted.iter().flat_map(|record| record.encode())).collect()
}

/// The name with zeros from its first zero on.
fn padded(name: &[u8]) -> [u8; 8] {
    std::array::from_fn(|at| name_of(name).get(at).copied().unwrap_or(0))
}
