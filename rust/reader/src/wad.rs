//! Header, directory and names of a WAD file, and the search for a map's marker.

use crate::bytes::i32_at;
use crate::Refusal;

const HEADER_SIZE: usize = 12;
const ENTRY_SIZE: usize = 16;
const MOST_BYTES: usize = 16_777_216;
const MOST_ENTRIES: i64 = 4_096;

/// A directory whose header and entries are all good.
#[derive(Clone, Copy, Debug, PartialEq, Eq)]
pub struct Directory {
    /// How many entries there are.
    pub count: usize,
    /// Where the first of them starts, in bytes from the start of the file.
    pub start: usize,
}

/// What the search for a map's marker answers.
#[derive(Clone, Copy, Debug, PartialEq, Eq)]
pub struct Search {
    /// The marker's entry number, or the refusal.
    pub marker: Result<usize, Refusal>,
    /// How many names were compared with the asked one; 0 where the search did not begin.
    pub compared: usize,
}

/// One entry of 16 bytes, with its numbers as they stand and its name cut at the first zero.
#[derive(Clone, Copy)]
pub(crate) struct Entry<'a> {
    pub(crate) offset: i64,
    pub(crate) size: i64,
    pub(crate) name: &'a [u8],
}

impl<'a> Entry<'a> {
    fn decode(bytes: &'a [u8]) -> Self {
        Self { offset: i32_at(bytes, 0), size: i32_at(bytes, 4), name: name_of(&bytes[8..16]) }
    }

    /// Whether the entry's part lies inside a file of `length` bytes. The offset of an empty
    /// entry is not looked at.
    fn lies_inside(&self, length: usize) -> bool {
        let (least, most) = (HEADER_SIZE as i64, length as i64);
        self.size == 0 || (self.size > 0 && self.offset >= least && self.offset + self.size <= most)
    }

    /// Offset and size, for an entry that lies inside; an empty one starts at 0.
    pub(crate) fn part(&self) -> (usize, usize) {
        match self.size {
            0 => (0, 0),
            size => (self.offset as usize, size as usize),
        }
    }

    /// The entry's bytes, for an entry that lies inside.
    pub(crate) fn lump<'w>(&self, wad: &'w [u8]) -> &'w [u8] {
        let (offset, size) = self.part();
        &wad[offset..offset + size]
    }
}

/// Judges the header and every entry: refusals 1 to 6.
pub fn directory(wad: &[u8]) -> Result<Directory, Refusal> {
    let directory = header(wad)?;
    for (index, entry) in entries(wad, directory).enumerate() {
        if !entry.lies_inside(wad.len()) {
            return Err(Refusal::new(5, 0, index));
        }
        if !is_good(entry.name) {
            return Err(Refusal::new(6, 0, index));
        }
    }
    Ok(directory)
}

/// Offset and size of entry `number`: refusals 1 to 7. An entry of size 0 answers (0, 0).
pub fn entry(wad: &[u8], number: usize) -> Result<(usize, usize), Refusal> {
    let directory = directory(wad)?;
    match entries(wad, directory).nth(number) {
        Some(entry) => Ok(entry.part()),
        None => Err(Refusal::plain(7)),
    }
}

/// The bytes of entry `number`, empty where [`entry`] refuses.
pub fn lump(wad: &[u8], number: usize) -> &[u8] {
    match entry(wad, number) {
        Ok((offset, size)) => &wad[offset..offset + size],
        Err(_) => &[],
    }
}

/// The number of the last entry with the map name `name`: refusals 1 to 6, 10, 11.
pub fn find_map(wad: &[u8], name: &[u8]) -> Search {
    match searched(wad, name) {
        Ok(directory) => search(wad, directory, name),
        Err(refusal) => Search { marker: Err(refusal), compared: 0 },
    }
}

/// As [`find_map`], with the directory that was judged on the way.
pub(crate) fn find_marker(wad: &[u8], name: &[u8]) -> Result<(Directory, usize), Refusal> {
    let directory = searched(wad, name)?;
    let marker = search(wad, directory, name).marker?;
    Ok((directory, marker))
}

/// The directory in which a map's name is to be searched: refusals 1 to 6, 10.
fn searched(wad: &[u8], name: &[u8]) -> Result<Directory, Refusal> {
    let directory = directory(wad)?;
    if is_map_name(name) {
        Ok(directory)
    } else {
        Err(Refusal::plain(10))
    }
}

/// Compares the names of all entries with `name`, from the last one down, and stops at the first that is equal: refusal 11.
fn search(wad: &[u8], directory: Directory, name: &[u8]) -> Search {
    let name = name_of(name);
    let mut compared = 0;
    let found = entries(wad, directory).rposition(|entry| {
        compared += 1;
        entry.name == name
    });
    Search { marker: found.ok_or(Refusal::plain(11)), compared }
}

/// The number of the last entry with that name.
pub(crate) fn last_of(wad: &[u8], directory: Directory, name: &[u8]) -> Option<usize> {
    let name = name_of(name);
    entries(wad, directory).rposition(|entry| entry.name == name)
}

/// The entries of a directory whose header is good, in turn.
pub(crate) fn entries(wad: &[u8], directory: Directory) -> impl ExactSizeIterator<Item = Entry<'_>> + DoubleEndedIterator {
    let Directory { count, start } = directory;
    wad[start..start + ENTRY_SIZE * count].chunks_exact(ENTRY_SIZE).map(Entry::decode)
}

/// Refusals 1 to 4.
fn header(wad: &[u8]) -> Result<Directory, Refusal> {
    if !(HEADER_SIZE..=MOST_BYTES).contains(&wad.len()) {
        return Err(Refusal::plain(1));
    }
    if !matches!(&wad[..4], b"IWAD" | b"PWAD") {
        return Err(Refusal::plain(2));
    }
    let (count, start) = (i32_at(wad, 4), i32_at(wad, 8));
    if !(0..=MOST_ENTRIES).contains(&count) {
        return Err(Refusal::plain(3));
    }
    if start < HEADER_SIZE as i64 || start + ENTRY_SIZE as i64 * count > wad.len() as i64 {
        return Err(Refusal::plain(4));
    }
    Ok(Directory { count: count as usize, start: start as usize })
}

/// A name is what precedes its first zero; whatever stands behind that is rubbish.
pub fn name_of(bytes: &[u8]) -> &[u8] {
    let end = bytes.iter().position(|&byte| byte == 0).unwrap_or(bytes.len());
    &bytes[..end]
}

/// Whether eight bytes hold an entry's name: one to eight allowed characters.
pub fn is_name(bytes: &[u8]) -> bool {
    bytes.len() == 8 && is_good(name_of(bytes))
}

fn is_good(name: &[u8]) -> bool {
    !name.is_empty() && name.iter().all(|&byte| is_name_character(byte))
}

fn is_name_character(byte: u8) -> bool {
    matches!(byte, b'A'..=b'Z' | b'0'..=b'9' | b'[' | b']' | b'-' | b'_' | b'\\')
}

/// Whether `bytes` are eight and hold a map's name.
pub fn is_map_name(bytes: &[u8]) -> bool {
    bytes.len() == 8
        && matches!(
            name_of(bytes),
            [b'E', b'1'..=b'9', b'M', b'1'..=b'9']
                | [b'M', b'A', b'P', b'1'..=b'9', b'0'..=b'9']
                | [b'M', b'A', b'P', b'0', b'1'..=b'9']
        )
}
