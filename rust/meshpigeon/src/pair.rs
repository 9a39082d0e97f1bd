//! The box's pair of files: a base, and a member's patch over it. The patch is judged first, then the base, and a name is looked for
//! in the same order.

use crate::{raw, Accepted, Refusal, MOST_WORDS};
use std::error::Error;
use std::fmt;

/// One of the two files.
#[derive(Clone, Copy, Debug, PartialEq, Eq)]
pub enum PairFile {
    /// The base.
    Base,
    /// The patch over it.
    Patch,
}

impl PairFile {
    /// The bytes of this file.
    pub fn of<'a>(self, base: &'a [u8], patch: &'a [u8]) -> &'a [u8] {
        match self {
            Self::Base => base,
            Self::Patch => patch,
        }
    }
}

impl fmt::Display for PairFile {
    fn fmt(&self, out: &mut fmt::Formatter<'_>) -> fmt::Result {
        out.write_str(match self {
            Self::Base => "base",
            Self::Patch => "patch",
        })
    }
}

/// Where a lump of a pair lies.
#[derive(Clone, Copy, Debug, PartialEq, Eq)]
pub struct PairEntry {
    /// The file that holds it.
    pub file: PairFile,
    /// Where its part of that file starts; 0 where its size is 0.
    pub offset: usize,
    /// Its size in bytes.
    pub size: usize,
}

/// A lump of a pair.
#[derive(Clone, Copy, Debug, PartialEq, Eq)]
pub struct PairLump<'a> {
    /// The file that holds it.
    pub file: PairFile,
    /// The part of that file itself.
    pub bytes: &'a [u8],
}

/// An accepted map of a pair.
#[derive(Clone, Copy, Debug, PartialEq, Eq)]
pub struct PairMap {
    /// The file that it is wholly taken from.
    pub file: PairFile,
    /// Its depth, and its marker's entry number in that file.
    pub map: Accepted,
}

/// A refusal, with its file: 1 to 6 are about one of the two, and 12 to 32 about the map's.
///
/// ```
/// use meshpigeon::{pair_find, PairFile};
///
/// let good = b"PWAD\0\0\0\0\x0C\0\0\0";
/// let refusal = pair_find(b"short", good, b"PIGEON\0\0").unwrap_err();
/// assert_eq!((refusal.file, refusal.refusal.number), (Some(PairFile::Base), 1));
/// assert!(refusal.to_string().starts_with("base: the file is too short or too long"));
///
/// let refusal = pair_find(good, good, b"PIGEON\0\0").unwrap_err();
/// assert_eq!((refusal.file, refusal.refusal.number), (None, 11));
/// assert_eq!(refusal.to_string(), "neither file has an entry of that name");
/// ```
#[derive(Clone, Copy, Debug, PartialEq, Eq)]
pub struct PairRefusal {
    /// The file; none for 10 and 11.
    pub file: Option<PairFile>,
    /// Number, place and record.
    pub refusal: Refusal,
}

impl fmt::Display for PairRefusal {
    fn fmt(&self, out: &mut fmt::Formatter<'_>) -> fmt::Result {
        match (self.file, self.refusal.number) {
            (Some(file), _) => write!(out, "{file}: {}", self.refusal),
            (None, 11) => write!(out, "neither file has an entry of that name"),
            (None, _) => self.refusal.fmt(out),
        }
    }
}

impl Error for PairRefusal {}

/// Where a lump lies, by its name in eight bytes: the last entry of the patch that has the name, otherwise the last of the base: 1 to
/// 6, 11. The name is not judged: the empty one and one of another length are 11 too.
pub fn pair_find(base: &[u8], patch: &[u8], name: &[u8]) -> Result<PairEntry, PairRefusal> {
    raw::pair_find(base, patch, name).map(|(file, answer)| PairEntry { file, offset: answer.offset, size: answer.size })
}

/// The lump itself, a part of the file that holds it: 1 to 6, 11.
///
/// ```
/// use meshpigeon::{pair_lump, PairFile};
///
/// // Each file has a lump of three bytes behind its header, and then its directory of one entry.
/// let base = b"IWAD\x01\0\0\0\x0F\0\0\0old\x0C\0\0\0\x03\0\0\0PIGEON\0\0";
/// let patch = b"PWAD\x01\0\0\0\x0F\0\0\0new\x0C\0\0\0\x03\0\0\0PIGEON\0\0";
/// let empty = b"PWAD\0\0\0\0\x0C\0\0\0";
///
/// let lump = pair_lump(base, patch, b"PIGEON\0\0").unwrap();
/// assert_eq!((lump.file, lump.bytes), (PairFile::Patch, &b"new"[..]));
/// assert!(std::ptr::eq(lump.bytes, &patch[12..15]));
///
/// let lump = pair_lump(base, empty, b"PIGEON\0\0").unwrap();
/// assert_eq!((lump.file, lump.bytes), (PairFile::Base, &b"old"[..]));
/// ```
pub fn pair_lump<'a>(base: &'a [u8], patch: &'a [u8], name: &[u8]) -> Result<PairLump<'a>, PairRefusal> {
    let PairEntry { file, offset, size } = pair_find(base, patch, name)?;
    Ok(PairLump { file, bytes: &file.of(base, patch)[offset..offset + size] })
}

/// Judges one map of a pair, with work words of its own. It is taken wholly from the file that has its marker, the patch before the
/// base: 1 to 6 of the patch, then of the base, 10, 11, and then the rest of a map's refusals.
///
/// ```
/// use meshpigeon::{pair_judge_map, PairFile};
///
/// // The patch has a marker, and no lump behind it; the base has nothing.
/// let (base, patch) = (b"IWAD\0\0\0\0\x0C\0\0\0", b"PWAD\x01\0\0\0\x0C\0\0\0\0\0\0\0\0\0\0\0MAP01\0\0\0");
/// let refusal = pair_judge_map(base, patch, b"MAP01\0\0\0").unwrap_err();
/// assert_eq!((refusal.file, refusal.refusal.number, refusal.refusal.lump()), (Some(PairFile::Patch), 12, Some("THINGS")));
///
/// let refusal = pair_judge_map(base, patch, b"MAP02\0\0\0").unwrap_err();
/// assert_eq!((refusal.file, refusal.refusal.number), (None, 11));
/// ```
pub fn pair_judge_map(base: &[u8], patch: &[u8], name: &[u8]) -> Result<PairMap, PairRefusal> {
    pair_judge_map_with(base, patch, name, &mut vec![0; MOST_WORDS])
}

/// The same over lent work words, four for each node of the map; they end as [`judge_map_with`](crate::judge_map_with) leaves them.
pub fn pair_judge_map_with(base: &[u8], patch: &[u8], name: &[u8], words: &mut [u16]) -> Result<PairMap, PairRefusal> {
    let (file, answer) = raw::pair_judge_map(base, patch, name, words)?;
    Ok(PairMap { file, map: Accepted { depth: answer.depth, marker: answer.marker } })
}
