//! What changed between two maps: the records of the new one that are not the old one's.

use crate::{raw, Refusal, MOST_DIFFERENCES, MOST_WORDS};
use std::error::Error;
use std::fmt;

/// How many lumps of records a map has, places 1 to 8.
const LUMPS: usize = 8;

/// One of the two files.
#[derive(Clone, Copy, Debug, PartialEq, Eq)]
pub enum DifferenceFile {
    /// The old map's.
    Old,
    /// The new map's.
    New,
}

impl fmt::Display for DifferenceFile {
    fn fmt(&self, out: &mut fmt::Formatter<'_>) -> fmt::Result {
        out.write_str(match self {
            Self::Old => "old map",
            Self::New => "new map",
        })
    }
}

/// A refusal, with its file: all numbers of the map check are about one of the two maps, 75 and 76 about neither.
///
/// ```
/// use meshpigeon::{differences, DifferenceFile};
///
/// let (good, name) = (b"PWAD\0\0\0\0\x0C\0\0\0", b"MAP01\0\0\0");
/// let refusal = differences(good, name, b"short", name).unwrap_err();
/// assert_eq!((refusal.file, refusal.refusal.number), (Some(DifferenceFile::Old), 11));
/// assert_eq!(refusal.to_string(), "old map: the file has no map of that name");
/// ```
#[derive(Clone, Copy, Debug, PartialEq, Eq)]
pub struct DifferenceRefusal {
    /// The file; none for 75 and 76.
    pub file: Option<DifferenceFile>,
    /// Number, place and record.
    pub refusal: Refusal,
}

impl fmt::Display for DifferenceRefusal {
    fn fmt(&self, out: &mut fmt::Formatter<'_>) -> fmt::Result {
        match self.file {
            Some(file) => write!(out, "{file}: {}", self.refusal),
            None => self.refusal.fmt(out),
        }
    }
}

impl Error for DifferenceRefusal {}

/// The numbers of a new map's records that are not the old map's, lump by lump.
#[derive(Clone, Debug, PartialEq, Eq)]
pub struct Differences {
    numbers: Vec<u16>,
    /// Where each lump's numbers end.
    ends: [usize; LUMPS],
}

impl Differences {
    /// Those of the lump at `place`, 1 (THINGS) to 8 (SECTORS), ascending; none at any other place.
    pub fn at(&self, place: usize) -> &[u16] {
        let Some(end) = place.checked_sub(1).and_then(|at| self.ends.get(at)) else { return &[] };
        let start = if place == 1 { 0 } else { self.ends[place - 2] };
        &self.numbers[start..*end]
    }

    /// All of them, one lump's behind the other's, as the library lists them.
    pub fn numbers(&self) -> &[u16] {
        &self.numbers
    }
}

/// What changed between two maps, with words and room of its own: the old map's refusal of [`judge_map`](crate::judge_map), then the new
/// one's, each with its file; then 76 if they are of two games.
///
/// A record is listed if the old lump has other bytes at its number, or has no such record; what the old lump alone has is not listed.
/// Copied from the new lump over the old one, with the new length, the listed records make it the new lump, and none is listed in vain.
/// REJECT, BLOCKMAP and BEHAVIOR are not compared. Either map has its own name, and both may be of the same file.
///
/// ```
/// # let words = |words: &[u16]| words.iter().flat_map(|word| word.to_le_bytes()).collect::<Vec<u8>>();
/// # let wad_of = |things: &[[u16; 5]], vertices: &[u16]| {
/// #     let lumps: [(&[u8; 8], Vec<u8>); 11] = [
/// #         (b"MAP01\0\0\0", vec![]),
/// #         (b"THINGS\0\0", words(&things.concat())),
/// #         (b"LINEDEFS", words(&[0, 0, 0, 0, 0, 0, 65_535])),
/// #         (b"SIDEDEFS", vec![0; 30]),
/// #         (b"VERTEXES", words(vertices)),
/// #         (b"SEGS\0\0\0\0", vec![0; 12]),
/// #         (b"SSECTORS", words(&[1, 0])),
/// #         (b"NODES\0\0\0", vec![]),
/// #         (b"SECTORS\0", vec![0; 26]),
/// #         (b"REJECT\0\0", vec![0]),
/// #         (b"BLOCKMAP", words(&[0, 0, 1, 1, 5, 0, 65_535])),
/// #     ];
/// #     let (mut wad, mut directory) = (b"PWAD\x0B\0\0\0\0\0\0\0".to_vec(), Vec::new());
/// #     for (name, lump) in lumps {
/// #         directory.extend([(wad.len() as u32).to_le_bytes(), (lump.len() as u32).to_le_bytes()].concat());
/// #         directory.extend(name);
/// #         wad.extend(lump);
/// #     }
/// #     let start = wad.len() as u32;
/// #     wad[8..12].copy_from_slice(&start.to_le_bytes());
/// #     wad.extend(directory);
/// #     wad
/// # };
/// use meshpigeon::{differences, Thing, Vertex};
///
/// // The second of two things turns and a third comes; of two vertices one is left.
/// let old = wad_of(&[[0, 0, 0, 1, 7], [64, 0, 90, 2, 7]], &[0, 0, 64, 64]);
/// let new = wad_of(&[[0, 0, 0, 1, 7], [64, 0, 180, 2, 7], [96, 0, 0, 3, 7]], &[0, 0]);
/// let name = b"MAP01\0\0\0";
/// let found = differences(&old, name, &new, name).unwrap();
/// assert_eq!((found.at(Thing::PLACE), found.at(Vertex::PLACE)), (&[1, 2][..], &[][..]));
///
/// // The other way round the thing that goes is not listed, and the vertex that comes is.
/// let found = differences(&new, name, &old, name).unwrap();
/// assert_eq!((found.at(Thing::PLACE), found.at(Vertex::PLACE)), (&[1][..], &[1][..]));
/// assert!(differences(&new, name, &new, name).unwrap().numbers().is_empty());
/// ```
pub fn differences(old_wad: &[u8], old_name: &[u8], new_wad: &[u8], new_name: &[u8]) -> Result<Differences, DifferenceRefusal> {
    let mut numbers = vec![0; MOST_DIFFERENCES];
    let counts = differences_with(old_wad, old_name, new_wad, new_name, &mut vec![0; MOST_WORDS], &mut numbers)?;
    let mut end = 0;
    let ends = counts.map(|count| {
        end += count;
        end
    });
    numbers.truncate(end);
    Ok(Differences { numbers, ends })
}

/// The same over lent work words and into a lent list, and answers how many numbers of each lump were written, in place order. A list that is
/// shorter than all of them is 75, which is tested last.
///
/// The work words end as [`judge_map_with`](crate::judge_map_with) leaves them for the old map and then, unless that is refused, for the new
/// one. The words of the list behind the numbers stay as found, and a refusal writes nothing into it.
///
/// ```
/// let (wad, name) = (b"PWAD\0\0\0\0\x0C\0\0\0", b"MAP01\0\0\0");
/// let refusal = meshpigeon::differences_with(wad, name, wad, b"PIGEON\0\0", &mut [], &mut []).unwrap_err();
/// assert_eq!((refusal.file, refusal.refusal.number), (Some(meshpigeon::DifferenceFile::Old), 11));
/// ```
pub fn differences_with(
    old_wad: &[u8],
    old_name: &[u8],
    new_wad: &[u8],
    new_name: &[u8],
    words: &mut [u16],
    list: &mut [u16],
) -> Result<[usize; 8], DifferenceRefusal> {
    raw::differences([old_wad, old_name], [new_wad, new_name], words, list).map(|answer| answer.counts)
}
