//! The box's pair of files: a base, and a member's patch over it.

use crate::map::judge_run;
use crate::wad::{self, entries, is_map_name, last_of, Directory};
use crate::{Accepted, Refusal};

/// One of the two files.
#[derive(Clone, Copy, Debug, PartialEq, Eq)]
pub enum PairFile {
    /// The base.
    Base,
    /// The patch over it.
    Patch,
}

/// Where a lump of a pair lies.
#[derive(Clone, Copy, Debug, PartialEq, Eq)]
pub struct PairEntry {
    /// The file that holds it.
    pub file: PairFile,
    /// Where its part of that file starts; 0 where its size is 0.
    pub offset: usize,
    /// Its size in bytes.
    pub size: usize,
}

/// A map of a pair that passed every check.
#[derive(Clone, Copy, Debug, PartialEq, Eq)]
pub struct PairMap {
    /// The file that has its marker and all its lumps.
    pub file: PairFile,
    /// Depth, and the marker's entry number in that file.
    pub map: Accepted,
}

/// A refusal, with the file that it is about.
#[derive(Clone, Copy, Debug, PartialEq, Eq)]
pub struct PairRefusal {
    /// The file; none for 10 and 11.
    pub file: Option<PairFile>,
    /// The papers' three numbers.
    pub refusal: Refusal,
}

impl PairFile {
    /// A refusal that this file brings about.
    fn refuses(self, refusal: Refusal) -> PairRefusal {
        PairRefusal { file: Some(self), refusal }
    }
}

/// A refusal that neither file brings about alone.
fn refused(number: u32) -> PairRefusal {
    PairRefusal { file: None, refusal: Refusal::plain(number) }
}

/// A file of the pair, with its directory.
struct Judged<'a> {
    file: PairFile,
    wad: &'a [u8],
    directory: Directory,
}

/// The files in the order in which they are judged and searched: the patch, then the base. Refusals 1 to 6.
fn judged<'a>(base: &'a [u8], patch: &'a [u8]) -> Result<[Judged<'a>; 2], PairRefusal> {
    let judge = |file: PairFile, wad| match wad::directory(wad) {
        Ok(directory) => Ok(Judged { file, wad, directory }),
        Err(refusal) => Err(file.refuses(refusal)),
    };
    Ok([judge(PairFile::Patch, patch)?, judge(PairFile::Base, base)?])
}

/// The file that has the name, and the number of its last entry of the name: refusal 11. No entry has a name of other than eight bytes.
fn search<'a>(files: [Judged<'a>; 2], name: &[u8]) -> Result<(Judged<'a>, usize), PairRefusal> {
    let found = files.into_iter().find_map(|it| last_of(it.wad, it.directory, name).map(|number| (it, number)));
    found.filter(|_| name.len() == 8).ok_or(refused(11))
}

/// The last entry of the patch with that name, otherwise the last of the base: refusals 1 to 6 and 11. The name is not judged.
pub fn pair_find(base: &[u8], patch: &[u8], name: &[u8]) -> Result<PairEntry, PairRefusal> {
    let (Judged { file, wad, directory }, number) = search(judged(base, patch)?, name)?;
    let (offset, size) = entries(wad, directory).nth(number).map_or((0, 0), |entry| entry.part());
    Ok(PairEntry { file, offset, size })
}

/// The bytes of that entry, empty where [`pair_find`] refuses.
pub fn pair_lump<'a>(base: &'a [u8], patch: &'a [u8], name: &[u8]) -> &'a [u8] {
    match pair_find(base, patch, name) {
        Ok(PairEntry { file: PairFile::Base, offset, size }) => &base[offset..offset + size],
        Ok(PairEntry { file: PairFile::Patch, offset, size }) => &patch[offset..offset + size],
        Err(_) => &[],
    }
}

/// Judges the map of a pair, which is taken wholly from the file that has its marker: refusals 1 to 6, 10 to 12 and 20 to 32. The
/// words are as [`judge_map`](crate::judge_map) has them.
pub fn pair_judge_map(base: &[u8], patch: &[u8], name: &[u8], words: &mut [u16]) -> Result<PairMap, PairRefusal> {
    let files = judged(base, patch)?;
    if !is_map_name(name) {
        return Err(refused(10));
    }
    let (Judged { file, wad, directory }, marker) = search(files, name)?;
    match judge_run(wad, directory, marker, words) {
        Ok(map) => Ok(PairMap { file, map }),
        Err(refusal) => Err(file.refuses(refusal)),
    }
}
