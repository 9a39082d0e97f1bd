//! What changed between two maps: the records of the new one that are not the old one's.

use crate::map::{judge_lumps, lumps_of, Lumps};
use crate::Refusal;

/// One of the two files.
#[derive(Clone, Copy, Debug, PartialEq, Eq)]
pub enum DifferenceFile {
    /// The old map's.
    Old,
    /// The new map's.
    New,
}

/// A refusal with its file; 75 and 76 are of neither.
#[derive(Clone, Copy, Debug, PartialEq, Eq)]
pub struct DifferenceRefusal {
    /// The file.
    pub file: Option<DifferenceFile>,
    /// Number, place and record.
    pub refusal: Refusal,
}

impl DifferenceRefusal {
    /// A refusal that neither map brings about alone.
    fn of_neither(number: u32) -> Self {
        Self { file: None, refusal: Refusal::plain(number) }
    }
}

/// Lists the records of the new map that differ from the old one's, lump by lump in place order, each lump's numbers ascending, in the front of
/// `list`, and answers how many there are of each lump. A record that only the new map has is among them, one that only the old map has is not.
///
/// Both maps must be accepted over the same work words, the old one first, whose refusals come with their file; then 76 for two games, 75 for
/// a list without room. A refusal writes nothing into the list.
pub fn differences(
    old_wad: &[u8],
    old_name: &[u8],
    new_wad: &[u8],
    new_name: &[u8],
    words: &mut [u16],
    list: &mut [u16],
) -> Result<[usize; 8], DifferenceRefusal> {
    let of = |file| move |refusal| DifferenceRefusal { file: Some(file), refusal };
    let old = accepted(old_wad, old_name, words).map_err(of(DifferenceFile::Old))?;
    let new = accepted(new_wad, new_name, words).map_err(of(DifferenceFile::New))?;
    if old.hexen != new.hexen {
        return Err(DifferenceRefusal::of_neither(76));
    }
    let differing: [Vec<u16>; 8] = std::array::from_fn(|index| differing(&old, &new, index + 1));
    let numbers = differing.concat();
    let front = list.get_mut(..numbers.len()).ok_or(DifferenceRefusal::of_neither(75))?;
    front.copy_from_slice(&numbers);
    Ok(differing.map(|numbers| numbers.len()))
}

/// The lumps of a map that passes every check.
fn accepted<'a>(wad: &'a [u8], name: &[u8], words: &mut [u16]) -> Result<Lumps<'a>, Refusal> {
    let (lumps, _) = lumps_of(wad, name)?;
    judge_lumps(&lumps, words)?;
    Ok(lumps)
}

/// The numbers of the new records of one lump that the old lump has otherwise, or not at all.
fn differing(old: &Lumps, new: &Lumps, place: usize) -> Vec<u16> {
    let old_records = old.records(place).map(Some).chain(std::iter::repeat(None));
    let pairs = (0..).zip(new.records(place).zip(old_records));
    pairs.filter(|(_, (new, old))| *old != Some(*new)).map(|(number, _)| number).collect()
}
