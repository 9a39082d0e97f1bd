//! Two maps of Doom as one input of a benchmark: see [`halves`](crate::halves).

use crate::{joined, Kind};

/// A byte of a record, by place, that no check looks at, as near its end as there is one. Of a subsector there is none.
const FREE: [Option<usize>; 8] = [Some(9), Some(9), Some(27), Some(3), Some(11), None, Some(23), Some(25)];

/// The file of one map twice.
pub fn twice(wad: Vec<u8>) -> Vec<u8> {
    joined(wad.clone(), wad)
}

/// The file of one map, and the same with the last and every `step`-th record before it changed in one byte, of each lump but SSECTORS.
pub fn with_changes(wad: Vec<u8>, step: usize) -> Vec<u8> {
    let new = (1..=8).fold(wad.clone(), |new, place| changed(new, place, step));
    joined(wad, new)
}

/// The file of one map, and the same with the last byte of the last sector changed.
pub fn with_last_changed(wad: Vec<u8>) -> Vec<u8> {
    let new = changed(wad.clone(), 8, usize::MAX);
    joined(wad, new)
}

fn changed(mut wad: Vec<u8>, place: usize, step: usize) -> Vec<u8> {
    let (offset, length) = reader::entry(&wad, place).expect("the file has a map alone");
    if let Some(free) = FREE[place - 1] {
        let records = wad[offset..offset + length].chunks_exact_mut(Kind::at(place, false).size());
        records.rev().step_by(step).for_each(|record| record[free] ^= 1);
    }
    wad
}
