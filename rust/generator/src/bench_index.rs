//! Files whose name index is built, checked and looked into in a benchmark, each with no lump of any size.

use crate::index::{in_a_row, Indexed, ENTRY, HEADER};
use crate::{littered, Rng};

/// `count` names, up to 4,096, all different and in any order, with rubbish after their zeros.
pub fn names_at_random(count: usize) -> Vec<u8> {
    let (mut names, mut rng) = (row(count), Rng::new(41));
    for at in 1..count {
        names.swap(at, rng.below(at + 1));
    }
    file(names.into_iter().map(|name| littered(name, &mut rng)).collect())
}

/// The same names, each above the one before it.
pub fn names_ascending(count: usize) -> Vec<u8> {
    file(row(count))
}

/// The same names, each below the one before it: where names are sorted by putting one after the other in its place, all others move each time.
pub fn names_descending(count: usize) -> Vec<u8> {
    file(row(count).into_iter().rev().collect())
}

/// One name for all entries.
pub fn names_alike(count: usize) -> Vec<u8> {
    let mut rng = Rng::new(42);
    file((0..count).map(|_| littered(in_a_row(1), &mut rng)).collect())
}

fn row(count: usize) -> Vec<[u8; 8]> {
    (0..count).map(in_a_row).collect()
}

fn file(names: Vec<[u8; 8]>) -> Vec<u8> {
    Indexed::of(names).wad
}

/// A file of names alone with its index behind it, as one input: see [`wad_and_index`].
pub fn with_its_index(wad: Vec<u8>) -> Vec<u8> {
    let names = wad[12..].chunks_exact(16).map(|entry| std::array::from_fn(|at| entry[8 + at])).collect();
    let index = Indexed::of(names).index();
    [wad, index].concat()
}

/// The same with another number in the index's last entry.
pub fn with_a_wrong_index(wad: Vec<u8>) -> Vec<u8> {
    let mut input = with_its_index(wad);
    if let Some(last) = input.last_mut() {
        *last ^= 0x40;
    }
    input
}

/// The file and the index of such an input.
pub fn wad_and_index(input: &[u8]) -> (&[u8], &[u8]) {
    let count = (input.len() - 12 - HEADER) / (16 + ENTRY);
    input.split_at(12 + 16 * count)
}
