//! Searches for a map's marker: directories in which the asked name stands once, several times or not at all.

use crate::limit::Build;
use crate::name::{cut, littered};
use crate::valid::GOOD_NAMES;
use crate::{Case, Expected, Question, Rng, MAP_NAME};
use reader::{Refusal, Search};

/// Names that are easily taken for [`MAP_NAME`], none of them equal to it, whatever stands behind their zeros.
const ALMOST: [&[u8; 8]; 6] = [b"MAP02\0\0\0", b"MAP0\0\0\0\0", b"MAP011\0\0", b"MAP01AAA", b"NAP01\0\0\0", b"MAP10\0\0\0"];

/// A file that has these names in its directory and no lump of any size.
pub fn named_entries(names: &[[u8; 8]]) -> Vec<u8> {
    let directory: Vec<u8> = names.iter().flat_map(|name| [&[0; 8][..], name].concat()).collect();
    [&b"PWAD"[..], &(names.len() as u32).to_le_bytes(), &12_u32.to_le_bytes(), &directory].concat()
}

/// The answer of a search among these names: the last that is the asked one, or all of them in vain.
fn answer(names: &[[u8; 8]], asked: &[u8]) -> Search {
    let count = names.len();
    match (0..count).rev().find(|&at| cut(&names[at]) == cut(asked)) {
        Some(marker) => Search { marker: Ok(marker), compared: count - marker },
        None => Search { marker: Err(Refusal::plain(11)), compared: count },
    }
}

fn ask(label: &str, names: &[[u8; 8]], asked: [u8; 8]) -> Case {
    let expected = Expected::Search(answer(names, &asked));
    Case::new(label, named_entries(names), Question::FindMap { name: asked.to_vec() }, expected)
}

/// A search among a few names, of which some are the asked one and most are almost it; half of them with rubbish.
pub fn search_case(rng: &mut Rng) -> Case {
    let mut case = plain_search(rng);
    if rng.once_in(2) {
        for entry in case.bytes[12..].chunks_exact_mut(16) {
            let name = std::array::from_fn(|at| entry[8 + at]);
            entry[8..].copy_from_slice(&littered(name, rng));
        }
    }
    case
}

fn plain_search(rng: &mut Rng) -> Case {
    let (count, times) = (rng.below(24), rng.pick(&[2, 4, 24]));
    let names: Vec<[u8; 8]> = (0..count).map(|_| if rng.once_in(times) { MAP_NAME } else { *rng.pick(&ALMOST) }).collect();
    let asked = if rng.once_in(8) { *rng.pick(&GOOD_NAMES) } else { MAP_NAME };
    let asked = if rng.once_in(2) { littered(asked, rng) } else { asked };
    ask("search among a few names", &names, asked)
}

/// The asked name first, last, in the middle, twice, everywhere and nowhere, in directories up to the largest.
pub(crate) fn search_limits() -> Vec<Build> {
    let mut all: Vec<Build> = Vec::new();
    for count in [0, 1, 2, 3, 4_095, 4_096] {
        let ends = [0, count / 2, usize::max(count, 1) - 1];
        let places = [vec![], vec![ends[0]], vec![ends[1]], vec![ends[2]], vec![ends[0], ends[2]], (0..count).collect()];
        for places in places {
            all.push(Box::new(move || ask("search among many names", &names_with(count, &places), MAP_NAME)));
        }
    }
    all
}

/// So many names, the asked one in these places as far as there are so many.
fn names_with(count: usize, places: &[usize]) -> Vec<[u8; 8]> {
    let mut names: Vec<[u8; 8]> = (0..count).map(|at| *ALMOST[at % ALMOST.len()]).collect();
    for &place in places.iter().filter(|place| **place < count) {
        names[place] = MAP_NAME;
    }
    names
}

/// A file of `count` entries, up to 4,096, whose first is called [`MAP_NAME`]: a search for it compares every name. All others
/// differ from it behind its last character only.
pub fn search_to_the_first(count: usize) -> Vec<u8> {
    let mut names = longer_names(count);
    names[0] = MAP_NAME;
    named_entries(&names)
}

/// The same without the first: a search compares every name in vain.
pub fn search_in_vain(count: usize) -> Vec<u8> {
    named_entries(&longer_names(count))
}

fn longer_names(count: usize) -> Vec<[u8; 8]> {
    let name = |at: usize| format!("MAP01{at:03X}").into_bytes().try_into().expect("eight characters");
    (0..count).map(name).collect()
}

/// A base and a patch over it, each of `count` entries, of which none has the name [`MAP_NAME`]: see [`halves`].
pub fn pair_in_vain(count: usize) -> Vec<u8> {
    joined(search_in_vain(count), search_in_vain(count))
}

/// Two files as one input: both of the longer one's length, the base first. What is behind a directory counts for nothing.
pub fn joined(mut base: Vec<u8>, mut patch: Vec<u8>) -> Vec<u8> {
    let length = base.len().max(patch.len());
    base.resize(length, 0);
    patch.resize(length, 0);
    [base, patch].concat()
}

/// Base and patch of a [`joined`] input.
pub fn halves(joined: &[u8]) -> (&[u8], &[u8]) {
    joined.split_at(joined.len() / 2)
}
