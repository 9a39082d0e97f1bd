//! What the library says changed between two maps, held to its own map check, to what it lists with words and room of its own, and to the lumps.

use crate::{ask_library, Outcome};
use generator::{Case, Expected, Kind, Question};
use meshpigeon::{differences, find_map, map_game, DifferenceFile};

/// What is wrong with the library's list of differing records, if anything. The words are those of both map checks in turn, and so are the maps'
/// refusals with their file; what is not written stays.
pub(crate) fn fault(case: &Case, told: &Outcome) -> Option<String> {
    let Question::Differences { old, old_name, new_name, words, list } = &case.question else { return None };
    let maps: [Map; 2] = [(old, old_name), (&case.bytes, new_name)];
    let (judged, words) = judged(maps, words);
    if words != told.words || judged.as_ref().is_some_and(|it| (it.0, &it.1) != (told.file, &told.numbers)) {
        return Some(format!("compared {told:?}\nthe map checks {judged:?}, {words:?}"));
    }
    let total = told.numbers.as_ref().map_or(0, |numbers| numbers.iter().sum::<i64>() as usize);
    let (numbers, rest) = told.list.split_at(total);
    if judged.is_none() && told.file != 0 || rest != &list[total..] {
        return Some(format!("more than {total} words are written: {rest:?}"));
    }
    let own = differences(old, old_name, &case.bytes, new_name);
    let is_same = match (&told.numbers, &own) {
        // With words of its own a map may be accepted, or refused for what is tested later.
        (Err((30, ..)), own) => !own.as_ref().is_err_and(|it| it.refusal.number == 30),
        (Err((75, ..)), own) => own.as_ref().is_ok_and(|own| own.numbers().len() > list.len()),
        (Err(refused), Err(it)) => {
            let file = it.file.map_or(0, |file| if file == DifferenceFile::Old { 1 } else { 2 });
            (told.file, *refused) == (file, (it.refusal.number, it.refusal.place, it.refusal.record))
        }
        (Ok(counts), Ok(own)) => own.numbers() == numbers && (1..=8).all(|at| own.at(at).len() as i64 == counts[at - 1]),
        _ => false,
    };
    if !is_same {
        return Some(format!("into a lent list {told:?}\ninto its own {own:?}"));
    }
    let own = own.ok().filter(|_| told.numbers.is_ok())?;
    (1..=8).find_map(|place| lump_fault(maps, place, own.at(place)))
}

/// A map: its file and its name.
type Map<'a> = (&'a [u8], &'a [u8]);

/// An answer's numbers, or its refusal.
type Numbers = Result<Vec<i64>, (u32, usize, usize)>;

/// The file's number with the first refusal of the two map checks, if there is one, and the words after them.
fn judged(maps: [Map; 2], words: &[u16]) -> (Option<(u32, Numbers)>, Vec<u16>) {
    let mut words = words.to_vec();
    for (file, (wad, name)) in (1..).zip(maps) {
        let question = Question::JudgeMap { name: name.to_vec(), words };
        let judged = ask_library(&Case::new("one of two maps", wad.to_vec(), question, Expected::Unknown));
        words = judged.words;
        if judged.numbers.is_err() {
            return (Some((file, judged.numbers)), words);
        }
    }
    (None, words)
}

/// Copying the listed records over the old lump and taking the new length gives the new lump, and leaving out any one does not; they ascend.
fn lump_fault(maps: [Map; 2], place: usize, listed: &[u16]) -> Option<String> {
    let [(old, _), (new, hexen)] = maps.map(|(wad, name)| lump_of(wad, name, place));
    let size = Kind::at(place, hexen).size();
    if !listed.is_sorted_by(|one, next| one < next) {
        return Some(format!("the list of place {place} does not ascend: {listed:?}"));
    }
    if copied(old, new, size, listed) != new {
        return Some(format!("records {listed:?} of place {place} do not make the old lump the new"));
    }
    // Without it, the old lump's record is left at its number, or none.
    let is_vain = |number: &&u16| record(old, size, **number).is_some_and(|it| record(new, size, **number) == Some(it));
    listed.iter().find(is_vain).map(|number| format!("record {number} of place {place} is listed in vain"))
}

/// The lump at a place of an accepted map, and whether it is Hexen's.
fn lump_of<'a>(wad: &'a [u8], name: &[u8], place: usize) -> (&'a [u8], bool) {
    let marker = find_map(wad, name).marker.expect("an accepted map");
    (meshpigeon::lump(wad, marker + place).expect("a map's lump"), map_game(wad, marker).expect("a map's game"))
}

/// The bytes of a record, if the lump has it.
fn record(lump: &[u8], size: usize, number: u16) -> Option<&[u8]> {
    lump.get(size * usize::from(number)..)?.get(..size)
}

/// The old lump with the new one's length, and with the listed records of the new one. What is there of neither is filled with what the new one
/// has not.
fn copied(old: &[u8], new: &[u8], size: usize, listed: &[u16]) -> Vec<u8> {
    let behind = new.iter().skip(old.len()).map(|byte| !byte);
    let mut lump: Vec<u8> = old.iter().copied().chain(behind).take(new.len()).collect();
    for &number in listed {
        let start = size * usize::from(number);
        let part = start..(start + size).min(new.len());
        if let (Some(to), Some(from)) = (lump.get_mut(part.clone()), new.get(part)) {
            to.copy_from_slice(from);
        }
    }
    lump
}
