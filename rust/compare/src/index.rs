//! The library's name index, held to its own check and lookup, to what it builds with records and room of its own, and to the directory.

use crate::Outcome;
use generator::{Case, Question};
use meshpigeon::{directory, find_map, index_build, index_check, index_find, Directory};

/// The most names that a lookup may compare.
const MOST_COMPARED: usize = 13;

/// How many names of a file are looked up, and how many bytes of an index are changed, at most.
const MOST_TRIED: usize = 60;

/// What is wrong with the library's answer on an index, if anything.
pub(crate) fn fault(case: &Case, told: &Outcome) -> Option<String> {
    let wad = &case.bytes;
    match &case.question {
        Question::IndexBuild { records, out } => {
            let lent: Vec<([u8; 8], u16)> = records.iter().map(|it| (it.name, it.number)).collect();
            build_fault(wad, &lent, out, told)
        }
        Question::IndexCheck { index } => check_fault(wad, index, told),
        Question::IndexFind { index, name } => find_fault(wad, index, name, told),
        _ => None,
    }
}

/// What is not written stays; what is written is what the library builds with room of its own; and 86 comes just where the room is too small.
fn build_fault(wad: &[u8], lent: &[([u8; 8], u16)], out: &[u8], told: &Outcome) -> Option<String> {
    let length = told.numbers.as_ref().map_or(0, |numbers| numbers[0] as usize);
    let count = length.saturating_sub(11) / 10;
    if told.records[count..] != lent[count..] || told.first[length..] != out[length..] {
        return Some(format!("more than {count} records or {length} bytes are written: {told:?}"));
    }
    let own = index_build(wad);
    let is_same = match (&told.numbers, &own) {
        (Ok(_), Ok(own)) => told.first[..length] == own[..],
        (Err((86, 0, 0)), Ok(own)) => out.len() < own.len() || lent.len() < (own.len() - 11) / 10,
        (Err(refused), Err(it)) => *refused == (it.number, it.place, it.record),
        _ => false,
    };
    if !is_same {
        return Some(format!("into lent room {told:?}\ninto its own {own:?}"));
    }
    let index = told.numbers.as_ref().ok().map(|_| &told.first[..length])?;
    records_fault(&told.records[..count], index).or_else(|| index_fault(wad, index))
}

/// The records are what the index has behind its header.
fn records_fault(records: &[([u8; 8], u16)], index: &[u8]) -> Option<String> {
    let bytes: Vec<u8> = records.iter().flat_map(|it| [&it.0[..], &it.1.to_le_bytes()].concat()).collect();
    (bytes != index[11..]).then(|| format!("records {records:?}\nindex {index:?}"))
}

/// A built index is accepted, and none beside it; every name of the file and some others are found through it as from the end.
fn index_fault(wad: &[u8], index: &[u8]) -> Option<String> {
    if let Err(refusal) = index_check(wad, index) {
        return Some(format!("what is built is refused: {refusal:?}"));
    }
    let mut other = index.to_vec();
    for at in (0..index.len()).step_by(index.len().div_ceil(MOST_TRIED)) {
        other[at] = other[at].wrapping_add(1);
        let wanted = if at < 11 && !(3..5).contains(&at) { 82 } else { 84 - u32::from(at < 5) };
        let told = index_check(wad, &other);
        if told.map_err(|it| it.number) != Err(wanted) {
            return Some(format!("byte {at} changed: {told:?}, not {wanted}"));
        }
        other[at] = index[at];
    }
    asked(wad).iter().find_map(|name| lookup_fault(wad, index, name))
}

/// Names of a file, of many some, each as it stands and with another last character, and names that no file has.
fn asked(wad: &[u8]) -> Vec<Vec<u8>> {
    let names: Vec<&[u8]> = names(wad).collect();
    let some = names.iter().step_by(names.len().div_ceil(MOST_TRIED).max(1));
    let beside = |name: &&[u8]| {
        let (mut above, mut below) = (name.to_vec(), name.to_vec());
        let last = name.iter().position(|&byte| byte == 0).unwrap_or(8) - 1;
        (above[last], below[last]) = (name[last].wrapping_add(1), name[last] - 1);
        [name.to_vec(), above, below]
    };
    some.flat_map(beside).chain([vec![0; 8], vec![255; 8], vec![b'A'; 7], vec![b'A'; 9]]).collect()
}

/// The names of a good directory, as they stand there.
fn names(wad: &[u8]) -> impl DoubleEndedIterator<Item = &[u8]> + ExactSizeIterator {
    let Directory { count, start } = directory(wad).expect("a good file");
    wad[start..start + 16 * count].chunks_exact(16).map(|entry| &entry[8..])
}

/// What precedes the first zero.
fn cut(name: &[u8]) -> &[u8] {
    name.split(|&byte| byte == 0).next().unwrap_or_default()
}

/// Through the right index, a name is found where the search from the end finds it, and a map's where the search for its marker does.
fn lookup_fault(wad: &[u8], index: &[u8], name: &[u8]) -> Option<String> {
    let told = index_find(wad, index, name);
    let found = told.entry.map_err(|it| it.number);
    let last = names(wad).rposition(|it| cut(it) == cut(name)).filter(|_| name.len() == 8);
    let marker = find_map(wad, name).marker.map_err(|it| it.number);
    let is_right = found == last.ok_or(11) && (marker == Err(10) || marker == found) && told.compared <= MOST_COMPARED;
    (!is_right).then(|| format!("{name:?} is found at {told:?}, from the end at {last:?}, as a map at {marker:?}"))
}

/// The only index that is accepted is the one that is built.
fn check_fault(wad: &[u8], index: &[u8], told: &Outcome) -> Option<String> {
    let built = index_build(wad).map_err(|it| (it.number, it.place, it.record));
    let is_right = match &told.numbers {
        Ok(_) => built.as_deref() == Ok(index),
        Err((82..=84, 0, 0)) => built.is_ok_and(|built| built != index),
        Err(refused) => built == Err(*refused),
    };
    (!is_right).then(|| format!("checked {told:?}, and it is not so with what is built"))
}

/// Never more than 13 names are compared; what is found has the name; and in an accepted index it is the last that has it. What the check refuses
/// with 82 or 83 or for the file, a lookup does too.
fn find_fault(wad: &[u8], index: &[u8], name: &[u8], told: &Outcome) -> Option<String> {
    if told.compared > MOST_COMPARED {
        return Some(format!("{} names are compared", told.compared));
    }
    let checked = index_check(wad, index).map_err(|it| (it.number, it.place, it.record));
    let is_right = match (&told.numbers, checked) {
        (_, Ok(())) => return lookup_fault(wad, index, name),
        (Ok(found), Err((84, ..))) => names(wad).nth(found[0] as usize).is_some_and(|it| cut(it) == cut(name)),
        (Err((11, 0, 0)), Err((84, ..))) => true,
        (told, Err(refused)) => *told == Err(refused),
    };
    (!is_right).then(|| format!("found {told:?}, checked {checked:?}"))
}
