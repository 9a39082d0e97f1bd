//! Files with a name index beside them (W-210), built, checked and looked into: the right index and wrong ones.

use crate::flip::flip;
use crate::index_fault::{IndexFault, FAULTS};
use crate::name::{cut, littered, NAME_CHARACTERS};
use crate::search::named_entries;
use crate::{pair_case, single_case, sound_plan, Case, Expected, Question, Rng};
use reader::{IndexRecord, IndexSearch, Refusal};
use std::collections::BTreeMap;

/// Bytes before an index's entries, and of each.
pub(crate) const HEADER: usize = 11;
pub(crate) const ENTRY: usize = 10;

/// An entry of an index: a name, and an entry's number.
pub(crate) type Named = ([u8; 8], u16);

/// A good file, with the names of its directory as they stand there.
#[derive(Clone)]
pub(crate) struct Indexed {
    pub(crate) wad: Vec<u8>,
    pub(crate) names: Vec<[u8; 8]>,
}

/// The name with zeros after its first zero.
pub(crate) fn clean(name: [u8; 8]) -> [u8; 8] {
    std::array::from_fn(|at| if at < cut(&name).len() { name[at] } else { 0 })
}

impl Indexed {
    /// A file of these names and nothing else.
    pub(crate) fn of(names: Vec<[u8; 8]>) -> Self {
        Self { wad: named_entries(&names), names }
    }

    /// Bytes of its index.
    pub(crate) fn size(&self) -> usize {
        HEADER + ENTRY * self.names.len()
    }

    /// The entries of its index: under each name the numbers as they come.
    pub(crate) fn sorted(&self) -> Vec<Named> {
        let mut numbers: BTreeMap<[u8; 8], Vec<u16>> = BTreeMap::new();
        for (number, name) in (0..).zip(&self.names) {
            numbers.entry(clean(*name)).or_default().push(number);
        }
        numbers.into_iter().flat_map(|(name, numbers)| numbers.into_iter().map(move |number| (name, number))).collect()
    }

    /// An index with a good header and these entries.
    pub(crate) fn with(&self, entries: &[Named]) -> Vec<u8> {
        let (count, length) = ((self.names.len() as u16).to_le_bytes(), (self.wad.len() as u32).to_le_bytes());
        let mut index = [&b"WIX\x01\0"[..], &count, &length].concat();
        for (name, number) in entries {
            index.extend(name);
            index.extend(number.to_le_bytes());
        }
        index
    }

    /// The right index.
    pub(crate) fn index(&self) -> Vec<u8> {
        self.with(&self.sorted())
    }

    /// What a lookup answers through an index of these entries, whose names must ascend.
    pub(crate) fn search(&self, entries: &[Named], asked: &[u8]) -> IndexSearch {
        let lost = Err(Refusal::plain(11));
        let Ok(name) = asked.try_into().map(clean) else { return IndexSearch { entry: lost, compared: 0 } };
        let past = entries.iter().filter(|entry| entry.0 <= name).count();
        let last = entries[..past].last().filter(|entry| entry.0 == name).map(|entry| usize::from(entry.1));
        let has_name = |number: &usize| self.names.get(*number).is_some_and(|it| clean(*it) == name);
        IndexSearch { entry: last.filter(has_name).ok_or(Refusal::plain(11)), compared: halvings(entries.len(), past) }
    }
}

/// How many names are compared of so many that are left, of which the first `past` are not above the asked one.
pub fn halvings(left: usize, past: usize) -> usize {
    let half = left / 2;
    match left {
        0 => 0,
        _ if half < past => 1 + halvings(left - half - 1, past - half - 1),
        _ => 1 + halvings(half, past),
    }
}

/// Asks for the index, with so many records and bytes lent.
pub(crate) fn building(label: &str, file: Indexed, records: usize, bytes: usize, rng: &mut Rng) -> Case {
    let is_enough = records >= file.names.len() && bytes >= file.size();
    let expected = if is_enough { Expected::Count(file.size()) } else { Expected::Refused(Refusal::plain(86)) };
    Case::new(label, file.wad, lent(records, bytes, rng), expected)
}

/// The question for an index, with anything in what is lent.
fn lent(records: usize, bytes: usize, rng: &mut Rng) -> Question {
    let mut record = || IndexRecord { name: rng.word().to_le_bytes(), number: rng.u16() };
    let records = (0..records).map(|_| record()).collect();
    Question::IndexBuild { records, out: rng.bytes(bytes) }
}

/// Has an index checked that is wrong in this way, or right.
pub(crate) fn checking(label: &str, file: Indexed, fault: Option<IndexFault>, rng: &mut Rng) -> Case {
    let right = file.index();
    let (index, expected) = match fault.map(|fault| fault.spoil(&file, rng)) {
        None => (right, Expected::Accepted),
        Some(it) if it.header != 0 => (it.index, Expected::Refused(Refusal::plain(it.header))),
        Some(it) if it.index == right => (right, Expected::Accepted),
        Some(it) => (it.index, Expected::Refused(Refusal::plain(84))),
    };
    Case::new(label, file.wad, Question::IndexCheck { index }, expected)
}

/// Looks a name up in an index that is wrong in this way, or right. Where its names are not the right ones in their order, nothing is known.
pub(crate) fn finding(label: &str, file: Indexed, fault: Option<IndexFault>, asked: Vec<u8>, rng: &mut Rng) -> Case {
    let right = file.sorted();
    let (index, expected) = match fault.map(|fault| fault.spoil(&file, rng)) {
        None => (file.index(), Expected::Lookup(file.search(&right, &asked))),
        Some(it) if it.header != 0 => (it.index, refused(Refusal::plain(it.header))),
        Some(it) if it.entries.iter().map(|it| it.0).eq(right.iter().map(|it| it.0)) => {
            let found = file.search(&it.entries, &asked);
            (it.index, Expected::Lookup(found))
        }
        Some(it) => (it.index, Expected::Unknown),
    };
    Case::new(label, file.wad, Question::IndexFind { index, name: asked }, expected)
}

/// A lookup that is refused before anything is compared.
fn refused(refusal: Refusal) -> Expected {
    Expected::Lookup(IndexSearch { entry: Err(refusal), compared: 0 })
}

/// Counts around those at which the rule compares once more.
const COUNTS: [usize; 15] = [0, 1, 2, 3, 4, 5, 7, 8, 9, 15, 16, 17, 31, 32, 63];

/// A good file: names alone, names and bytes behind the directory, or a map among other lumps.
fn any_file(rng: &mut Rng) -> Indexed {
    if rng.once_in(6) {
        let plan = sound_plan(rng);
        return Indexed { wad: plan.wad(), names: plan.entries.iter().map(|entry| entry.name).collect() };
    }
    let count = match rng.below(600) {
        0 => rng.pick(&[255, 256, 257, 1_024, 4_095, 4_096]),
        1..=100 => rng.below(100),
        _ => rng.pick(&COUNTS),
    };
    let mut file = Indexed::of(any_names(count, rng));
    if rng.once_in(6) {
        let more = rng.pick(&[1, 2, 40, 300, 70_000]);
        file.wad.extend(rng.bytes(more));
    }
    file
}

/// Names of one character or more: few that come often, such as begin each other, any, and in a row; half of the files have rubbish in them.
fn any_names(count: usize, rng: &mut Rng) -> Vec<[u8; 8]> {
    let few: Vec<[u8; 8]> = (0..rng.between(1, 4)).map(|_| any_name(rng)).collect();
    let kind = rng.below(5);
    let name = |at: usize, rng: &mut Rng| match kind {
        0 => rng.pick(&few),
        1 => near_name(rng),
        2 => any_name(rng),
        3 => in_a_row(at),
        _ => in_a_row(count - at),
    };
    let is_littered = rng.once_in(2);
    let littered = |name, rng: &mut Rng| if is_littered { littered(name, rng) } else { name };
    (0..count).map(|at| littered(name(at, rng), rng)).collect()
}

/// A name of any allowed characters.
fn any_name(rng: &mut Rng) -> [u8; 8] {
    let length = rng.between(1, 8);
    std::array::from_fn(|at| if at < length { rng.pick(NAME_CHARACTERS) } else { 0 })
}

/// A name of which many others are the beginning, or differ from it in the last character.
fn near_name(rng: &mut Rng) -> [u8; 8] {
    let (length, last) = (rng.between(1, 8), rng.pick(b"A-0_["));
    std::array::from_fn(|at| if at + 1 < length { b'A' } else { last * u8::from(at + 1 == length) })
}

/// The names of a row, each above those before it.
pub(crate) fn in_a_row(at: usize) -> [u8; 8] {
    format!("A{at:04}\0\0\0").into_bytes().try_into().expect("eight bytes")
}

/// A name to ask for: one of the file, one beside it, none, any bytes, and other counts of bytes.
fn any_asked(file: &Indexed, rng: &mut Rng) -> Vec<u8> {
    let one = if file.names.is_empty() { any_name(rng) } else { rng.pick(&file.names) };
    let mut name = if rng.once_in(2) { littered(one, rng) } else { clean(one) }.to_vec();
    match rng.below(16) {
        0..=7 => {}
        8 => name[rng.below(8)] = rng.pick(b"\0A-0_a\x01\xFF"),
        9 => name = near_name(rng).to_vec(),
        10 => name = any_name(rng).to_vec(),
        11 => name[0] = 0,
        12 => name = rng.bytes(8),
        13 => name.truncate(7),
        14 => name.push(rng.pick(b"\0A")),
        _ => name.truncate(rng.below(9)),
    }
    name
}

/// A file that is asked for its index, or has one beside it, right or wrong, to be checked or looked into.
pub fn index_case(rng: &mut Rng) -> Case {
    let file = any_file(rng);
    let asked = any_asked(&file, rng);
    let (count, size) = (file.names.len(), file.size());
    let fault = Some(rng.pick(&FAULTS));
    match rng.below(20) {
        0..=3 => {
            let records = rng.pick(&[count, count, count, count + 1, count + 9, count.saturating_sub(1), 0]);
            let bytes = rng.pick(&[size, size, size, size + 1, size + 40, size - 1, HEADER, 0]);
            building("index to be built", file, records, bytes, rng)
        }
        4 => checking("right index", file, None, rng),
        5..=8 => checking("wrong index", file, fault, rng),
        9..=13 => finding("name in the right index", file, None, asked, rng),
        14..=16 => finding("name in a wrong index", file, fault, asked, rng),
        17 => {
            let case = if rng.once_in(2) { single_case } else { pair_case }(rng.word(), rng.below(1 << 30));
            with_index(case, rng)
        }
        _ => flipped_case(file, asked, rng),
    }
}

/// A file, its index, or both with a few bytes flipped.
fn flipped_case(mut file: Indexed, asked: Vec<u8>, rng: &mut Rng) -> Case {
    let mut index = file.index();
    if rng.once_in(2) {
        flip(&mut index, rng);
    } else {
        flip(&mut file.wad, rng);
    }
    let question = match rng.below(3) {
        0 => lent(file.names.len(), index.len(), rng),
        1 => Question::IndexCheck { index },
        _ => Question::IndexFind { index, name: asked },
    };
    Case::new("flipped index or file", file.wad, question, Expected::Unknown)
}

/// A case of any file as one that asks for its index, has the index checked that the reader makes of it, or looks into that.
pub fn with_index(case: Case, rng: &mut Rng) -> Case {
    let (mut records, mut index) = (vec![IndexRecord::default(); 4_096], vec![0; HEADER + ENTRY * 4_096]);
    let length = reader::index_build(&case.bytes, &mut records, &mut index).unwrap_or(HEADER);
    index.truncate(length);
    let name = records[rng.below(((length - HEADER) / ENTRY).max(1))].name.to_vec();
    let question = match rng.below(3) {
        0 => lent(length / ENTRY, length + rng.below(2), rng),
        1 => Question::IndexCheck { index },
        _ => Question::IndexFind { index, name },
    };
    let is_lookup = matches!(question, Question::IndexFind { .. });
    let expected = match case.expected {
        Expected::Refused(refusal) if refusal.number <= 6 && is_lookup => refused(refusal),
        Expected::Refused(refusal) if refusal.number <= 6 => Expected::Refused(refusal),
        _ => Expected::Unknown,
    };
    Case::new(case.label, case.bytes, question, expected)
}
