//! Asks the reader a case's question and holds the answer against what is expected.

use generator::{halvings, scraps, with_lump, Case, Encode, Expected, Kind, Question, Record};
use reader::*;
use std::collections::{BTreeSet, HashMap};

/// An answer of the reader, as far as expectations speak of it.
#[derive(Debug, PartialEq)]
enum Answer {
    Good,
    Map(Accepted),
    Explained(Result<Accepted, Refusal>, Vec<u8>),
    Found(Found),
    Search(Search),
    Hexen(bool),
    Count(usize),
    Lookup(IndexSearch),
    Differences(Result<[usize; 8], DifferenceRefusal>),
    Text(TextMap),
    PairEntry(Result<PairEntry, PairRefusal>),
    PairMap(Result<PairMap, PairRefusal>),
}

/// Checks one case; answers its refusal number, 0 for none.
pub fn check(case: &Case) -> u32 {
    let answer = ask(case);
    let good = match case.expected {
        Expected::Unknown => true,
        Expected::Refused(refusal) => answer == Err(refusal),
        Expected::Accepted => answer.is_ok(),
        Expected::Map(accepted) => answer == Ok(Answer::Map(accepted)),
        Expected::Explained(it) => {
            matches!(&answer, Ok(Answer::Explained(verdict, bytes)) if *verdict == it.verdict && it.printed.fits(bytes))
        }
        Expected::Found(found) => answer == Ok(Answer::Found(found)),
        Expected::Search(search) => answer == Ok(Answer::Search(search)),
        Expected::Hexen(hexen) => answer == Ok(Answer::Hexen(hexen)),
        Expected::Count(count) => answer == Ok(Answer::Count(count)),
        Expected::Lookup(found) => answer == Ok(Answer::Lookup(found)),
        Expected::Differences(counts) => answer == Ok(Answer::Differences(counts)),
        Expected::Text(map) => answer == Ok(Answer::Text(map)),
        Expected::PairEntry(entry) => answer == Ok(Answer::PairEntry(entry)),
        Expected::PairMap(map) => answer == Ok(Answer::PairMap(map)),
    };
    assert!(good, "{}: {:?}, not {:?}", case.label, answer, case.expected);
    match answer {
        Err(refusal) | Ok(Answer::Search(Search { marker: Err(refusal), .. })) => refusal.number,
        Ok(Answer::Explained(Err(refusal), _)) | Ok(Answer::Lookup(IndexSearch { entry: Err(refusal), .. })) => refusal.number,
        Ok(Answer::Differences(Err(it))) => it.refusal.number,
        Ok(Answer::PairEntry(Err(it)) | Answer::PairMap(Err(it))) => it.refusal.number,
        Ok(_) => 0,
    }
}

fn ask(case: &Case) -> Result<Answer, Refusal> {
    let bytes = &case.bytes;
    match &case.question {
        Question::Directory => directory(bytes).map(|_| Answer::Good),
        Question::Entry { number } => ask_entry(bytes, *number),
        Question::FindMap { name } => Ok(Answer::Search(find_map(bytes, name))),
        Question::MapGame { marker } => map_game(bytes, *marker).map(Answer::Hexen),
        Question::JudgeMap { name, words } => ask_map(bytes, name, words),
        Question::Why { name, words, out } => ask_why(bytes, name, words, out),
        Question::Renumber { name, words, order, out } => ask_renumber(bytes, name, words, order, out),
        Question::Differences { old, old_name, new_name, words, list } => {
            Ok(Answer::Differences(ask_differences([old, bytes], [old_name, new_name], words, list)))
        }
        Question::IndexBuild { records, out } => ask_index(bytes, records, out),
        Question::IndexCheck { index } => index_check(bytes, index).map(|()| Answer::Good),
        Question::IndexFind { index, name } => Ok(Answer::Lookup(ask_lookup(bytes, index, name))),
        Question::PairFind { base, name } => Ok(Answer::PairEntry(ask_pair(base, bytes, name))),
        Question::PairJudgeMap { base, name, words } => Ok(Answer::PairMap(ask_pair_map(base, bytes, name, words))),
        Question::Descend { subsectors, x, y } => descend(bytes, *subsectors, *x, *y).map(Answer::Found),
        Question::DrawOrder { subsectors, x, y, words } => ask_order(bytes, *subsectors, (*x, *y), words),
        Question::Sidedefs { sectors, lengths, times } => ask_sidedefs(bytes, *sectors, lengths, *times),
        Question::Text { .. } => text_map(bytes).map(Answer::Text),
        Question::JudgePicture => judge_picture(bytes).map(|_| Answer::Good),
        Question::PaintPicture { colour, cover } => ask_paint(bytes, colour, cover),
        Question::WritePicture { picture, colour, out } => ask_written(*picture, colour, bytes, out),
        Question::ReadRecord { kind, index } => {
            let record = read(*kind, bytes, *index)?;
            assert_eq!(record.encode(), &bytes[index * kind.size()..][..kind.size()]);
            Ok(Answer::Good)
        }
        Question::WriteRecord { record, index } => ask_write(bytes, record, *index),
    }
}

fn ask_entry(wad: &[u8], number: usize) -> Result<Answer, Refusal> {
    let part = entry(wad, number);
    let (offset, size) = part.unwrap_or((0, 0));
    assert_eq!(lump(wad, number), &wad[offset..offset + size]);
    part.map(|_| Answer::Good)
}

fn ask_map(wad: &[u8], name: &[u8], lent: &[u16]) -> Result<Answer, Refusal> {
    let mut words = lent.to_vec();
    let verdict = judge_map(wad, name, &mut words);
    let zeroed = match verdict {
        Ok(accepted) => 4 * lump(wad, accepted.marker + 7).len() / Node::SIZE,
        Err(Refusal { number: 31 | 32, .. }) => 4 * lump(wad, find_map(wad, name).marker? + 7).len() / Node::SIZE,
        Err(_) => 0,
    };
    assert!(words[..zeroed].iter().all(|&word| word == 0));
    assert_eq!(words[zeroed..], lent[zeroed..]);
    verdict.map(Answer::Map)
}

/// The verdict and the words are the map check's, and nothing is written but the reason. 85 comes exactly where the reason is longer than the
/// output, and with it nothing is written.
fn ask_why(wad: &[u8], name: &[u8], lent: &[u16], lent_out: &[u8]) -> Result<Answer, Refusal> {
    let (mut words, mut out, mut left) = (lent.to_vec(), lent_out.to_vec(), lent.to_vec());
    let (verdict, length) = why(wad, name, &mut words, &mut out);
    let judged = judge_map(wad, name, &mut left);
    let mut whole = vec![0; 40_000];
    let (again, printed) = why(wad, name, &mut lent.to_vec(), &mut whole);
    assert_eq!((again, &words), (judged, &left));
    assert_eq!(out[length..], lent_out[length..]);
    if printed > out.len() {
        assert_eq!((verdict, length), (Err(Refusal::plain(85)), 0));
        return verdict.map(|_| Answer::Good);
    }
    assert_eq!((verdict, length, &out[..length]), (judged, printed, &whole[..printed]));
    Ok(Answer::Explained(verdict, whole[..printed].to_vec()))
}

/// What is written is accepted, and any other byte in it is not; the entries ascend by name and number, and each is an entry's name without
/// what stands after its zero. A refusal changes nothing, and nothing else changes anyway.
fn ask_index(wad: &[u8], lent: &[IndexRecord], lent_out: &[u8]) -> Result<Answer, Refusal> {
    let (mut records, mut out) = (lent.to_vec(), lent_out.to_vec());
    let answer = index_build(wad, &mut records, &mut out);
    let length = *answer.as_ref().unwrap_or(&0);
    let count = length.saturating_sub(11) / 10;
    assert!(records[count..] == lent[count..] && out[length..] == lent_out[length..]);
    let (records, index) = (&records[..count], &mut out[..length]);
    answer?;
    let start = directory(wad)?.start;
    assert!(records.windows(2).all(|two| (two[0].name, two[0].number) < (two[1].name, two[1].number)));
    for (record, bytes) in records.iter().zip(index[11..].chunks_exact(10)) {
        let name = &wad[start + 16 * usize::from(record.number) + 8..][..8];
        assert!(name_of(&record.name) == name_of(name) && record.name.iter().skip(name_of(name).len()).all(|&byte| byte == 0));
        assert_eq!(bytes, [&record.name[..], &record.number.to_le_bytes()].concat());
    }
    assert_eq!(index_check(wad, index), Ok(()));
    for at in (0..length).step_by(1 + length / 50) {
        index[at] ^= 4;
        assert!(index_check(wad, index).is_err());
        index[at] ^= 4;
    }
    Ok(Answer::Count(length))
}

/// Never more than 13 names are compared, nor more than the rule compares at most among so many; what is found has the name. In the right
/// index it is what a search from the end finds.
fn ask_lookup(wad: &[u8], index: &[u8], name: &[u8]) -> IndexSearch {
    let search = index_find(wad, index, name);
    let Ok(Directory { count, start }) = directory(wad) else { return search };
    assert!(search.compared <= halvings(count, 0).max(halvings(count, count)) && search.compared <= 13);
    let has_name = |number: &usize| name_of(&wad[start + 16 * number + 8..][..8]) == name_of(name);
    assert!(search.entry.is_err() || search.entry.is_ok_and(|number| number < count && has_name(&number)));
    if index_check(wad, index).is_ok() {
        let last = (0..count).rev().find(has_name).filter(|_| name.len() == 8);
        assert_eq!(search.entry, last.ok_or(Refusal::plain(11)));
    }
    search
}

/// The words are those of both map checks, one after the other, and so are the maps' refusals; 76 and 75 come where neither map is refused. What is
/// listed is what was asked for, and nothing else of the list is written.
fn ask_differences(
    files: [&[u8]; 2],
    names: [&[u8]; 2],
    lent: &[u16],
    lent_list: &[u16],
) -> Result<[usize; 8], DifferenceRefusal> {
    let (mut words, mut list, mut left) = (lent.to_vec(), lent_list.to_vec(), lent.to_vec());
    let answer = differences(files[0], names[0], files[1], names[1], &mut words, &mut list);
    let judged = judge_both(files, names, &mut left);
    assert_eq!(words, left);
    let total = answer.map_or(0, |counts| counts.iter().sum());
    assert_eq!(list[total..], lent_list[total..]);
    let markers = match judged {
        Ok(markers) => markers,
        Err(refusal) => {
            assert_eq!(answer, Err(refusal));
            return answer;
        }
    };
    let [old, new] = [0, 1].map(|at| map_game(files[at], markers[at]));
    let lists: Vec<Vec<u16>> = (1..=8).map(|place| differing(files, markers, place)).collect();
    let due = if old != new {
        Err(76)
    } else if lists.concat().len() > list.len() {
        Err(75)
    } else {
        Ok(std::array::from_fn(|at| lists[at].len()))
    };
    assert_eq!(answer.map_err(|it| (it.file, it.refusal)), due.map_err(|number| (None, Refusal::plain(number))));
    assert!(answer.is_err() || list[..total] == lists.concat());
    answer
}

/// The markers of both maps, or the first refusal with its file.
fn judge_both(files: [&[u8]; 2], names: [&[u8]; 2], words: &mut [u16]) -> Result<[usize; 2], DifferenceRefusal> {
    let of = |file| move |refusal| DifferenceRefusal { file: Some(file), refusal };
    let old = judge_map(files[0], names[0], words).map_err(of(DifferenceFile::Old))?;
    let new = judge_map(files[1], names[1], words).map_err(of(DifferenceFile::New))?;
    Ok([old.marker, new.marker])
}

/// Every number that the new lump has and the old one not, and every number at which both have other bytes.
fn differing(files: [&[u8]; 2], markers: [usize; 2], place: usize) -> Vec<u16> {
    let [old, new] = [0, 1].map(|at| lump(files[at], markers[at] + place));
    let size = Kind::at(place, map_game(files[1], markers[1]) == Ok(true)).size();
    let is_other = |number: &u16| {
        let start = size * usize::from(*number);
        (start..start + size).any(|at| old.get(at) != Some(&new[at]))
    };
    (0..(new.len() / size) as u16).filter(is_other).collect()
}

/// The words are the map check's, and so is a refusal of the map; any other refusal is the first rule of W-212 that does not hold. With a
/// refusal nothing is written. New NODES are the listed records with their children renamed, and put into the map they are accepted with the
/// same depth.
fn ask_renumber(wad: &[u8], name: &[u8], lent: &[u16], order: &[u16], lent_out: &[u8]) -> Result<Answer, Refusal> {
    let (mut words, mut out, mut left) = (lent.to_vec(), lent_out.to_vec(), lent.to_vec());
    let answer = renumber(wad, name, &mut words, order, &mut out);
    let judged = judge_map(wad, name, &mut left);
    assert_eq!(words, left);
    let length = answer.unwrap_or(0);
    assert_eq!(out[length..], lent_out[length..]);
    let accepted = match judged {
        Ok(accepted) => accepted,
        Err(refusal) => {
            assert_eq!(answer, Err(refusal));
            return answer.map(Answer::Count);
        }
    };
    let old = lump(wad, accepted.marker + Node::PLACE);
    let nodes: Vec<Node> = Node::all(old).collect();
    let due = first_fault(&nodes, order, out.len()).map_or(Ok(Node::SIZE * order.len()), |number| Err(Refusal::plain(number)));
    assert_eq!(answer, due);
    if answer.is_ok() {
        let new = &out[..length];
        assert_eq!(new, renamed(&nodes, order));
        let file = with_lump(wad, accepted.marker + Node::PLACE, new);
        assert_eq!(judge_map(&file, name, &mut lent.to_vec()), judged);
        descends_alike(old, new, lump(wad, accepted.marker + Subsector::PLACE).len() / Subsector::SIZE);
    }
    answer.map(Answer::Count)
}

/// The number of W-212's first rule that does not hold of an order, in its own words.
pub fn first_fault(nodes: &[Node], order: &[u16], room: usize) -> Option<u32> {
    let is_node = |word: &u16| word & SUBSECTOR_BIT == 0;
    let root = nodes.len().checked_sub(1).map(|root| root as u16);
    let (mut reached, mut open) = (BTreeSet::new(), Vec::from_iter(root));
    while let Some(node) = open.pop() {
        reached.insert(node);
        let Node { right, left, .. } = nodes[usize::from(node)];
        open.extend([right, left].iter().filter(|word| is_node(word)));
    }
    let mut sorted = order.to_vec();
    sorted.sort_unstable();
    let places: HashMap<u16, usize> = order.iter().copied().zip(0..).collect();
    let is_behind = |(place, node): (usize, &u16)| {
        let Node { right, left, .. } = nodes[usize::from(*node)];
        [right, left].iter().filter(|word| is_node(word)).any(|child| places[child] > place)
    };
    if order.len() != reached.len() {
        Some(73)
    } else if sorted != Vec::from_iter(reached) {
        Some(70)
    } else if !order.is_empty() && order.last() != root.as_ref() {
        Some(72)
    } else if order.iter().enumerate().any(is_behind) {
        Some(71)
    } else {
        (room < Node::SIZE * order.len()).then_some(74)
    }
}

/// The listed nodes, their children that are nodes by their places in the list.
fn renamed(nodes: &[Node], order: &[u16]) -> Vec<u8> {
    let places: HashMap<u16, u16> = order.iter().copied().zip(0..).collect();
    let new = |word: u16| places.get(&word).copied().unwrap_or(word);
    let listed = order.iter().map(|&node| nodes[usize::from(node)]);
    listed.flat_map(|node| Node { right: new(node.right), left: new(node.left), ..node }.encode()).collect()
}

/// Points on and beside the lines of the nodes, and at the ends of the plane.
fn descends_alike(old: &[u8], new: &[u8], subsectors: usize) {
    let beside = |node: Node| [-1, 0, 1].map(|step: i16| (node.x.wrapping_add(step), node.y.wrapping_sub(step)));
    let ends = [(i16::MIN, i16::MIN), (i16::MAX, i16::MAX), (i16::MIN, i16::MAX), (0, 0)];
    for (x, y) in Node::all(old).take(20).flat_map(beside).chain(ends) {
        assert_eq!(descend(new, subsectors, x, y), descend(old, subsectors, x, y));
    }
}

/// The file of a pair.
fn file_of<'a>(file: PairFile, base: &'a [u8], patch: &'a [u8]) -> &'a [u8] {
    match file {
        PairFile::Base => base,
        PairFile::Patch => patch,
    }
}

/// 10 and 11 note no file, every other refusal does.
fn notes_its_file(refusal: &PairRefusal) {
    assert_eq!(refusal.file.is_none(), [10, 11].contains(&refusal.refusal.number));
}

/// Where the patch has the name, no other good base changes the answer.
fn ask_pair(base: &[u8], patch: &[u8], name: &[u8]) -> Result<PairEntry, PairRefusal> {
    let found = pair_find(base, patch, name);
    let part = found.map_or(&[][..], |it| &file_of(it.file, base, patch)[it.offset..it.offset + it.size]);
    assert_eq!(pair_lump(base, patch, name), part);
    match found {
        Ok(PairEntry { file: PairFile::Patch, .. }) => assert_eq!(pair_find(patch, patch, name), found),
        Ok(_) => {}
        Err(refusal) => notes_its_file(&refusal),
    }
    found
}

/// The answer is that of the file with the marker, words too; and where that is the patch, no other good base changes it.
fn ask_pair_map(base: &[u8], patch: &[u8], name: &[u8], lent: &[u16]) -> Result<PairMap, PairRefusal> {
    let mut words = lent.to_vec();
    let judged = pair_judge_map(base, patch, name, &mut words);
    let file = judged.as_ref().map_or_else(|refusal| refusal.file, |map| Some(map.file));
    let mut again = lent.to_vec();
    if let Some(file) = file {
        let alone = judge_map(file_of(file, base, patch), name, &mut again);
        assert_eq!(judged.map(|it| it.map).map_err(|it| it.refusal), alone);
    }
    assert_eq!(words, again);
    if file == Some(PairFile::Patch) && find_map(patch, name).marker.is_ok() && directory(base).is_ok() {
        assert_eq!(pair_judge_map(patch, patch, name, &mut lent.to_vec()), judged);
    }
    judged.inspect_err(notes_its_file)
}

/// The verdict is that of the whole lump, as far as memory holds it, and the same in one piece.
fn ask_sidedefs(bytes: &[u8], sectors: usize, lengths: &[usize], times: usize) -> Result<Answer, Refusal> {
    let [mut cut, mut whole] = [Sidedefs::start(sectors); 2];
    for _ in 0..times {
        scraps(bytes, lengths).for_each(|scrap| cut.feed(scrap));
        whole.feed(bytes);
    }
    assert_eq!(cut.verdict(), whole.verdict());
    if bytes.len().saturating_mul(times) < 1 << 25 {
        assert_eq!(cut.verdict(), judge_sidedefs(&bytes.repeat(times), sectors));
    }
    cut.verdict().map(|()| Answer::Good)
}

fn ask_order(nodes: &[u8], subsectors: usize, (x, y): (i16, i16), lent: &[u16]) -> Result<Answer, Refusal> {
    let mut words = lent.to_vec();
    let drawn = draw_order(nodes, subsectors, x, y, &mut words);
    let written = match drawn {
        Ok(count) => {
            assert!(words[..count].iter().all(|&word| usize::from(word) < subsectors));
            assert_eq!(descend(nodes, subsectors, x, y).map(|it| it.subsector), Ok(usize::from(words[0])));
            count
        }
        Err(Refusal { number: 42 | 44 | 46, .. }) => nodes.len() / Node::SIZE + 1,
        Err(_) => 0,
    };
    assert!(drawn.is_ok() || words[..written].iter().all(|&word| word == 0));
    assert_eq!(words[written..], lent[written..]);
    drawn.map(Answer::Count)
}

fn ask_paint(lump: &[u8], lent_colour: &[u8], lent_cover: &[u8]) -> Result<Answer, Refusal> {
    let (mut colour, mut cover) = (lent_colour.to_vec(), lent_cover.to_vec());
    let verdict = paint_picture(lump, &mut colour, &mut cover);
    let area = verdict.map_or(0, |picture| picture.width * picture.height);
    assert_eq!((&colour[area..], &cover[area..]), (&lent_colour[area..], &lent_cover[area..]));
    assert!(cover[..area].iter().all(|&cover| cover < 2));
    assert!(colour.iter().zip(&cover).take(area).all(|(colour, cover)| *cover == 1 || *colour == 0));
    match verdict {
        Err(Refusal { number: 55, .. }) => {}
        _ => assert_eq!(verdict, judge_picture(lump)),
    }
    verdict.map(|_| Answer::Good)
}

/// What was written is painted again: the cover comes back, and the colour where it covers.
fn ask_written(picture: Picture, colour: &[u8], cover: &[u8], lent: &[u8]) -> Result<Answer, Refusal> {
    let mut out = lent.to_vec();
    let written = write_picture(picture, colour, cover, &mut out);
    let length = written.unwrap_or(0);
    assert_eq!(out[length..], lent[length..]);
    if written.is_ok() {
        let area = picture.width * picture.height;
        let (mut painted, mut covered) = (vec![7; area], vec![7; area]);
        assert_eq!(paint_picture(&out[..length], &mut painted, &mut covered), Ok(picture));
        let kept: Vec<u8> = colour.iter().zip(&covered).map(|(colour, covered)| colour * covered).collect();
        assert_eq!((covered, painted), (cover[..area].to_vec(), kept));
        assert!(judge_picture(&out[..length - 1]).is_err(), "the last byte ends the last column");
    }
    written.map(Answer::Count)
}

fn ask_write(lump: &[u8], record: &Record, index: usize) -> Result<Answer, Refusal> {
    let mut later = lump.to_vec();
    let verdict = write(record, &mut later, index);
    let mut wanted = lump.to_vec();
    if verdict.is_ok() {
        let bytes = record.encode();
        wanted[bytes.len() * index..][..bytes.len()].copy_from_slice(&bytes);
    }
    assert_eq!(later, wanted);
    verdict.map(|_| Answer::Good)
}

fn read(kind: Kind, lump: &[u8], index: usize) -> Result<Record, Refusal> {
    match kind {
        Kind::Thing => Thing::read(lump, index, false).map(Record::Thing),
        Kind::HexenThing => Thing::read(lump, index, true).map(Record::Thing),
        Kind::Linedef => Linedef::read(lump, index, false).map(Record::Linedef),
        Kind::HexenLinedef => Linedef::read(lump, index, true).map(Record::Linedef),
        Kind::Sidedef => Sidedef::read(lump, index).map(Record::Sidedef),
        Kind::Vertex => Vertex::read(lump, index).map(Record::Vertex),
        Kind::Seg => Seg::read(lump, index).map(Record::Seg),
        Kind::Subsector => Subsector::read(lump, index).map(Record::Subsector),
        Kind::Node => Node::read(lump, index).map(Record::Node),
        Kind::Sector => Sector::read(lump, index).map(Record::Sector),
    }
}

fn write(record: &Record, lump: &mut [u8], index: usize) -> Result<(), Refusal> {
    match record {
        Record::Thing(record) => record.write(lump, index),
        Record::Linedef(record) => record.write(lump, index),
        Record::Sidedef(record) => record.write(lump, index),
        Record::Vertex(record) => record.write(lump, index),
        Record::Seg(record) => record.write(lump, index),
        Record::Subsector(record) => record.write(lump, index),
        Record::Node(record) => record.write(lump, index),
        Record::Sector(record) => record.write(lump, index),
    }
}
