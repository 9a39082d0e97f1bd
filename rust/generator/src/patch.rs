//! Pairs of files, a base and a patch over it: lumps and maps by name out of one or the other.

use crate::flip::flip;
use crate::limit::Build;
use crate::name::{cut, littered};
use crate::order::apply;
use crate::search::named_entries;
use crate::valid::GOOD_NAMES;
use crate::{any_plan, damages, directory_of, hexen_rooms, rooms, sound_plan};
use crate::{Case, Damage, Expected, Plan, Question, Rng, MAP_NAME, MOST_BYTES};
use reader::{Accepted, PairEntry, PairFile, PairMap, PairRefusal, Refusal};

/// An entry by its name and its size.
type Lump = ([u8; 8], usize);

/// The first number of a map; those of files lie below it.
const MAP_NUMBERS: u32 = 10;

/// A map's name that no file of a pair has unless it is given it.
const OTHER_NAME: [u8; 8] = *b"MAP77\0\0\0";

/// Any question on a pair.
pub fn patch_case(rng: &mut Rng) -> Case {
    match rng.below(8) {
        0..=2 => find_case(rng),
        3..=5 => judge_case(rng),
        6 => damaged_find_case(rng),
        _ => flipped_case(rng),
    }
}

// ---- lumps by name ----

/// A file of these lumps, the directory first or last, and where each of them lies.
fn file_of(lumps: &[Lump], directory_first: bool) -> (Vec<u8>, Vec<(usize, usize)>) {
    let first = if directory_first { 12 + 16 * lumps.len() } else { 12 };
    let (mut data, mut directory, mut parts) = (Vec::new(), Vec::new(), Vec::new());
    for (index, (name, size)) in lumps.iter().enumerate() {
        let offset = first + data.len();
        directory.extend([(offset as u32).to_le_bytes(), (*size as u32).to_le_bytes()].concat());
        directory.extend(name);
        data.extend((0..*size).map(|at| (31 * index + at) as u8));
        parts.push(if *size == 0 { (0, 0) } else { (offset, *size) });
    }
    let start = if directory_first { 12 } else { first + data.len() };
    let header = [*b"PWAD", (lumps.len() as u32).to_le_bytes(), (start as u32).to_le_bytes()].concat();
    let (one, other) = if directory_first { (directory, data) } else { (data, directory) };
    ([header, one, other].concat(), parts)
}

/// The question for a lump of two good files, and its answer: the last of the patch, otherwise the last of the base.
fn find(label: &str, base: &[Lump], patch: &[Lump], directory_first: bool, name: &[u8]) -> Case {
    let ((base_file, base_parts), (patch_file, patch_parts)) = (file_of(base, directory_first), file_of(patch, !directory_first));
    let last = |file, lumps: &[Lump], parts: &[(usize, usize)]| {
        let number = (0..lumps.len()).rev().find(|&at| name.len() == 8 && cut(&lumps[at].0) == cut(name))?;
        let (offset, size) = parts[number];
        Some(PairEntry { file, offset, size })
    };
    let found = last(PairFile::Patch, patch, &patch_parts).or_else(|| last(PairFile::Base, base, &base_parts));
    let question = Question::PairFind { base: base_file, name: name.to_vec() };
    Case::new(label, patch_file, question, Expected::PairEntry(found.ok_or(nowhere(11))))
}

/// A refusal that neither file brings about alone.
fn nowhere(number: u32) -> PairRefusal {
    PairRefusal { file: None, refusal: Refusal::plain(number) }
}

/// Names that are asked for, and others that are easily taken for them.
const ASKED: [&[u8; 8]; 3] = [b"PIGEON\0\0", b"WALL-_\\1", b"A\0\0\0\0\0\0\0"];
const ALMOST: [&[u8; 8]; 6] = [b"PIGEON1\0", b"PIGEO\0\0\0", b"PIGEONPI", b"WALL-_\\2", b"AA\0\0\0\0\0\0", b"PLAYPAL\0"];

/// A few lumps in each file, in either all, some or none of the asked name, many with rubbish behind their zeros.
fn find_case(rng: &mut Rng) -> Case {
    let asked = *rng.pick(&ASKED);
    let (base, patch) = (any_lumps(asked, rng), any_lumps(asked, rng));
    find("lump of a pair", &base, &patch, rng.once_in(2), &asked_as(asked, rng))
}

fn any_lumps(asked: [u8; 8], rng: &mut Rng) -> Vec<Lump> {
    let (count, times) = (rng.below(9), rng.pick(&[0, 1, 2, 6]));
    let lump = |rng: &mut Rng| {
        let same = times > 0 && rng.once_in(times);
        let name = if same { asked } else { *rng.pick(&ALMOST) };
        (if rng.once_in(2) { littered(name, rng) } else { name }, rng.pick(&[0, 1, 5, 40]))
    };
    (0..count).map(|_| lump(rng)).collect()
}

/// The name as it is, with rubbish, cut, of another length, or empty.
fn asked_as(name: [u8; 8], rng: &mut Rng) -> Vec<u8> {
    match rng.below(12) {
        0..=4 => name.to_vec(),
        5..=8 => littered(name, rng).to_vec(),
        9 => cut(&name).to_vec(),
        10 => name.into_iter().chain([0; 3]).take(rng.below(12)).collect(),
        _ => littered([0; 8], rng).to_vec(),
    }
}

// ---- files with damages ----

/// A file of a pair, and what is known of it.
struct File {
    plan: Plan,
    /// The refusal of header or directory.
    fault: Option<Refusal>,
    /// The map check's answer where there is no such fault; `None` where nothing is known.
    verdict: Option<Result<Accepted, Refusal>>,
    /// Whether it has a map of the asked name.
    has: bool,
}

impl File {
    /// A file with a map of that name: a good one of any shape, or one with damages. `faults` damages of the file come on top.
    fn new(name: [u8; 8], faults: usize, has: bool, rng: &mut Rng) -> Self {
        let (mut plan, mut verdict) = if rng.once_in(2) { any_file(rng) } else { damaged_file(rng) };
        rename(&mut plan, name, rng);
        let fault = (faults > 0).then(|| {
            let chosen: Vec<Damage> = (0..faults).map(|_| rng.pick(&damages_of(1..MAP_NUMBERS))).collect();
            apply(&mut plan, &chosen, rng)
        });
        verdict = verdict.filter(|_| fault.is_none());
        Self { plan, fault, verdict, has }
    }
}

fn damages_of(numbers: std::ops::Range<u32>) -> Vec<Damage> {
    damages().into_iter().filter(|damage| numbers.contains(&damage.number)).collect()
}

fn any_file(rng: &mut Rng) -> (Plan, Option<Result<Accepted, Refusal>>) {
    let (plan, expected) = any_plan(rng);
    let verdict = match expected {
        Expected::Map(accepted) => Some(Ok(accepted)),
        Expected::Refused(refusal) => Some(Err(refusal)),
        _ => None,
    };
    (plan, verdict)
}

/// One or two damages of the map, of every family, in the table's order.
fn damaged_file(rng: &mut Rng) -> (Plan, Option<Result<Accepted, Refusal>>) {
    let mut plan = sound_plan(rng);
    let all = damages_of(12..u32::MAX);
    let mut chosen: Vec<usize> = (0..rng.between(1, 2)).map(|_| rng.below(all.len())).collect();
    chosen.sort_unstable();
    let chosen: Vec<Damage> = chosen.into_iter().map(|at| all[at]).collect();
    let refusal = apply(&mut plan, &chosen, rng);
    (plan, Some(Err(refusal)))
}

/// Gives the map, and its earlier namesakes, another name.
fn rename(plan: &mut Plan, name: [u8; 8], rng: &mut Rng) {
    let old = plan.entries[plan.marker].name;
    for entry in plan.entries.iter_mut().filter(|entry| cut(&entry.name) == cut(&old)) {
        entry.name = if rng.once_in(3) { littered(name, rng) } else { name };
    }
    plan.name = name.to_vec();
}

/// Which of both files have the asked name, the patch first.
const HAVING: [[bool; 2]; 4] = [[true, true], [true, false], [false, true], [false, false]];

/// Two files by which of them have a map of that name, and how many damages each has as a file; the patch first.
fn files_of(having: [bool; 2], faults: [usize; 2], name: [u8; 8], rng: &mut Rng) -> [File; 2] {
    [0, 1].map(|at| File::new(if having[at] { name } else { OTHER_NAME }, faults[at], having[at], rng))
}

/// A few damages now and then.
fn any_faults(rng: &mut Rng) -> [usize; 2] {
    let any = rng.pick(&[[0, 0], [0, 1], [1, 0], [1, 1], [2, 1]]);
    if rng.once_in(3) {
        any
    } else {
        [0, 0]
    }
}

/// The refusal of the first file that is no good.
fn fault_of([patch, base]: &[File; 2]) -> Option<PairRefusal> {
    let refuse = |file, refusal| PairRefusal { file: Some(file), refusal };
    patch.fault.map(|it| refuse(PairFile::Patch, it)).or(base.fault.map(|it| refuse(PairFile::Base, it)))
}

/// Maps of a pair with damages of every family in either file, and the patch's map before the base's.
fn judge_case(rng: &mut Rng) -> Case {
    let (name, having, faults) = (*rng.pick(&GOOD_NAMES), rng.pick(&HAVING), any_faults(rng));
    let files = files_of(having, faults, name, rng);
    let asked = if rng.once_in(3) { littered(name, rng) } else { name };
    let bad = crate::damage::BAD_MAP_NAMES;
    match rng.once_in(10) {
        true => judge(&files, bad[rng.below(bad.len())], true),
        false => judge(&files, &asked, false),
    }
}

fn judge(files: &[File; 2], name: &[u8], is_bad: bool) -> Case {
    let [patch, base] = files;
    let (file, judged) = if patch.has { (PairFile::Patch, patch) } else { (PairFile::Base, base) };
    let verdict = match (fault_of(files), judged.verdict) {
        (Some(refusal), _) => Some(Err(refusal)),
        _ if is_bad => Some(Err(nowhere(10))),
        _ if !judged.has => Some(Err(nowhere(11))),
        (_, Some(Ok(map))) => Some(Ok(PairMap { file, map })),
        (_, Some(Err(refusal))) => Some(Err(PairRefusal { file: Some(file), refusal })),
        (_, None) => None,
    };
    let question = Question::PairJudgeMap { base: base.plan.wad(), name: name.to_vec(), words: judged.plan.words() };
    Case::new("map of a pair", patch.plan.wad(), question, verdict.map_or(Expected::Unknown, Expected::PairMap))
}

/// A lump of a pair of which one file or both are no good.
fn damaged_find_case(rng: &mut Rng) -> Case {
    let (name, having) = (*rng.pick(&GOOD_NAMES), rng.pick(&HAVING));
    let faults = rng.pick(&[[0, 1], [1, 0], [1, 1], [2, 2]]);
    let files = files_of(having, faults, name, rng);
    let expected = fault_of(&files).map_or(Expected::Unknown, |refusal| Expected::PairEntry(Err(refusal)));
    let question = Question::PairFind { base: files[1].plan.wad(), name: asked_as(name, rng) };
    Case::new("lump of a damaged pair", files[0].plan.wad(), question, expected)
}

/// Either question on files of which one or both are flipped.
fn flipped_case(rng: &mut Rng) -> Case {
    let mut case = if rng.once_in(2) { find_case(rng) } else { judge_case(rng) };
    let which = rng.between(1, 3);
    if which & 1 != 0 {
        flip(&mut case.bytes, rng);
    }
    if let (Question::PairFind { base, .. } | Question::PairJudgeMap { base, .. }, true) = (&mut case.question, which & 2 != 0) {
        flip(base, rng);
    }
    Case { label: format!("flipped {}", case.label), expected: Expected::Unknown, ..case }
}

// ---- limits ----

/// Every way in which names stand in two small files; every damage of a file in each; every family of damage of a map in each; files of
/// the least and the largest length and count; asked names of every length.
pub(crate) fn patch_limits() -> Vec<Build> {
    let mut all = small_directories();
    all.extend(asked_lengths());
    all.extend(damages_in_either());
    all.extend(large_files());
    all.extend(games_of_both());
    all
}

/// Up to three entries in each file, each of the asked name or of another, of size 0 or more.
fn small_directories() -> Vec<Build> {
    let lumps = |count: usize, bits: usize| -> Vec<Lump> {
        let lump = |at: usize| {
            let name = if bits >> (2 * at) & 1 == 1 { *b"SAME\0\0\0\0" } else { *b"SAME1\0\0\0" };
            (name, (bits >> (2 * at + 1) & 1) * (at + 1))
        };
        (0..count).map(lump).collect()
    };
    let mut files = Vec::new();
    for count in 0..=2 {
        files.extend((0..1 << (2 * count)).map(|bits| lumps(count, bits)));
    }
    let mut all: Vec<Build> = Vec::new();
    for (base, patch) in files.iter().flat_map(|base| files.iter().map(move |patch| (base.clone(), patch.clone()))) {
        all.push(Box::new(move || find("lump of a small pair", &base, &patch, false, b"SAME\0SAM")));
    }
    all
}

/// A name and its bytes behind the zero, of each length; only eight bytes are a name, and no entry has the empty one.
fn asked_lengths() -> Vec<Build> {
    let mut all: Vec<Build> = Vec::new();
    let (base, patch) = ([(*b"ABCDEFGH", 3), (*b"ABC\0\0\0\0\0", 4)], [(*b"ABCD\0\0\0\0", 5), (*b"A\0\0\0\0\0\0\0", 6)]);
    for full in
        [*b"ABCDEFGH\0\0\0\0", *b"ABC\0\0\0\0\0\0\0\0\0", *b"ABC\0ABCDABCD", *b"A\0abcdefghij", [0; 12], *b"\0ABCDEFGHIJK"]
    {
        for length in 0..=12 {
            all.push(Box::new(move || find("asked name of a pair", &base, &patch, false, &full[..length])));
        }
    }
    all
}

/// Each damage alone in the patch and in the base, each having a map of the name or not; and each damage of a file in both at once.
fn damages_in_either() -> Vec<Build> {
    let mut all: Vec<Build> = Vec::new();
    for (index, damage) in damages().into_iter().enumerate().filter(|(_, damage)| !(10..12).contains(&damage.number)) {
        for (place, having) in [0, 1].into_iter().flat_map(|place| HAVING.map(|having| (place, having))) {
            all.push(Box::new(move || {
                let mut rng = Rng::of_case(207, index as u64);
                let mut files = files_of_rooms(having);
                spoil(&mut files[place], damage, &mut rng);
                judge(&files, &MAP_NAME, false)
            }));
        }
    }
    for (one, other) in damages_of(1..MAP_NUMBERS)
        .into_iter()
        .flat_map(|one| damages_of(1..MAP_NUMBERS).into_iter().map(move |other| (one, other)))
    {
        all.push(Box::new(move || {
            let (mut rng, mut files) = (Rng::new(207), files_of_rooms([true, true]));
            spoil(&mut files[0], one, &mut rng);
            spoil(&mut files[1], other, &mut rng);
            judge(&files, &MAP_NAME, false)
        }));
    }
    all
}

/// The four rooms in both files, or under another name; the patch has an entry more before its map than the base.
fn files_of_rooms(having: [bool; 2]) -> [File; 2] {
    [0, 1].map(|at| {
        let mut plan = Plan::new(rooms(), if having[at] { MAP_NAME } else { OTHER_NAME });
        let before = 2 - at;
        plan.entries.splice(0..0, vec![crate::EntryPlan::empty(*b"OTHER\0\0\0"); before]);
        (plan.marker, plan.spare_words, plan.fill) = (before, 3, 0xA5A5);
        let verdict = Some(Ok(Accepted { depth: 2, marker: before }));
        File { plan, fault: None, verdict, has: having[at] }
    })
}

fn spoil(file: &mut File, damage: Damage, rng: &mut Rng) {
    let refusal = (damage.apply)(&mut file.plan, rng);
    match refusal.number {
        1..MAP_NUMBERS => file.fault = Some(refusal),
        _ => file.verdict = Some(Err(refusal)),
    }
}

/// Files of the least and the largest length and count on either side.
fn large_files() -> Vec<Build> {
    let empty = |length: usize| {
        let mut wad = named_entries(&[]);
        wad.resize(length, 0);
        wad
    };
    let mut all: Vec<Build> = Vec::new();
    let in_pair = |good: Vec<u8>, odd: Vec<u8>, file, number| {
        let refusal = PairRefusal { file: Some(file), refusal: Refusal::plain(number) };
        let expected = Expected::PairEntry(Err(if number == 0 { nowhere(11) } else { refusal }));
        let (base, patch) = if file == PairFile::Base { (odd, good) } else { (good, odd) };
        Case::new("size of a file of a pair", patch, Question::PairFind { base, name: OTHER_NAME.to_vec() }, expected)
    };
    for file in [PairFile::Base, PairFile::Patch] {
        for (length, number) in [(0, 1), (11, 1), (12, 0), (MOST_BYTES, 0), (MOST_BYTES + 1, 1)] {
            all.push(Box::new(move || in_pair(empty(12), empty(length), file, number)));
        }
        for (count, number) in [(0, 0), (4_096, 0), (4_097, 3)] {
            all.push(Box::new(move || in_pair(directory_of(4_096), directory_of(count), file, number)));
        }
    }
    all
}

/// Maps of Doom and of Hexen in both places: the game is that of the file which has the marker.
fn games_of_both() -> Vec<Build> {
    let mut all: Vec<Build> = Vec::new();
    for (having, games) in HAVING.into_iter().flat_map(|having| HAVING.map(|games| (having, games))) {
        all.push(Box::new(move || {
            let mut files = files_of_rooms(having);
            for (file, hexen) in files.iter_mut().zip(games) {
                let (marker, name) = (file.plan.marker, file.plan.entries[file.plan.marker].name);
                let map = Plan::new(if hexen { hexen_rooms() } else { rooms() }, name);
                file.plan.entries.splice(marker.., map.entries);
                file.plan.map = map.map;
            }
            judge(&files, &MAP_NAME, false)
        }));
    }
    all
}
