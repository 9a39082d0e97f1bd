//! Pairs of maps whose records are compared (W-213): the same, with records changed, added and dropped, of two games, and refused.

use crate::edit::{count, grow, touch, GROUPS};
use crate::flip::flip;
use crate::valid::GOOD_NAMES;
use crate::{map_case, pair_case, single_case, sound_plan, valid_case};
use crate::{Case, Expected, Layout, MapSpec, Plan, Question, Rng, Shape, Sizes};
use reader::{DifferenceFile, DifferenceRefusal, Refusal};

/// How many numbers are listed of each lump of records, or the refusal.
type Answer = Result<[usize; 8], DifferenceRefusal>;

/// A refusal of one of the maps.
pub(crate) fn refused(file: DifferenceFile, refusal: Refusal) -> Expected {
    Expected::Differences(Err(DifferenceRefusal { file: Some(file), refusal }))
}

/// A refusal of neither map alone.
pub(crate) fn of_neither(number: u32) -> DifferenceRefusal {
    DifferenceRefusal { file: None, refusal: Refusal::plain(number) }
}

/// Two map checks' cases as one that asks what changed, over the longer words and with a list of so many: `due` is what is known if both maps
/// are good.
pub(crate) fn compared(label: &str, old: Case, new: Case, due: Option<Answer>, room: usize) -> Case {
    let (expected, new_expected) = (known(&old, DifferenceFile::Old), known(&new, DifferenceFile::New));
    let (Question::JudgeMap { name: old_name, words: one }, Question::JudgeMap { name: new_name, words: other }) =
        (old.question, new.question)
    else {
        unreachable!("both are map checks");
    };
    let expected = match expected.unwrap_or_else(|| new_expected.unwrap_or(due.map_or(Expected::Unknown, Expected::Differences)))
    {
        Expected::Differences(Ok(counts)) if counts.iter().sum::<usize>() > room => Expected::Differences(Err(of_neither(75))),
        expected => expected,
    };
    let words = if one.len() < other.len() { other } else { one };
    let list = (0..room).map(|at| 0xA55A ^ at as u16).collect();
    Case::new(label, new.bytes, Question::Differences { old: old.bytes, old_name, new_name, words, list }, expected)
}

/// What is known of the answer by one of the maps, which is nothing where that is good. Words that are too few for it may be enough together.
fn known(case: &Case, file: DifferenceFile) -> Option<Expected> {
    match case.expected {
        Expected::Map(_) | Expected::Accepted => None,
        Expected::Refused(refusal) if refusal.number != 30 => Some(refused(file, refusal)),
        _ => Some(Expected::Unknown),
    }
}

/// Two good maps of one game, and how many records of each lump of the new one are not the old one's.
#[derive(Clone)]
pub(crate) struct Pair {
    pub(crate) old: MapSpec,
    pub(crate) new: MapSpec,
    pub(crate) counts: [usize; 8],
}

impl Pair {
    /// The same map twice.
    pub(crate) fn same(map: MapSpec) -> Self {
        Self { old: map.clone(), new: map, counts: [0; 8] }
    }

    /// Changes a record of the new map that is as in the old one.
    pub(crate) fn touch(&mut self, place: usize, index: usize, rng: &mut Rng) {
        self.counts[place - 1] += usize::from(touch(&mut self.new, place, index, rng));
    }

    /// The new map gets a record more of each lump of a group.
    pub(crate) fn add(&mut self, group: &[usize], rng: &mut Rng) {
        grow(&mut self.new, group, rng);
        group.iter().for_each(|place| self.counts[place - 1] += 1);
    }

    /// The old map gets a record more of each lump of a group, which the new one lacks.
    pub(crate) fn drop(&mut self, group: &[usize], rng: &mut Rng) {
        grow(&mut self.old, group, rng);
    }

    /// All numbers that are to be listed.
    pub(crate) fn total(&self) -> usize {
        self.counts.iter().sum()
    }

    /// The case of both maps in files of their own.
    pub(crate) fn case(&self, label: &str, room: usize, rng: &mut Rng) -> Case {
        let [old, new] = [&self.old, &self.new].map(|map| map_case(label, &any_file(map.clone(), rng), Expected::Accepted));
        compared(label, old, new, Some(Ok(self.counts)), room)
    }
}

/// A file with a map of any good name, alone or among other lumps.
pub(crate) fn any_file(map: MapSpec, rng: &mut Rng) -> Plan {
    let mut plan = Plan::new(map, *rng.pick(&GOOD_NAMES));
    if rng.once_in(2) {
        plan.surround(rng);
    }
    plan
}

/// A good map of few records.
fn good_map(rng: &mut Rng) -> MapSpec {
    let sizes = if rng.once_in(6) { Sizes::tree(rng.below(3)).of(rng.once_in(3)) } else { Sizes::few(rng) };
    MapSpec::new(sizes, rng.pick(&Shape::TREES), rng.pick(&Layout::ALL), rng).0
}

/// Two maps, of which each lump may have records changed, added or dropped.
fn edited(rng: &mut Rng) -> Pair {
    let mut pair = Pair::same(good_map(rng));
    let often = rng.pick(&[1, 2, 2, 8]);
    for place in 1..=8 {
        if rng.once_in(often) {
            touch_some(&mut pair, place, rng);
        }
    }
    // Subsectors come alone or with nodes, and without any nodes never alone.
    let passed: &[usize] = if pair.old.nodes.is_empty() || rng.once_in(2) { &[6] } else { &[6, 7] };
    for group in GROUPS.into_iter().filter(|group| *group != passed) {
        let (times, who) = (rng.between(1, 3), rng.below(3 * often));
        for _ in 0..times {
            match who {
                0 => pair.add(group, rng),
                1 => pair.drop(group, rng),
                _ => {}
            }
        }
    }
    pair
}

/// Changes the first record of a lump, the last, any, all or some.
fn touch_some(pair: &mut Pair, place: usize, rng: &mut Rng) {
    let (count, way) = (count(&pair.new, place), rng.below(5));
    let any = rng.below(count.max(1));
    for index in 0..count {
        let is_chosen = match way {
            0 => index == 0,
            1 => index == count - 1,
            2 => index == any,
            3 => true,
            _ => rng.once_in(3),
        };
        if is_chosen {
            pair.touch(place, index, rng);
        }
    }
}

/// Two maps of any kind, with lists of every length around what is written.
pub fn differences_case(rng: &mut Rng) -> Case {
    let room = rng.pick(&[0, 1, 40, 400]);
    match rng.below(16) {
        0 => {
            let map = good_map(rng);
            Pair::same(map).case("the same map", room, rng)
        }
        1..=7 => edited_case(rng),
        8 => few_words_case(rng),
        9 => compared("two maps", valid_case(rng), valid_case(rng), None, room),
        10 => games_case(room, rng),
        11 | 12 => refused_case(room, rng),
        _ => flipped_case(room, rng),
    }
}

/// Edited maps, with a list that has room, or just not.
fn edited_case(rng: &mut Rng) -> Case {
    let pair = edited(rng);
    let (total, any) = (pair.total(), rng.below(pair.total() + 1));
    let room = rng.pick(&[total, total, total, total + 1, total + 9, total.saturating_sub(1), 0, any]);
    pair.case("edited map", room, rng)
}

/// Edited maps, with too few words for one of them or for both.
fn few_words_case(rng: &mut Rng) -> Case {
    let pair = edited(rng);
    let needed = [&pair.old, &pair.new].map(|map| 4 * map.nodes.len());
    let lent = rng.pick(&needed).saturating_sub(rng.pick(&[0, 1, 1, 4]));
    few_words(pair.case("few words", pair.total(), rng), needed, lent)
}

/// The case of two good maps with so many words.
pub(crate) fn few_words(mut case: Case, [old, new]: [usize; 2], lent: usize) -> Case {
    if let Question::Differences { words, .. } = &mut case.question {
        words.resize(lent, 0x5A5A);
    }
    let short = Refusal::new(30, 7, 0);
    if lent < old {
        case.expected = refused(DifferenceFile::Old, short);
    } else if lent < new {
        case.expected = refused(DifferenceFile::New, short);
    }
    case
}

/// A map of Doom and one of Hexen.
fn games_case(room: usize, rng: &mut Rng) -> Case {
    let (mut plans, hexen) = ([sound_plan(rng), sound_plan(rng)], rng.once_in(2));
    for (plan, hexen) in plans.iter_mut().zip([hexen, !hexen]) {
        while plan.map.hexen != hexen {
            *plan = sound_plan(rng);
        }
    }
    let [old, new] = plans.map(|plan| map_case("two games", &plan, Expected::Accepted));
    compared("two games", old, new, Some(Err(of_neither(76))), room)
}

/// A map with damages of every family, as the old one, the new one or both.
fn refused_case(room: usize, rng: &mut Rng) -> Case {
    let damaged = |rng: &mut Rng| match rng.once_in(2) {
        true => single_case(rng.word(), rng.below(1 << 30)),
        false => pair_case(rng.word(), rng.below(1 << 30)),
    };
    let good = |rng: &mut Rng| map_case("good map", &sound_plan(rng), Expected::Accepted);
    let (old, new) = match rng.below(3) {
        0 => (damaged(rng), good(rng)),
        1 => (good(rng), damaged(rng)),
        _ => (damaged(rng), damaged(rng)),
    };
    compared("refused map", old, new, None, room)
}

/// A file, and the same with a few bytes flipped, in either order.
fn flipped_case(room: usize, rng: &mut Rng) -> Case {
    let old = valid_case(rng);
    let mut new = Case { expected: Expected::Unknown, ..old.clone() };
    flip(&mut new.bytes, rng);
    let (old, new) = if rng.once_in(2) { (old, new) } else { (new, old) };
    compared("flipped map", old, new, None, room)
}

/// A map check's case as one that asks what changed: between the map and itself, or between it and a good one.
pub fn with_other(case: Case, rng: &mut Rng) -> Case {
    let (label, room) = (case.label.clone(), rng.pick(&[0, 3, 400]));
    let good = map_case("good map", &sound_plan(rng), Expected::Accepted);
    match rng.below(3) {
        0 => compared(&label, case.clone(), case, Some(Ok([0; 8])), room),
        1 => compared(&label, case, good, None, room),
        _ => compared(&label, good, case, None, room),
    }
}
