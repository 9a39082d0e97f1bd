//! Both sides of what makes a map Hexen's: BEHAVIOR as the eleventh entry after the marker, and no other.

use crate::limit::Build;
use crate::limit_run::{planned, refused};
use crate::name::cut;
use crate::plan::BEHAVIOR;
use crate::search::named_entries;
use crate::{Case, Content, EntryPlan, Expected, Plan, Question, MAP_NAME};
use reader::{Linedef, Refusal};

/// How far BEHAVIOR stands behind the marker of a Hexen map.
pub(crate) const BEHAVIOR_PLACE: usize = 11;

/// Whether the entry that stands eleven behind this one is called BEHAVIOR.
pub(crate) fn is_hexen(plan: &Plan, marker: usize) -> bool {
    plan.entries.get(marker + BEHAVIOR_PLACE).is_some_and(|entry| cut(&entry.name) == BEHAVIOR)
}

/// All of them.
pub(crate) fn game_limits() -> Vec<Build> {
    let mut all = places();
    all.extend(counts());
    all.extend(asked_of_bad_files());
    all.extend(behavior_of_a_map());
    all.extend(one_lump_in_both_games());
    all
}

fn ask(label: &str, names: &[[u8; 8]], marker: usize, expected: Expected) -> Case {
    Case::new(label, named_entries(names), Question::MapGame { marker }, expected)
}

/// BEHAVIOR in each place after an entry, in directories that end there or later; nothing else is asked of any entry.
fn places() -> Vec<Build> {
    let mut all: Vec<Build> = Vec::new();
    for name in [BEHAVIOR, *b"BEHAVIO\0", *b"BEHAVIO\0", *b"BEHAVIOS", MAP_NAME] {
        for place in 0..=13 {
            for later in [0, 1, 3] {
                for before in [0, 2] {
                    all.push(Box::new(move || {
                        let mut names = vec![MAP_NAME; before + place + 1 + later];
                        names[before + place] = name;
                        let hexen = name == BEHAVIOR && place == BEHAVIOR_PLACE;
                        ask("place of BEHAVIOR", &names, before, Expected::Hexen(hexen))
                    }));
                }
            }
        }
    }
    all
}

/// Markers at the directory's end and past it, BEHAVIOR being everywhere; up to numbers that would wrap.
fn counts() -> Vec<Build> {
    let mut all: Vec<Build> = Vec::new();
    for count in [0, 1, 11, 12, 13, 4_096] {
        let ends = [count, count + 1, usize::MAX, usize::MAX - 10, usize::MAX - 11, 1 << 32];
        let inside = (0..14).filter_map(move |back| usize::checked_sub(count, back));
        for marker in inside.chain(ends) {
            all.push(Box::new(move || {
                let expected = match () {
                    () if marker >= count => Expected::Refused(Refusal::plain(7)),
                    () => Expected::Hexen(count - marker > BEHAVIOR_PLACE),
                };
                ask("marker's number", &vec![BEHAVIOR; count], marker, expected)
            }));
        }
    }
    all
}

/// A file's own faults come first, wherever the marker is.
fn asked_of_bad_files() -> Vec<Build> {
    let mut all: Vec<Build> = Vec::new();
    for marker in [0, 12, usize::MAX] {
        all.push(Box::new(move || {
            let mut names = [BEHAVIOR; 12];
            names[5] = *b"behavior";
            ask("game in a bad directory", &names, marker, Expected::Refused(Refusal::new(6, 0, 5)))
        }));
        all.push(Box::new(move || {
            let mut case = ask("game in a short file", &[BEHAVIOR; 12], marker, Expected::Refused(Refusal::plain(4)));
            case.bytes.pop();
            case
        }));
    }
    all
}

/// An entry that is no lump of the map.
fn entry(name: &[u8; 8], size: usize) -> EntryPlan {
    EntryPlan::new(*name, Content::Bytes(vec![1; size]))
}

/// Maps by whose BEHAVIOR their records are judged: the one linedef has 14 bytes in Doom and 16 in Hexen, and is cut off in the other.
fn behavior_of_a_map() -> Vec<Build> {
    let (doom, hexen, name) = (false, true, &BEHAVIOR);
    let other = refused(20, 2);
    vec![
        planned(doom, "Doom's", |_| (), Ok(0)),
        planned(hexen, "Hexen's", |_| (), Ok(0)),
        planned(hexen, "empty BEHAVIOR", |plan| plan.entries[11] = entry(name, 0), Ok(0)),
        planned(hexen, "long BEHAVIOR", |plan| plan.entries[11] = entry(name, 1000), Ok(0)),
        planned(hexen, "BEHAVIOR twice", |plan| plan.entries.push(entry(name, 7)), Ok(0)),
        planned(doom, "Doom's with an empty BEHAVIOR", |plan| plan.entries.push(entry(name, 0)), other),
        planned(doom, "Doom's with BEHAVIOR", |plan| plan.entries.push(entry(name, 7)), other),
        planned(doom, "Doom's, almost BEHAVIOR", |plan| plan.entries.push(entry(b"BEHAVIO\0", 7)), Ok(0)),
        planned(doom, "Doom's, BEHAVIOR before", |plan| plan.entries.insert(0, entry(name, 7)), Ok(1)),
        planned(doom, "Doom's, BEHAVIOR one later", |plan| plan.entries.extend([entry(b"SCRIPTS\0", 7), entry(name, 7)]), Ok(0)),
        planned(doom, "Doom's, BEHAVIOR within", |plan| plan.entries.insert(5, entry(name, 7)), refused(12, 5)),
        planned(hexen, "Hexen's without BEHAVIOR", |plan| plan.entries.truncate(11), other),
        planned(hexen, "Hexen's, almost BEHAVIOR", |plan| plan.entries[11].name = *b"BEHAVIO\0", other),
        planned(hexen, "Hexen's, BEHAVIOR one later", |plan| plan.entries.insert(11, entry(b"SCRIPTS\0", 7)), other),
        planned(hexen, "Hexen's, BEHAVIOR before", |plan| plan.entries.swap(0, 11), refused(12, 1)),
    ]
}

/// LINEDEFS of 112 zero bytes is eight linedefs in Doom and seven in Hexen, good ones in both; THINGS of 20 is two things, or one.
/// So linedef 7 is there in one game only.
fn one_lump_in_both_games() -> Vec<Build> {
    let mut all = Vec::new();
    for (hexen, linedef) in [(false, 6), (true, 6), (false, 7), (true, 7)] {
        let fits = !hexen || linedef < 7;
        let lumps = move |plan: &mut Plan| {
            plan.entry_at(1).content = Content::Bytes(vec![0; 20]);
            plan.entry_at(2).content = Content::Bytes(vec![0; 112]);
        };
        let by_seg = move |plan: &mut Plan| {
            lumps(plan);
            plan.map.linedefs = vec![Linedef::default(); 8];
            plan.map.segs[0].linedef = linedef;
        };
        all.push(planned(hexen, "seg's linedef in both games", by_seg, if fits { Ok(0) } else { refused(25, 5) }));
        let by_list = move |plan: &mut Plan| {
            lumps(plan);
            plan.map.blockmap.give_list(0, &[0, linedef, 65_535]);
        };
        all.push(planned(hexen, "list's linedef in both games", by_list, if fits { Ok(0) } else { refused(28, 10) }));
    }
    for (bytes, number) in [(10, 20), (20, 0), (30, 20), (40, 0)] {
        let things = move |plan: &mut Plan| plan.entry_at(1).content = Content::Bytes(vec![0; bytes]);
        all.push(planned(false, "bytes of things", things, Ok(0)));
        all.push(planned(true, "bytes of things", things, if number == 0 { Ok(0) } else { refused(20, 1) }));
    }
    for (bytes, doom, hexen) in [(14, Ok(0), refused(20, 2)), (16, refused(20, 2), Ok(0)), (28, Ok(0), refused(20, 2))] {
        let linedefs = move |plan: &mut Plan| plan.entry_at(2).content = Content::Bytes(vec![0; bytes]);
        all.push(planned(false, "bytes of linedefs", linedefs, doom));
        all.push(planned(true, "bytes of linedefs", linedefs, hexen));
    }
    all
}
