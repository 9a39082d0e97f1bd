//! Both sides of the rules on the run of lumps, in both games: names twice, missing lumps, sizes.

use crate::damage::clear;
use crate::limit::Build;
use crate::name::length_of;
use crate::{map_case, Content, EntryPlan, Expected, MapSpec, Plan, Rng, Sizes};
use crate::{LUMP_NAMES, MAP_NAME};
use reader::{Accepted, Refusal};

/// All of them.
pub(crate) fn run_limits() -> Vec<Build> {
    let in_game = |hexen| [twice(hexen), missing(hexen), sizes_in_turn(hexen)].into_iter().flatten();
    in_game(false).chain(in_game(true)).collect()
}

/// A small good file of a game with one edit of its plan.
pub(crate) fn planned(
    hexen: bool,
    label: &'static str,
    edit: impl Fn(&mut Plan) + 'static,
    verdict: Result<usize, Refusal>,
) -> Build {
    Box::new(move || {
        let mut plan = Plan::new(MapSpec::plain(Sizes::tree(1).of(hexen), &mut Rng::new(14)), MAP_NAME);
        edit(&mut plan);
        let expected = match verdict {
            Ok(marker) => Expected::Map(Accepted { depth: 1, marker }),
            Err(refusal) => Expected::Refused(refusal),
        };
        map_case(label, &plan, expected)
    })
}

/// The refusal of a place, of its record 0.
pub(crate) fn refused(number: u32, place: usize) -> Result<usize, Refusal> {
    Err(Refusal::new(number, place, 0))
}

/// An entry that is no lump of the map.
fn entry(name: &[u8; 8], size: usize) -> EntryPlan {
    EntryPlan::new(*name, Content::Bytes(vec![1; size]))
}

/// Of several entries of the name the last one counts, good or bad.
fn twice(hexen: bool) -> Vec<Build> {
    let planned = |label, edit: fn(&mut Plan), verdict| planned(hexen, label, edit, verdict);
    let entries = if hexen { 12 } else { 11 };
    vec![
        planned("once", |_| (), Ok(0)),
        planned("lone marker before", |plan| plan.entries.insert(0, entry(&MAP_NAME, 0)), Ok(1)),
        planned("full entry before", |plan| plan.entries.insert(0, entry(&MAP_NAME, 9)), Ok(1)),
        planned("lone marker after", |plan| plan.entries.push(entry(&MAP_NAME, 0)), refused(12, 1)),
        planned("full entry after", |plan| plan.entries.push(entry(&MAP_NAME, 1)), refused(12, 0)),
        planned("map twice", |plan| plan.entries.extend(plan.entries.clone()), Ok(entries)),
        planned(
            "bad map before",
            |plan| {
                let mut bad = plan.entries.clone();
                bad[2].padding = vec![0];
                plan.entries.splice(0..0, bad);
            },
            Ok(entries),
        ),
        planned(
            "bad map after",
            |plan| {
                let mut bad = plan.entries.clone();
                bad[2].padding = vec![0];
                plan.entries.extend(bad);
            },
            refused(20, 2),
        ),
    ]
}

/// Each of the ten missing, misnamed, doubled, or past the directory's end. A second BLOCKMAP takes BEHAVIOR's place, and then
/// Hexen's one linedef is cut off in Doom's size.
fn missing(hexen: bool) -> Vec<Build> {
    let mut all = Vec::new();
    for place in 1..=10 {
        let lost = move |plan: &mut Plan| drop(plan.entries.remove(place));
        all.push(planned(hexen, "lump missing", lost, refused(12, place)));
        let short = move |plan: &mut Plan| plan.entries.truncate(place);
        all.push(planned(hexen, "directory's end", short, refused(12, place)));
        let double = move |plan: &mut Plan| {
            plan.entries.insert(place + 1, plan.entries[place].clone());
        };
        let verdict = match place {
            10 if hexen => refused(20, 2),
            10 => Ok(0),
            _ => refused(12, place + 1),
        };
        all.push(planned(hexen, "lump twice", double, verdict));
        for at in 0..8 {
            let rename = move |plan: &mut Plan| misname(&mut plan.entries[place].name, at);
            let is_rubbish = at > length_of(&LUMP_NAMES[place - 1]);
            all.push(planned(hexen, "misnamed", rename, if is_rubbish { Ok(0) } else { refused(12, place) }));
        }
    }
    all
}

/// 20 before 21 in a lump, but lump by lump. THINGS may be empty; NODES may not, as there are two subsectors.
fn sizes_in_turn(hexen: bool) -> Vec<Build> {
    let mut all = Vec::new();
    for place in 1..=8 {
        for bytes in [1, 2, 3] {
            let part = move |plan: &mut Plan| {
                clear(&mut plan.map, place);
                plan.entry_at(place).padding = vec![0; bytes];
            };
            all.push(planned(hexen, "part of the only record", part, refused(20, place)));
        }
        for other in 1..=8 {
            let both = move |plan: &mut Plan| {
                clear(&mut plan.map, place);
                plan.entry_at(other).padding = vec![0];
            };
            let empty_is_first = place < other && place != 1;
            let verdict = if empty_is_first { refused(21, place) } else { refused(20, other) };
            all.push(planned(hexen, "empty lump and part of a record", both, verdict));
        }
    }
    all
}

/// Changes one character.
fn misname(name: &mut [u8; 8], at: usize) {
    name[at] = if name[at] == b'Q' { b'P' } else { b'Q' };
}
