//! Minimal damages of a file: each brings one refusal about. Here the file, the directory and
//! the run of lumps (1 to 22); the records' damages are in `damage_records`, the graph's in
//! `damage_graph`.

use crate::damage_graph::GRAPH_DAMAGES;
use crate::damage_records::RECORD_DAMAGES;
use crate::game::{is_hexen, BEHAVIOR_PLACE};
use crate::name::cut;
use crate::plan::BEHAVIOR;
use crate::record::{any_linedef, any_thing};
use crate::{EntryPlan, Kind, MapSpec, Plan, Rng, LUMP_NAMES};
use reader::{Linedef, Refusal};

/// One way to spoil a good file.
#[derive(Clone, Copy)]
pub struct Damage {
    /// The refusal number it brings about.
    pub number: u32,
    /// What is wrong, in words.
    pub label: &'static str,
    /// Spoils the plan and answers the refusal due.
    pub apply: fn(&mut Plan, &mut Rng) -> Refusal,
}

/// All damages, numbers rising. Within a number, a later one may be applied after an earlier
/// one without mending it.
pub fn damages() -> Vec<Damage> {
    [FILE_DAMAGES, RUN_DAMAGES, RECORD_DAMAGES, GRAPH_DAMAGES].concat()
}

/// Shorthand of the tables.
pub(crate) const fn damage(number: u32, label: &'static str, apply: fn(&mut Plan, &mut Rng) -> Refusal) -> Damage {
    Damage { number, label, apply }
}

const FILE_DAMAGES: &[Damage] = &[
    damage(1, "file under 12 bytes", |plan, rng| {
        plan.length = Some(rng.below(12));
        Refusal::plain(1)
    }),
    damage(2, "mark", |plan, rng| {
        plan.mark = *rng.pick(&[b"JWAD", b"iwad", b"PWAE", b"IWAd", b"\0\0\0\0", b"PK\x03\x04"]);
        Refusal::plain(2)
    }),
    damage(3, "count of lumps", |plan, rng| {
        plan.count = Some(rng.pick(&[-1, 4097, i32::MIN, i32::MAX]));
        Refusal::plain(3)
    }),
    damage(4, "directory starts too low or ends too high", |plan, rng| {
        plan.start = Some(rng.pick(&[11, 0, -1, i32::MIN, i32::MAX, i32::MAX - 16]));
        Refusal::plain(4)
    }),
    damage(4, "count that is allowed and does not fit", |plan, _| {
        (plan.count, plan.directory_first) = (Some(4096), false);
        Refusal::plain(4)
    }),
    damage(5, "first entry", |plan, rng| entry_outside(plan, 0, rng)),
    damage(5, "entry in the map", |plan, rng| entry_outside(plan, plan.marker + 1, rng)),
    damage(6, "first entry's name", |plan, rng| bad_name(plan, 0, rng)),
    damage(6, "name in the map", |plan, rng| bad_name(plan, plan.marker + 1, rng)),
    damage(10, "asked name", |plan, rng| {
        plan.name = BAD_MAP_NAMES[rng.below(BAD_MAP_NAMES.len())].to_vec();
        Refusal::plain(10)
    }),
    damage(11, "no such entry", |plan, _| {
        let name = plan.entries[plan.marker].name;
        for entry in plan.entries.iter_mut().filter(|entry| cut(&entry.name) == cut(&name)) {
            entry.name = *b"MAP0\0\0\0\0";
        }
        Refusal::plain(11)
    }),
];

/// Names that are no map's.
pub(crate) const BAD_MAP_NAMES: &[&[u8]] = &[
    b"", b"E1M1", b"MAP01", b"MAP01\0\0", b"MAP01\0\0\0\0", b"E0M1\0\0\0\0", b"E1M0\0\0\0\0", b"E1M10\0\0\0", b"e1m1\0\0\0\0",
    b"E1N1\0\0\0\0", b"F1M1\0\0\0\0", b"MAP00\0\0\0", b"MAP1\0\0\0\0", b"MAP100\0\0", b"MAP0A\0\0\0", b"MAP:1\0\0\0",
    b"MAP1:\0\0\0", b"MAP/1\0\0\0", b"MAP01A\0\0", b"MAP0\x001\0\0", b"E1M\x001\0\0\0", b"\0MAP01\0\0", &[0; 8], b"THINGS\0\0",
];

const RUN_DAMAGES: &[Damage] = &[
    damage(12, "marker's size", |plan, _| {
        plan.entry_at(0).padding = vec![0];
        Refusal::new(12, 0, 0)
    }),
    damage(12, "lump under the next one's name", |plan, rng| {
        let place = rng.between(1, 9);
        plan.entry_at(place).name = LUMP_NAMES[place];
        Refusal::new(12, place, 0)
    }),
    damage(12, "misnamed lump", |plan, rng| {
        let place = rng.between(1, 10);
        plan.entry_at(place).name = *rng.pick(&[b"X\0\0\0\0\0\0\0", b"THING\0\0\0", b"BLOCKMAQ"]);
        Refusal::new(12, place, 0)
    }),
    damage(12, "directory that ends early", |plan, _| {
        plan.entries.truncate(plan.marker + 10);
        Refusal::new(12, 10, 0)
    }),
    damage(20, "part of a record", |plan, rng| {
        let place = rng.between(1, 8);
        let size = Kind::at(place, plan.map.hexen).size();
        let bytes = match (place, rng.between(1, size - 1)) {
            (1, 10) => 9,
            (_, bytes) => bytes,
        };
        plan.entry_at(place).padding = vec![0; bytes];
        Refusal::new(20, place, 0)
    }),
    damage(20, "records of the other game", |plan, rng| match plan.map.hexen {
        true => without_behavior(plan, rng),
        false => with_behavior(plan, rng),
    }),
    damage(21, "no record", |plan, rng| {
        let place = rng.pick(&[2, 3, 4, 5, 6, 8]);
        clear(&mut plan.map, place);
        Refusal::new(21, place, 0)
    }),
    damage(21, "no node for two subsectors", |plan, _| {
        clear(&mut plan.map, 7);
        Refusal::new(21, 7, 0)
    }),
    damage(21, "32,768 subsectors", |plan, _| {
        let first = plan.map.subsectors.first().copied().unwrap_or_default();
        plan.map.subsectors.resize(32_768, first);
        Refusal::new(21, 6, 0)
    }),
    damage(22, "REJECT a byte too long", |plan, _| {
        plan.entry_at(9).padding = vec![0];
        Refusal::new(22, 9, 0)
    }),
    damage(22, "REJECT too short", |plan, rng| {
        let size = rng.below(plan.map.reject.len());
        plan.map.reject.truncate(size);
        plan.entry_at(9).padding.clear();
        Refusal::new(22, 9, 0)
    }),
];

/// Puts BEHAVIOR behind a Doom map with an odd number of things: a thing of Hexen has the bytes of two.
fn with_behavior(plan: &mut Plan, rng: &mut Rng) -> Refusal {
    if plan.map.things.len().is_multiple_of(2) {
        plan.map.things.push(any_thing(false, rng));
    }
    let mut entry = EntryPlan::empty(BEHAVIOR);
    entry.padding = vec![7; rng.below(2)];
    plan.entries.insert(plan.marker + BEHAVIOR_PLACE, entry);
    Refusal::new(20, 1, 0)
}

/// Takes BEHAVIOR from a Hexen map whose LINEDEFS are no multiple of Doom's size; its THINGS always are.
fn without_behavior(plan: &mut Plan, rng: &mut Rng) -> Refusal {
    let part = plan.entry_at(2).padding.len();
    while (Linedef::HEXEN_SIZE * plan.map.linedefs.len() + part).is_multiple_of(Linedef::SIZE) {
        plan.map.linedefs.push(any_linedef(true, rng));
    }
    if is_hexen(plan, plan.marker) {
        plan.entries.remove(plan.marker + BEHAVIOR_PLACE);
    }
    Refusal::new(20, 2, 0)
}

/// Takes all records at `place`, 1 to 8, away.
pub(crate) fn clear(map: &mut MapSpec, place: usize) {
    match place {
        1 => map.things.clear(),
        2 => map.linedefs.clear(),
        3 => map.sidedefs.clear(),
        4 => map.vertices.clear(),
        5 => map.segs.clear(),
        6 => map.subsectors.clear(),
        7 => map.nodes.clear(),
        _ => map.sectors.clear(),
    }
}

fn entry_outside(plan: &mut Plan, number: usize, rng: &mut Rng) -> Refusal {
    let most = i32::MAX;
    let wrong = [(11, 1), (12, -1), (0, i32::MIN), (-1, 1), (most, most), (12, most), (most, 1)];
    let (offset, size) = rng.pick(&wrong);
    let entry = &mut plan.entries[number];
    (entry.offset, entry.size) = (Some(offset), Some(size));
    Refusal::new(5, 0, number)
}

fn bad_name(plan: &mut Plan, number: usize, rng: &mut Rng) -> Refusal {
    let bad: [&[u8; 8]; 10] = [
        &[0; 8], b"\0THINGS\0", b"things\0\0", b"t\0HINGS\0", b"THINGS \0", b"A.LMP\0\0\0", b"ABCDEFG\x80", b"A^\0\0\0\0\0\0",
        b"@\0\0\0\0\0\0\0", b"\0\0\0\0\0\0\0\x01",
    ];
    plan.entries[number].name = *rng.pick(&bad);
    Refusal::new(6, 0, number)
}
