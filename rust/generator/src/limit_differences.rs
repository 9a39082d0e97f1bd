//! Both sides of each rule on what changed between two maps (W-213): records changed, added and dropped, the list, the words, and the games.

use crate::differences::{any_file, compared, few_words, of_neither, Pair};
use crate::edit::{count, GROUPS};
use crate::limit::Build;
use crate::{damages, map_case, single_case, Case, Expected, Kind, MapSpec, Plan, Rng, Sizes, MAP_NAME};

/// All of them.
pub(crate) fn differences_limits() -> Vec<Build> {
    let mut all: Vec<Build> = Vec::new();
    for hexen in [false, true] {
        all.extend((1..=8).flat_map(|place| changed(place, hexen)));
        all.extend((1..=8).flat_map(|place| flipped(place, hexen)));
        all.extend(GROUPS.into_iter().flat_map(|group| grown(group, hexen)));
        all.extend(words(hexen));
    }
    all.extend(games());
    all.extend(refusals());
    all.extend((1..=8).flat_map(largest));
    all
}

/// Three of everything and a little more, so that a lump has a first record, a last and one between.
fn map(hexen: bool) -> MapSpec {
    let some = Sizes { things: 3, linedefs: 4, sidedefs: 3, vertices: 5, segs: 4, sectors: 3, ..Sizes::tree(3) };
    MapSpec::plain(some.of(hexen), &mut Rng::new(21))
}

/// Lists of no word, one too few, just enough, one more, and many more.
fn rooms(total: usize) -> Vec<usize> {
    let mut rooms = vec![0, total.saturating_sub(1), total, total + 1, total + 70];
    rooms.dedup();
    rooms
}

/// A case for each length of the list.
fn of_rooms(label: &'static str, pair: impl Fn(&mut Rng) -> Pair + Clone + 'static) -> Vec<Build> {
    let total = pair(&mut Rng::new(22)).total();
    let build = |room: usize| -> Build {
        let pair = pair.clone();
        Box::new(move || {
            let mut rng = Rng::new(22);
            pair(&mut rng).case(label, room, &mut rng)
        })
    };
    rooms(total).into_iter().map(build).collect()
}

/// Each record of a lump alone, and all of them.
fn changed(place: usize, hexen: bool) -> Vec<Build> {
    let count = count(&map(hexen), place);
    let alone = (0..count).map(|index| index..index + 1);
    let touched = move |range: std::ops::Range<usize>, rng: &mut Rng| {
        let mut pair = Pair::same(map(hexen));
        range.for_each(|index| pair.touch(place, index, rng));
        pair
    };
    alone.chain([0..0, 0..count]).flat_map(|range| of_rooms("changed records", move |rng| touched(range.clone(), rng))).collect()
}

/// Each byte of a lump flipped alone; where that makes the map bad, the refusal is the new map's.
fn flipped(place: usize, hexen: bool) -> Vec<Build> {
    let size = Kind::at(place, hexen).size() * count(&map(hexen), place);
    let build = |at: usize| -> Build {
        Box::new(move || {
            let plan = Plan::new(map(hexen), MAP_NAME);
            let old = map_case("flipped byte", &plan, Expected::Accepted);
            let mut new = Case { expected: Expected::Unknown, ..old.clone() };
            let (offset, _) = reader::entry(&new.bytes, place).expect("a lump of the map");
            new.bytes[offset + at] ^= 1;
            compared("flipped byte", old, new, None, 1)
        })
    };
    (0..size).map(build).collect()
}

/// One record or two that come or go, alone and with a change before them.
fn grown(group: &'static [usize], hexen: bool) -> Vec<Build> {
    let mut all = Vec::new();
    for (added, dropped, is_changed) in [(1, 0, false), (2, 0, true), (0, 1, false), (0, 2, true)] {
        all.extend(of_rooms("records that come or go", move |rng| {
            let mut pair = Pair::same(map(hexen));
            if is_changed {
                pair.touch(group[0], 1, rng);
            }
            (0..added).for_each(|_| pair.add(group, rng));
            (0..dropped).for_each(|_| pair.drop(group, rng));
            pair
        }));
    }
    all
}

/// Words around what each of the maps needs, of which one has two nodes more.
fn words(hexen: bool) -> Vec<Build> {
    let mut all: Vec<Build> = Vec::new();
    for (added, dropped) in [(2, 0), (0, 2), (0, 0)] {
        for lent in [0, 4, 11, 12, 13, 19, 20, 21] {
            all.push(Box::new(move || {
                let (mut pair, mut rng) = (Pair::same(map(hexen)), Rng::new(23));
                (0..added).for_each(|_| pair.add(&[6, 7], &mut rng));
                (0..dropped).for_each(|_| pair.drop(&[6, 7], &mut rng));
                let needed = [&pair.old, &pair.new].map(|map| 4 * map.nodes.len());
                few_words(pair.case("words for two maps", pair.total(), &mut rng), needed, lent)
            }));
        }
    }
    all
}

/// Maps of each two games, with a list and without: 76 comes before 75.
fn games() -> Vec<Build> {
    let mut all: Vec<Build> = Vec::new();
    for games in [[false, false], [false, true], [true, false], [true, true]] {
        for room in [0, 200] {
            all.push(Box::new(move || {
                let [old, new] = games.map(|hexen| map_case("", &Plan::new(map(hexen), MAP_NAME), Expected::Accepted));
                let due = (games[0] != games[1]).then_some(Err(of_neither(76)));
                compared("games", old, new, due, room)
            }));
        }
    }
    all
}

/// Every damage in either map, the other being good, of either game, or damaged too; with no room for a list.
fn refusals() -> Vec<Build> {
    let mut all: Vec<Build> = Vec::new();
    for damage in 0..damages().len() {
        for (hexen, is_old) in [(false, false), (false, true), (true, false), (true, true)] {
            all.push(Box::new(move || {
                let good = map_case("good map", &any_file(map(hexen), &mut Rng::new(24)), Expected::Accepted);
                let bad = single_case(25, damage);
                let (old, new) = if is_old { (bad, good) } else { (good, bad) };
                compared("damaged map", old, new, None, 0)
            }));
        }
        all.push(Box::new(move || compared("damaged maps", single_case(26, damage), single_case(27, 7 * damage), None, 0)));
    }
    all
}

/// As many records of a lump as a map may have, or of SECTORS many: the last of them is changed, or comes, or all but the first come or go.
fn largest(place: usize) -> Vec<Build> {
    let most = match place {
        6 | 7 => 32_766,
        8 => 2_000,
        _ => 65_535,
    };
    let sized = move |count: usize| {
        let mut sizes = Sizes { things: 1, ..Sizes::tree(1) };
        match place {
            1 => sizes.things = count,
            2 => sizes.linedefs = count,
            3 => sizes.sidedefs = count,
            4 => sizes.vertices = count,
            5 => sizes.segs = count,
            8 => sizes.sectors = count,
            _ => sizes = Sizes { segs: 2, ..Sizes::tree(count) },
        }
        MapSpec::plain(sizes, &mut Rng::new(28))
    };
    let last: Build = Box::new(move || {
        let (mut pair, mut rng) = (Pair::same(sized(most)), Rng::new(29));
        pair.touch(place, most - 1, &mut rng);
        pair.case("last of the most records", 1, &mut rng)
    });
    let come: Build = Box::new(move || {
        let (mut pair, mut rng) = (Pair::same(sized(most - 1)), Rng::new(30));
        pair.add(GROUPS[place - 1], &mut rng);
        pair.case("most records", pair.total(), &mut rng)
    });
    let many = move |is_old_small: bool| -> Build {
        Box::new(move || {
            let [small, large] = [sized(1), sized(most)].map(|map| map_case("", &Plan::new(map, MAP_NAME), Expected::Accepted));
            let (old, new) = if is_old_small { (small, large) } else { (large, small) };
            compared("one record and the most", old, new, None, 140_000)
        })
    };
    vec![last, come, many(true), many(false)]
}
