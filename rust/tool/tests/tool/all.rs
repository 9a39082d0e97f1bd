//! `judge --all`: what else is wrong, found by the library in a copy in which the records before it are good.

use crate::json_reader::{object, Value};
use crate::support::{changed, good, Folder};
use generator::{hexen_rooms, rooms, Content, MapSpec, Plan, MAP_NAME};
use reader::{NO_SIDEDEF, SUBSECTOR_BIT, TWO_SIDED};

const ALSO: &str = "(in a copy in which the records above are good)";

/// What follows the map's name on each line of `judge --all`, up to the first colon.
fn places(wad: &[u8]) -> Vec<String> {
    let said = Folder::with("a.wad", wad).run(&["judge", "--all", "a.wad"]);
    assert_eq!((said.status, said.err.as_str()), (1, ""), "{said:?}");
    let place = |line: &str| line.strip_prefix("a.wad:MAP01: ").expect("a line").split(": ").next().expect("a place").to_string();
    said.out.lines().map(place).collect()
}

fn also(place: &str) -> String {
    format!("also {place} {ALSO}")
}

#[test]
fn further_records_are_listed_in_turn() {
    let spoil = |map: &mut MapSpec| {
        (map.linedefs[5].start, map.linedefs[5].end, map.linedefs[5].left) = (99, 98, 97);
        map.linedefs[6].flags |= TWO_SIDED;
        map.sidedefs[7].sector = 4;
        map.segs[3].direction = 1;
        map.subsectors[2].number = 0;
        map.nodes[1].right = 77;
        map.blockmap.offsets[0] = 1;
        map.blockmap.offsets[9] = 2;
    };
    let listed = [
        "23 at LINEDEFS 6", "24 at SIDEDEFS 7", "25 at SEGS 3", "26 at SSECTORS 2", "27 at NODES 1", "28 at BLOCKMAP cell 0",
        "28 at BLOCKMAP cell 9",
    ];
    let expected: Vec<String> = [String::from("refused 23 at LINEDEFS 5")].into_iter().chain(listed.map(also)).collect();
    assert_eq!(places(&changed(spoil)), expected);
    let mut hexen = hexen_rooms();
    spoil(&mut hexen);
    assert_eq!(places(&Plan::wad_of(hexen)).len(), expected.len());
}

#[test]
fn the_lines_say_what_the_map_holds_and_not_the_copy() {
    let wad = changed(|map| {
        map.linedefs[5].right = 99;
        map.sidedefs[0].sector = 4;
        map.segs[3].direction = 1;
    });
    let said = Folder::with("a.wad", &wad).run(&["judge", "--all", "a.wad"]);
    let lines = [
        "a.wad:MAP01: refused 23 at LINEDEFS 5: linedef 5, from (512, 256) to (512, 0), has right sidedef 99, and \
         this map has sidedefs 0 to 15: give it a new right side"
            .to_string(),
        format!(
            "a.wad:MAP01: also 24 at SIDEDEFS 0 {ALSO}: sidedef 0, the right side of linedef 0, from (0, 0) to \
             (0, 256), faces sector 4, and this map has sectors 0 to 3: give it a sector that is there"
        ),
        format!(
            "a.wad:MAP01: also 25 at SEGS 3 {ALSO}: seg 3, from (256, 0) to (0, 0) along linedef 3, is on the \
             left side of a linedef that has none. Build the nodes again."
        ),
    ];
    said.is(1, &[&lines[0], &lines[1], &lines[2]]);
}

#[test]
fn a_seg_is_not_charged_with_a_linedef_that_lacks_its_left_side() {
    // The opening 2 is marked two-sided, and segs run along both of its sides.
    let wad = changed(|map| map.linedefs[2].left = NO_SIDEDEF);
    assert_eq!(places(&wad), ["refused 23 at LINEDEFS 2"]);
}

#[test]
fn at_most_20_further_records_are_listed() {
    let bad = |count: usize| {
        changed(|map| {
            let side = map.sidedefs[0];
            map.sidedefs.extend(vec![reader::Sidedef { sector: 9, ..side }; count]);
        })
    };
    assert_eq!(places(&bad(21)).len(), 21);
    let lines = places(&bad(22));
    assert_eq!(
        (lines.len(), lines[20].as_str(), lines[21].as_str()),
        (22, also("24 at SIDEDEFS 36").as_str(), "and more than these 20 further records")
    );
}

#[test]
fn the_graph_is_judged_where_no_node_was_changed() {
    let loops = |map: &mut MapSpec| {
        map.segs[3].direction = 1;
        map.nodes[1].right = 2;
    };
    assert_eq!(places(&changed(loops)), ["refused 25 at SEGS 3", &also("31 at NODES")]);
    let other = |map: &mut MapSpec| {
        map.nodes[0].left = SUBSECTOR_BIT | 99;
        map.nodes[1].right = 2;
    };
    assert_eq!(places(&changed(other)), ["refused 27 at NODES 0"]);
}

#[test]
fn a_blockmap_without_cells_is_passed_over() {
    let headless = |map: &mut MapSpec| {
        map.blockmap.columns = 0;
        map.nodes[2].right = 0;
    };
    let lines = places(&changed(headless));
    assert_eq!(lines, ["refused 28 at BLOCKMAP header", &also("32 at NODES"), "there may be more"]);
    let all_bad = |map: &mut MapSpec| map.blockmap.offsets.iter_mut().for_each(|offset| *offset = 0);
    assert_eq!(places(&changed(all_bad)), ["refused 28 at BLOCKMAP cell 0", "there may be more"]);
}

#[test]
fn a_map_whose_lumps_share_bytes_may_be_too_long_to_be_copied() {
    let mut map = rooms();
    map.linedefs[5].right = 99;
    map.sectors.resize(8_600, map.sectors[0]);
    let mut plan = Plan::new(map, MAP_NAME);
    let mut shared = plan.map.lump(10);
    shared.resize((8_600 * 8_600) / 8, 0);
    plan.entry_at(9).content = Content::Bytes(shared.clone());
    plan.entry_at(10).content = Content::Bytes(shared);
    plan.overlap = true;
    let said = Folder::with("a.wad", &plan.wad()).run(&["judge", "--all", "a.wad"]);
    let words = "there may be more: the map's lumps share bytes, and a copy of it is too long to be judged";
    assert_eq!((said.out.lines().nth(1), said.status), (Some(format!("a.wad:MAP01: {words}").as_str()), 1), "{said:?}");
}

#[test]
fn other_verdicts_have_nothing_further() {
    let folder = Folder::with("good.wad", &good()).and("short.wad", &changed(|map| map.reject.clear()));
    for file in ["good.wad", "short.wad"] {
        assert_eq!(folder.run(&["judge", "--all", file]).out, folder.run(&["judge", file]).out);
    }
}

#[test]
fn json_has_a_list_of_them() {
    let spoil = |map: &mut MapSpec| (map.linedefs[5].right, map.sidedefs[7].sector) = (99, 4);
    let folder = Folder::with("a.wad", &changed(spoil)).and("good.wad", &good());
    let said = folder.run(&["judge", "--all", "--json", "a.wad"]);
    let members = object(said.out.trim_end());
    let of = |key: &str| members.iter().find(|(it, _)| it == key).expect("the key").1.clone();
    let Value::List(further) = of("further") else { panic!("{said:?}") };
    let [Value::Object(fault)] = &further[..] else { panic!("{said:?}") };
    let keys: Vec<&str> = fault.iter().map(|(key, _)| key.as_str()).collect();
    assert_eq!(keys, ["number", "place", "lump", "record", "reason", "text"]);
    assert_eq!([&fault[0].1, &fault[3].1], [&Value::Number(24), &Value::Number(7)]);
    assert_eq!(of("more"), Value::Flag(false));
    let said = folder.run(&["judge", "--json", "a.wad"]);
    assert!(said.out.ends_with("\"further\":null,\"more\":null}\n"), "{said:?}");
}
