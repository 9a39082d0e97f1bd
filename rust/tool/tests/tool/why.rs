//! Why a map is judged as it is: a sentence to each field of 23 to 28, in both games, with where the record lies and what to do; the way
//! into a loop, the child that two ways lead to, and the deepest route.

use crate::json_reader::{object, Members, Value};
use crate::support::{changed, good, lumps, Folder, Said, GOOD};
use generator::{hexen_rooms, rooms, Content, MapSpec, Plan, MAP_NAME};
use meshpigeon::PairFile;
use reader::{Node, NO_SIDEDEF, SUBSECTOR_BIT, TWO_SIDED};

/// The most bytes of a BLOCKMAP.
const MOST: i64 = 16_777_216;

/// A field by its name, with its offset, number, least and most.
type Field<'a> = (&'a str, [i64; 4]);

/// The value of a key of the one object that was printed.
fn value(said: &Said, key: &str) -> Value {
    object(said.out.trim_end()).into_iter().find(|(it, _)| it == key).expect("the key").1
}

fn text(it: &str) -> Value {
    Value::Text(it.to_string())
}

fn members<const N: usize>(members: [(&str, Value); N]) -> Value {
    Value::Object(Members::from(members.map(|(key, value)| (key.to_string(), value))))
}

fn field((name, numbers): Field) -> Value {
    let [offset, number, least, most] = numbers.map(Value::Number);
    members([("field", text(name)), ("offset", offset), ("number", number), ("least", least), ("most", most)])
}

/// Asserts what `judge` says of a file behind `refused`, and its reason.
fn refused(wad: &[u8], words: &str, reason: &Value) {
    let folder = Folder::with("a.wad", wad);
    folder.run(&["judge", "a.wad"]).is(1, &[&format!("a.wad:MAP01: refused {words}")]);
    let said = folder.run(&["judge", "a.wad", "--json"]);
    assert_eq!((value(&said, "reason"), value(&said, "found"), said.status), (reason.clone(), Value::Null, 1), "{said:?}");
    let sentence = words.split_once(": ").expect("a sentence").1;
    assert_eq!(value(&said, "text"), text(sentence));
}

/// What is said where the nodes are at fault.
fn nodes(words: &str) -> String {
    format!("{words}. Nothing is wrong in your drawing: the nodes are damaged. Build the nodes again.")
}

/// The same of the four rooms after a change, in both games; `at` is the place with its number, and the offset may be another in Hexen.
fn named(change: fn(&mut MapSpec), at: &str, sentence: &str, (name, numbers): Field, hexen_offset: i64) {
    let spoilt = |mut map: MapSpec| {
        change(&mut map);
        Plan::wad_of(map)
    };
    refused(&spoilt(rooms()), &format!("{at}: {sentence}"), &field((name, numbers)));
    let [_, number, least, most] = numbers;
    let in_hexen = field((name, [hexen_offset, number, least, most]));
    refused(&spoilt(hexen_rooms()), &format!("{at} (Hexen): {sentence}"), &in_hexen);
}

/// The same where the offset is that of both games.
fn named_alike(change: fn(&mut MapSpec), at: &str, sentence: &str, told: Field) {
    named(change, at, sentence, told, told.1[0]);
}

#[test]
fn a_linedefs_vertices_are_named() {
    let at = "23 at LINEDEFS 5";
    let words = "linedef 5, which ends at (512, 0), starts at vertex 10, and this map has vertices 0 to 9: draw it again";
    named_alike(|map| map.linedefs[5].start = 10, at, words, ("start", [0, 10, 0, 9]));
    let words = "linedef 5, which starts at (512, 256), ends at vertex 65535, and this map has vertices 0 to 9: draw it again";
    named_alike(|map| map.linedefs[5].end = 65_535, at, words, ("end", [2, 65_535, 0, 9]));
}

#[test]
fn a_linedefs_sidedefs_are_named() {
    let at = "23 at LINEDEFS 5";
    let words = "linedef 5, from (512, 256) to (512, 0), has right sidedef 16, and this map has sidedefs 0 to 15: \
                 give it a new right side";
    named(|map| map.linedefs[5].right = 16, at, words, ("right", [10, 16, 0, 15]), 12);
    let words = "linedef 5, from (512, 256) to (512, 0), has a left side but no right side: flip it, or give it a right side";
    named(|map| map.linedefs[5].right = NO_SIDEDEF, at, words, ("right", [10, 65_535, 0, 15]), 12);
    let words = "linedef 5, from (512, 256) to (512, 0), has left sidedef 812, and this map has sidedefs 0 to 15: \
                 give it a new left side, or none";
    named(|map| map.linedefs[5].left = 812, at, words, ("left", [12, 812, 0, 15]), 14);
}

#[test]
fn a_two_sided_linedef_that_lacks_its_left_side_is_named() {
    let words = "linedef 6, from (512, 0) to (256, 0), is marked two-sided but has no left side: give it one, or clear the flag";
    let wall = |map: &mut MapSpec| {
        assert_eq!((map.linedefs[6].flags & TWO_SIDED, map.linedefs[6].left), (0, NO_SIDEDEF));
        map.linedefs[6].flags |= TWO_SIDED;
    };
    named(wall, "23 at LINEDEFS 6", words, ("left", [12, 65_535, 0, 15]), 14);
    let opening = |map: &mut MapSpec| map.linedefs[8].left = NO_SIDEDEF;
    named(
        opening,
        "23 at LINEDEFS 8",
        &words.replace("linedef 6, from (512, 0) to (256, 0)", "linedef 8, from (768, 256) to (768, 0)"),
        ("left", [12, 65_535, 0, 15]),
        14,
    );
}

#[test]
fn the_first_field_in_byte_order_is_named() {
    let spoil = |map: &mut MapSpec| (map.linedefs[5].left, map.linedefs[5].end, map.linedefs[7].start) = (99, 98, 97);
    let words = "linedef 5, which starts at (512, 256), ends at vertex 98, and this map has vertices 0 to 9: draw it again";
    named_alike(spoil, "23 at LINEDEFS 5", words, ("end", [2, 98, 0, 9]));
}

#[test]
fn a_sidedefs_sector_is_named() {
    let words = "sidedef 7, the left side of linedef 5, from (512, 256) to (512, 0), faces sector 4, and this map has \
                 sectors 0 to 3: give it a sector that is there";
    named_alike(|map| map.sidedefs[7].sector = 4, "24 at SIDEDEFS 7", words, ("sector", [28, 4, 0, 3]));
    let one = |map: &mut MapSpec| {
        (map.sectors, map.reject) = (vec![map.sectors[0]], vec![0]);
    };
    let words = "sidedef 3, the left side of linedef 2, from (256, 256) to (256, 0), faces sector 1, and this map has \
                 sector 0 alone: give it a sector that is there";
    named_alike(one, "24 at SIDEDEFS 3", words, ("sector", [28, 1, 0, 0]));
}

#[test]
fn a_segs_fields_are_named() {
    let at = "25 at SEGS 3";
    let words = &nodes("seg 3, which ends at (0, 0) along linedef 3, starts at vertex 10, and this map has vertices 0 to 9");
    named_alike(|map| map.segs[3].start = 10, at, words, ("start", [0, 10, 0, 9]));
    let words = &nodes("seg 3, which starts at (256, 0) along linedef 3, ends at vertex 11, and this map has vertices 0 to 9");
    named_alike(|map| map.segs[3].end = 11, at, words, ("end", [2, 11, 0, 9]));
    let words = &nodes("seg 3, from (256, 0) to (0, 0), belongs to linedef 13, and this map has linedefs 0 to 12");
    named_alike(|map| map.segs[3].linedef = 13, at, words, ("linedef", [6, 13, 0, 12]));
}

#[test]
fn a_segs_direction_is_named_by_its_linedefs_sides() {
    let words = &nodes("seg 2, from (256, 256) to (256, 0) along linedef 2, has direction 2, and it must be 0 or 1");
    named_alike(|map| map.segs[2].direction = 2, "25 at SEGS 2", words, ("direction", [8, 2, 0, 1]));
    let words = &nodes("seg 3, from (256, 0) to (0, 0) along linedef 3, is on the left side of a linedef that has none");
    named_alike(|map| map.segs[3].direction = 1, "25 at SEGS 3", words, ("direction", [8, 1, 0, 0]));
    let words = &nodes(
        "seg 3, from (256, 0) to (0, 0) along linedef 3, has direction 65535, and along a linedef \
         without a left side it must be 0",
    );
    named_alike(|map| map.segs[3].direction = 65_535, "25 at SEGS 3", words, ("direction", [8, 65_535, 0, 0]));
}

#[test]
fn a_subsectors_segs_are_named() {
    let at = "26 at SSECTORS 2";
    let words = &nodes("subsector 2, whose first seg runs from (512, 0) to (512, 256), has no segs, and it must have at least 1");
    named_alike(|map| map.subsectors[2].number = 0, at, words, ("number", [0, 0, 1, 16]));
    let words = &nodes("subsector 2, whose first seg runs from (512, 0) to (512, 256), has 65,535 segs, and this map has 16");
    named_alike(|map| map.subsectors[2].number = 65_535, at, words, ("number", [0, 65_535, 1, 16]));
    let words = &nodes(
        "subsector 2, whose first seg runs from (768, 256) to (1024, 256), has segs 13 to 16, and this map has segs 0 to 15",
    );
    named_alike(|map| map.subsectors[2].first = 13, at, words, ("first", [2, 13, 0, 12]));
    let words = &nodes(
        "subsector 2, whose first seg runs from (512, 0) to (512, 256), has segs 8 to 23, and \
         this map has segs 0 to 15",
    );
    named_alike(|map| map.subsectors[2].number = 16, at, words, ("first", [2, 8, 0, 0]));
}

#[test]
fn a_nodes_children_are_named_by_their_kind() {
    let at = "27 at NODES 1";
    let words = &nodes(
        "node 1, with the partition line from (768, 0) to (768, 256), has node 3 as its right child, \
         and this map has nodes 0 to 2",
    );
    named_alike(|map| map.nodes[1].right = 3, at, words, ("right", [24, 3, 0, 2]));
    let words = &nodes(
        "node 1, with the partition line from (768, 0) to (768, 256), has node 32767 as its left \
         child, and this map has nodes 0 to 2",
    );
    named_alike(|map| map.nodes[1].left = 32_767, at, words, ("left", [26, 32_767, 0, 2]));
    let words = &nodes(
        "node 1, with the partition line from (768, 0) to (768, 256), has subsector 4 as its right \
         child, and this map has subsectors 0 to 3",
    );
    named_alike(|map| map.nodes[1].right = SUBSECTOR_BIT | 4, at, words, ("right", [24, 32_772, 32_768, 32_771]));
    let words = &nodes(
        "node 1, with the partition line from (768, 0) to (768, 256), has subsector 32767 as its left \
         child, and this map has subsectors 0 to 3",
    );
    named_alike(|map| map.nodes[1].left = 65_535, at, words, ("left", [26, 65_535, 32_768, 32_771]));
    let alone = |map: &mut MapSpec| {
        map.nodes.truncate(1);
        map.nodes[0].left = 1;
    };
    let words = &nodes(
        "node 0, with the partition line from (256, 0) to (256, 256), has node 1 as its left child, \
         and this map has node 0 alone",
    );
    named_alike(alone, "27 at NODES 0", words, ("left", [26, 1, 0, 0]));
}

/// What is to be done about every BLOCKMAP.
const BUILD: &str = "Nothing is wrong in your drawing: BLOCKMAP is damaged. Build the nodes again.";

#[test]
fn blockmaps_columns_and_rows_are_named() {
    let at = "28 at BLOCKMAP header";
    let words = format!("BLOCKMAP has 0 columns by its header, and 1 to 512 are allowed. {BUILD}");
    named_alike(|map| map.blockmap.columns = 0, at, &words, ("columns", [4, 0, 1, 512]));
    let words = format!("BLOCKMAP has 65,535 rows by its header, and 1 to 512 are allowed. {BUILD}");
    named_alike(|map| map.blockmap.rows = 65_535, at, &words, ("rows", [6, 65_535, 1, 512]));
}

/// The four rooms with this BLOCKMAP.
fn with_blockmap(bytes: Vec<u8>) -> Vec<u8> {
    let mut plan = Plan::new(rooms(), MAP_NAME);
    plan.entry_at(10).content = Content::Bytes(bytes);
    plan.wad()
}

/// Origin, so many columns and one row, and what stands behind them.
fn blockmap(columns: u16, behind: &[u16]) -> Vec<u8> {
    [0, 0, columns, 1].iter().chain(behind).flat_map(|word| word.to_le_bytes()).collect()
}

#[test]
fn blockmaps_size_is_named_where_it_cuts_something_off() {
    let cut = |bytes: Vec<u8>, at: &str, said: &str, least: i64| {
        let size = bytes.len() as i64;
        let words = format!("28 at BLOCKMAP {at}: BLOCKMAP has {said}. {BUILD}");
        refused(&with_blockmap(bytes), &words, &field(("size", [0, size, least, MOST])));
    };
    cut(vec![9], "header", "1 byte, and ends inside its header", 8);
    cut(blockmap(512, &[])[..7].to_vec(), "header", "7 bytes, and ends inside its header", 8);
    cut(blockmap(2, &[6]), "header", "10 bytes, and ends inside the offsets of its cells", 12);
    cut([blockmap(2, &[6]), vec![0]].concat(), "header", "11 bytes, and ends inside the offsets of its cells", 12);
    cut([blockmap(1, &[9]), vec![0]].concat(), "header", "11 bytes, and ends inside its last word", 12);
    let said = "20 bytes, and ends inside the list of cell 1, the square from (128, 0) to (256, 128)";
    cut(blockmap(2, &[6, 8, 0, 65_535, 0, 1]), "cell 1", said, 22);
}

#[test]
fn an_empty_blockmap_was_left_out() {
    let words = "28 at BLOCKMAP header: BLOCKMAP is empty: the node builder was told to leave it out. \
                 Build the nodes again, with BLOCKMAP (zdbsp without -b).";
    refused(&with_blockmap(vec![]), words, &field(("size", [0, 0, 8, MOST])));
}

#[test]
fn a_cells_offset_is_named() {
    let offset = |bytes: Vec<u8>, words: &str, numbers: [i64; 4]| {
        refused(&with_blockmap(bytes), &format!("28 at BLOCKMAP {words}. {BUILD}"), &field(("offset", numbers)));
    };
    let words = "cell 1: cell 1, the square from (128, 0) to (256, 128), has offset 9, and all lists are in words 6 to 7";
    offset(blockmap(2, &[6, 9, 0, 65_535]), words, [10, 9, 6, 7]);
    let words = "cell 0: cell 0, the square from (0, 0) to (128, 128), has offset 4, and all lists are in word 5 alone";
    offset(blockmap(1, &[4, 0]), words, [8, 4, 5, 5]);
    let words = "cell 0: cell 0, the square from (0, 0) to (128, 128), has offset 5, and there are no lists behind the offsets";
    offset(blockmap(1, &[5]), words, [8, 5, 5, 4]);
}

#[test]
fn a_cells_list_is_named() {
    let at = "28 at BLOCKMAP cell 1: the list of cell 1, the square from (128, 0) to (256, 128),";
    let words = format!("{at} begins with 12, and it must begin with 0. {BUILD}");
    let bytes = blockmap(2, &[6, 8, 0, 65_535, 12, 65_535]);
    refused(&with_blockmap(bytes), &words, &field(("zero", [16, 12, 0, 0])));
    let words = format!("{at} has linedef 13, and this map has linedefs 0 to 12. {BUILD}");
    let bytes = blockmap(2, &[6, 8, 0, 65_535, 0, 12, 13, 14, 65_535]);
    refused(&with_blockmap(bytes), &words, &field(("linedef", [20, 13, 0, 12])));
    let words = "28 at BLOCKMAP cell 2 (Hexen): the list of cell 2, the square from (248, -8) to (376, 120), has linedef 13";
    let mut map = hexen_rooms();
    map.blockmap.give_list(2, &[0, 13, 65_535]);
    let byte = 2 * i64::from(map.blockmap.offsets[2]) + 2;
    let words = format!("{words}, and this map has linedefs 0 to 12. {BUILD}");
    refused(&Plan::wad_of(map), &words, &field(("linedef", [byte, 13, 0, 12])));
}

#[test]
fn the_leading_0_is_told_from_the_only_linedef() {
    let one = |list: &[u16]| {
        changed(|map| {
            map.linedefs.truncate(1);
            map.segs.iter_mut().for_each(|seg| (seg.linedef, seg.direction) = (0, 0));
            map.blockmap.give_list(0, list);
            (map.blockmap.columns, map.blockmap.rows) = (1, 1);
        })
    };
    // The lists stand where they did: behind the 27 offsets of which one counts.
    let map = rooms();
    let start = 2 * (4 + map.blockmap.offsets.len() + map.blockmap.lists.len()) as i64;
    let at = "28 at BLOCKMAP cell 0: the list of cell 0, the square from (-8, -8) to (120, 120),";
    let words = format!("{at} begins with 3, and it must begin with 0. {BUILD}");
    refused(&one(&[3, 65_535]), &words, &field(("zero", [start, 3, 0, 0])));
    let byte = start + 2;
    let words = format!("{at} has linedef 3, and this map has linedef 0 alone. {BUILD}");
    refused(&one(&[0, 3, 65_535]), &words, &field(("linedef", [byte, 3, 0, 0])));
}

#[test]
fn the_request_has_two_examples() {
    let left = changed(|map| {
        map.sidedefs.resize(641, map.sidedefs[0]);
        map.linedefs[5].left = 812;
    });
    let words =
        "23 at LINEDEFS 5: linedef 5, from (512, 256) to (512, 0), has left sidedef 812, and this map has sidedefs 0 to 640: \
         give it a new left side, or none";
    refused(&left, words, &field(("left", [12, 812, 0, 640])));
    let child = changed(|map| {
        map.nodes.resize(32, map.nodes[0]);
        map.nodes[17].left = 40;
    });
    let words = "27 at NODES 17: node 17, with the partition line from (256, 0) to (256, 256), has node 40 as its left child, \
                 and this map has \
                 nodes 0 to 31. Nothing is wrong in your drawing: the nodes are damaged. Build the nodes again.";
    refused(&child, words, &field(("left", [26, 40, 0, 31])));
}

/// What is said of every loop before its way.
const LOOP: &str =
    "31 at NODES: the nodes turn back on themselves: some way down from the root never ends. Nothing is wrong in your \
     drawing: the nodes are damaged. Build the nodes again. From the root go";

fn way(letters: &str, node: i64) -> Value {
    members([("way", text(letters)), ("node", Value::Number(node))])
}

/// A node with these children, of which a subsector is written with its bit.
fn parent(right: u16, left: u16) -> Node {
    Node { right, left, ..rooms().nodes[0] }
}

#[test]
fn the_way_into_a_loop_is_told() {
    let room = SUBSECTOR_BIT;
    let nodes = vec![parent(room, room), parent(room, room), parent(room, 4), parent(room, 2), parent(3, room)];
    let wad = changed(|map| map.nodes = nodes);
    refused(&wad, &format!("{LOOP} right, left, left: there node 4 comes a second time."), &way("RLL", 4));
    let nodes = vec![parent(room, 0), parent(room, 0)];
    let wad = changed(|map| map.nodes = nodes);
    refused(&wad, &format!("{LOOP} left, left: there node 0 comes a second time."), &way("LL", 0));
    let wad = changed(|map| map.nodes = vec![parent(0, room)]);
    refused(&wad, &format!("{LOOP} right: there node 0 comes a second time."), &way("R", 0));
}

#[test]
fn a_long_way_is_cut_short_in_text_and_whole_in_json() {
    let chain = |count: u16| {
        let above = |at: u16| parent(SUBSECTOR_BIT, at.checked_sub(1).unwrap_or(count - 1));
        changed(|map| map.nodes = (0..count).map(above).collect())
    };
    let sixteen = ["left"; 16].join(", ");
    refused(&chain(16), &format!("{LOOP} {sixteen}: there node 15 comes a second time."), &way(&"L".repeat(16), 15));
    let words = format!("{LOOP} {sixteen}, and 1 more choice: there node 16 comes a second time.");
    refused(&chain(17), &words, &way(&"L".repeat(17), 16));
    let words = format!("{LOOP} {sixteen}, and 984 more choices: there node 999 comes a second time.");
    refused(&chain(1_000), &words, &way(&"L".repeat(1_000), 999));
}

#[test]
fn an_accepted_map_has_its_route_in_json_only() {
    let route = |wad: &[u8]| {
        let folder = Folder::with("a.wad", wad);
        assert!(folder.run(&["judge", "a.wad"]).out.starts_with("a.wad:MAP01: accepted, depth "));
        value(&folder.run(&["judge", "a.wad", "--json"]), "reason")
    };
    let told = |letters: &str| members([("route", text(letters))]);
    Folder::with("a.wad", &good()).run(&["judge", "a.wad"]).is(0, &[&format!("a.wad:MAP01: {GOOD}")]);
    assert_eq!(route(&good()), told("RR"));
    assert_eq!(route(&changed(|map| map.nodes[2].right = SUBSECTOR_BIT | 3)), told("LR"));
    let one_room = |map: &mut MapSpec| {
        map.nodes.clear();
        map.subsectors.truncate(1);
    };
    assert_eq!(route(&changed(one_room)), told(""));
}

#[test]
fn a_child_that_two_ways_lead_to_is_told_with_both_parents() {
    let told = |kind: &str, number: i64, parents: [i64; 2]| {
        let parents = Value::List(parents.map(Value::Number).to_vec());
        members([("child", text(kind)), ("number", Value::Number(number)), ("parents", parents)])
    };
    let build = "Nothing is wrong in your drawing: the nodes are damaged. Build the nodes again.";
    let wad = changed(|map| map.nodes[1].right = map.nodes[0].right);
    let words = "two ways down lead to subsector 1: it is the right child of node 1 and the right child of node 0";
    refused(&wad, &format!("32 at NODES: {words}. {build}"), &told("subsector", 1, [1, 0]));
    let wad = changed(|map| map.nodes[2].right = 0);
    let words = "two ways down lead to node 0: it is both children of node 2";
    refused(&wad, &format!("32 at NODES: {words}. {build}"), &told("node", 0, [2, 2]));
    let room = SUBSECTOR_BIT;
    let nodes = vec![parent(room, room | 1), parent(room | 2, 0), parent(0, room | 3), parent(2, 1)];
    let words = "two ways down lead to node 0: it is the right child of node 2 and the left child of node 1";
    refused(&changed(|map| map.nodes = nodes), &format!("32 at NODES: {words}. {build}"), &told("node", 0, [2, 1]));
}

#[test]
fn other_refusals_have_no_reason() {
    let longer = changed(|map| map.reject.push(0));
    for wad in [longer, lumps(&[(&MAP_NAME, vec![])]), b"hello, world".to_vec(), lumps(&[])] {
        let said = Folder::with("a.wad", &wad).run(&["judge", "a.wad", "--json"]);
        assert_eq!(value(&said, "reason"), Value::Null, "{said:?}");
    }
}

#[test]
fn the_reason_is_that_of_the_maps_own_file() {
    let folder = Folder::with("bad.wad", &changed(|map| map.linedefs[5].left = 812))
        .and("good.wad", &good())
        .and("empty.wad", &lumps(&[]))
        .and("loop.wad", &changed(|map| map.nodes[1].right = 2));
    let words = "linedef 5, from (512, 256) to (512, 0), has left sidedef 812, and this map has sidedefs 0 to 15: \
                 give it a new left side, or none";
    let line = |patch: &str, of: &str| format!("{patch}:MAP01: refused 23 at LINEDEFS 5 (of the {of}): {words}");
    folder.run(&["judge", "--base", "good.wad", "bad.wad"]).is(1, &[&line("bad.wad", "patch")]);
    folder.run(&["judge", "--base", "bad.wad", "empty.wad"]).is(1, &[&line("empty.wad", "base")]);
    let said = folder.run(&["judge", "--base", "bad.wad", "loop.wad", "--json"]);
    assert_eq!((value(&said, "reason"), value(&said, "from")), (way("RR", 2), text("patch")));
    let said = folder.run(&["judge", "--base", "bad.wad", "empty.wad", "--json"]);
    assert_eq!((value(&said, "reason"), value(&said, "from")), (field(("left", [12, 812, 0, 15])), text("base")));
    let said = folder.run(&["judge", "--base", "bad.wad", "good.wad", "--json"]);
    assert_eq!((value(&said, "reason"), value(&said, "from")), (members([("route", text("RR"))]), text("patch")));
}

/// Number, depth and file of what the library itself says of a pair.
fn of_pair(base: &[u8], patch: &[u8], name: &[u8; 8]) -> [Value; 3] {
    let file = |file: Option<PairFile>| file.map_or(Value::Null, |file| text(&file.to_string()));
    match meshpigeon::pair_judge_map(base, patch, name) {
        Ok(judged) => [Value::Number(0), Value::Number(judged.map.depth as i64), file(Some(judged.file))],
        Err(refused) => [Value::Number(refused.refusal.number.into()), Value::Null, file(refused.file)],
    }
}

#[test]
fn a_pair_is_judged_as_the_library_judges_pairs() {
    let files = [
        good(),
        lumps(&[]),
        lumps(&[(&MAP_NAME, vec![])]),
        lumps(&[(&MAP_NAME, vec![1]), (b"PLAYPAL\0", vec![])]),
        changed(|map| map.segs[2].direction = 7),
        changed(|map| map.nodes[1].right = 2),
        Plan::wad_of(hexen_rooms()),
    ];
    for base in &files {
        for patch in &files {
            let folder = Folder::with("base.wad", base).and("patch.wad", patch);
            for name in [&MAP_NAME, b"MAP02\0\0\0", b"PLAYPAL\0", b"THINGS\0\0", b"MAP01X\0\0"] {
                let map = String::from_utf8_lossy(name).trim_end_matches('\0').to_string();
                let said = folder.run(&["judge", "--json", "--base", "base.wad", "patch.wad", "--map", &map]);
                let judged = ["number", "depth", "from"].map(|key| value(&said, key));
                assert_eq!(judged, of_pair(base, patch, name), "{said:?}");
            }
        }
    }
}
