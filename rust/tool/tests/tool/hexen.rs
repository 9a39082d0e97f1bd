//! Maps of Hexen, as `judge` and the other commands have them.

use crate::support::{good, Folder, GOOD};
use generator::{hexen_rooms, Content, Plan, BEHAVIOR, MAP_NAME};

/// A folder whose a.wad is the four rooms as a map of Hexen, after a change.
fn changed(change: impl FnOnce(&mut Plan)) -> Folder {
    let mut plan = Plan::new(hexen_rooms(), MAP_NAME);
    change(&mut plan);
    Folder::with("a.wad", &plan.wad())
}

const ACCEPTED: &str = "a.wad:MAP01: accepted (Hexen), depth 2, 3 nodes, 4 subsectors";

#[test]
fn a_map_of_hexen_is_said_to_be_one() {
    let folder = changed(|_| ()).and("b.wad", &good());
    folder.run(&["judge", "a.wad"]).is(0, &[ACCEPTED]);
    let doom = format!("b.wad:MAP01: {GOOD}");
    folder.run(&["judge", "a.wad", "b.wad"]).is(0, &[ACCEPTED, &doom, "2 files: 2 maps accepted"]);
}

#[test]
fn behavior_may_hold_anything() {
    for bytes in [vec![], vec![0xFF; 100]] {
        changed(|plan| plan.entries[11].content = Content::Bytes(bytes)).run(&["judge", "a.wad"]).is(0, &[ACCEPTED]);
    }
}

#[test]
fn a_refused_map_of_hexen_is_said_to_be_one() {
    let said = changed(|plan| plan.map.nodes[1].right = 2).run(&["judge", "a.wad"]);
    assert!(said.out.starts_with("a.wad:MAP01: refused 31 at NODES (Hexen): the nodes turn back"), "{said:?}");
    let said = changed(|plan| plan.map.linedefs[5].right = 99).run(&["judge", "a.wad"]);
    assert!(
        said.out.starts_with(
            "a.wad:MAP01: refused 23 at LINEDEFS 5 (Hexen): linedef 5, from (512, 256) to (512, 0), has right sidedef 99, and"
        ),
        "{said:?}"
    );
    let said = changed(|plan| plan.entry_at(9).name = *b"OTHER\0\0\0").run(&["judge", "a.wad"]);
    assert!(said.out.starts_with("a.wad:MAP01: refused 12 at REJECT: "), "{said:?}");
    assert_eq!(said.status, 1);
}

#[test]
fn sizes_and_counts_are_those_of_the_game() {
    let cut = |lump: &str, size: usize, record: usize| {
        format!(
            "{lump} is cut off inside a record: it has {size} bytes, which is no multiple of {record}. The lump \
             is damaged: save the map again."
        )
    };
    let said = changed(|plan| plan.entry_at(1).padding = vec![0; 7]).run(&["judge", "a.wad"]);
    said.is(1, &[&format!("a.wad:MAP01: refused 20 at THINGS (Hexen): {}", cut("THINGS", 47, 20))]);
    let said = changed(|plan| plan.entries.truncate(11)).run(&["judge", "a.wad"]);
    said.is(1, &[&format!("a.wad:MAP01: refused 20 at LINEDEFS: {}", cut("LINEDEFS", 208, 14))]);
    let many = Content::Bytes(vec![0; 20 * 65_536]);
    let said = changed(|plan| plan.entry_at(1).content = many).run(&["judge", "a.wad"]);
    let words = "the map has 65,536 things, and at most 65,535 are allowed. Take some out.";
    said.is(1, &[&format!("a.wad:MAP01: refused 21 at THINGS (Hexen): {words}")]);
}

#[test]
fn a_stray_behavior_is_named() {
    let mut plan = Plan::new(generator::rooms(), MAP_NAME);
    plan.entries.push(generator::EntryPlan::empty(BEHAVIOR));
    let folder = Folder::with("a.wad", &plan.wad());
    let words = "entry 11, BEHAVIOR, makes this a Hexen map, and THINGS has 10 bytes, which is no multiple of 20. \
                 Both THINGS and LINEDEFS have the sizes of a Doom map: take BEHAVIOR out.";
    folder.run(&["judge", "a.wad"]).is(1, &[&format!("a.wad:MAP01: refused 20 at THINGS (Hexen): {words}")]);
    let said = folder.run(&["judge", "a.wad", "--json"]);
    assert!(said.out.contains(r#""found":{"size":10,"behavior":11}"#), "{said:?}");
    plan.entry_at(1).content = Content::Bytes(vec![]);
    let said = Folder::with("a.wad", &plan.wad()).run(&["judge", "a.wad"]);
    assert!(said
        .out
        .contains("refused 20 at LINEDEFS (Hexen): entry 11, BEHAVIOR, makes this a Hexen map, and LINEDEFS has 182 bytes"));
}

#[test]
fn the_other_commands_take_a_map_of_hexen() {
    let folder = changed(|_| ());
    let line = "a.wad:MAP01: (300, -5) is in subsector 1, 2 nodes passed";
    folder.run(&["descend", "a.wad", "MAP01", "300", "-5"]).is(0, &[line]);
    let said = folder.run(&["list", "a.wad"]);
    let behavior = String::from_utf8_lossy(&BEHAVIOR);
    assert!(said.out.lines().nth(11).is_some_and(|line| line.starts_with(&format!("  11  {behavior}"))), "{said:?}");
}
