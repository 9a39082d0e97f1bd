//! `descend`.

use crate::support::{changed, good, Folder};
use generator::{rooms, Plan, MAP_NAME};

#[test]
fn each_room_is_a_subsector() {
    let folder = Folder::with("a.wad", &good());
    for (x, room) in [("-32768", 0), ("255", 0), ("256", 0), ("257", 1), ("512", 1), ("513", 2), ("32767", 3)] {
        let line = format!("a.wad:MAP01: ({x}, -5) is in subsector {room}, 2 nodes passed");
        folder.run(&["descend", "a.wad", "map01", x, "-5"]).is(0, &[&line]);
    }
}

#[test]
fn a_map_without_nodes_is_subsector_0() {
    let wad = changed(|map| {
        map.nodes.clear();
        map.subsectors.truncate(1);
    });
    let said = Folder::with("a.wad", &wad).run(&["descend", "a.wad", "MAP01", "0", "0"]);
    said.is(0, &["a.wad:MAP01: (0, 0) is in subsector 0, 0 nodes passed"]);
}

#[test]
fn a_loop_is_met_only_by_those_who_go_there() {
    let folder = Folder::with("a.wad", &changed(|map| map.nodes[1].right = 2));
    folder.run(&["descend", "a.wad", "MAP01", "0", "0"]).is(0, &["a.wad:MAP01: (0, 0) is in subsector 0, 2 nodes passed"]);
    let said = folder.run(&["descend", "a.wad", "MAP01", "1000", "0"]);
    assert!(said.out.starts_with("a.wad:MAP01: refused 43: "), "{said:?}");
    assert_eq!(said.status, 1);
}

#[test]
fn a_child_that_is_not_there_is_refused_with_its_node() {
    let folder = Folder::with("a.wad", &changed(|map| map.nodes[1].right = 3));
    let said = folder.run(&["descend", "a.wad", "MAP01", "1000", "0"]);
    assert!(said.out.starts_with("a.wad:MAP01: refused 42 at node 1: "), "{said:?}");
    assert_eq!(said.status, 1);
}

#[test]
fn the_rest_of_the_map_may_be_bad_but_its_lumps_must_be_there() {
    let folder = Folder::with("a.wad", &changed(|map| map.reject.clear()));
    assert_eq!(folder.run(&["descend", "a.wad", "MAP01", "0", "0"]).status, 0);
    let mut plan = Plan::new(rooms(), MAP_NAME);
    plan.entry_at(7).name = *b"NODE\0\0\0\0";
    let said = Folder::with("a.wad", &plan.wad()).run(&["descend", "a.wad", "MAP01", "0", "0"]);
    assert!(said.out.starts_with("a.wad:MAP01: refused 12 at NODES: "), "{said:?}");
    assert_eq!(said.status, 1);
}

#[test]
fn bytes_that_are_no_nodes_are_refused() {
    let mut plan = Plan::new(rooms(), MAP_NAME);
    plan.entry_at(7).padding = vec![0];
    let said = Folder::with("a.wad", &plan.wad()).run(&["descend", "a.wad", "MAP01", "0", "0"]);
    assert!(said.out.starts_with("a.wad:MAP01: refused 40: "), "{said:?}");
}

#[test]
fn a_map_that_is_not_there_is_refused() {
    let said = Folder::with("a.wad", &good()).run(&["descend", "a.wad", "E1M1", "0", "0"]);
    said.is(1, &["a.wad:E1M1: refused 11: the file has no map of that name; the only map is MAP01"]);
}
