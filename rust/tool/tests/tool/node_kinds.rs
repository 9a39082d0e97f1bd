//! Maps without plain nodes: of another kind, GL nodes alone, or none at all. The number stays, and the sentence says what was found.

use crate::support::Folder;
use generator::{rooms, Content, EntryPlan, Plan, MAP_NAME};

const PLAIN: &str = "which the box cannot read: build plain nodes (zdbsp without -X, -x and -z)";

/// Asserts what `judge` says of a file, in text and in JSON, and the member of `found` that names the nodes.
fn judged(wad: &[u8], number: &str, words: &str, nodes: Option<&str>) {
    let folder = Folder::with("a.wad", wad);
    folder.run(&["judge", "a.wad"]).is(1, &[&format!("a.wad:MAP01: refused {number}: {words}")]);
    let said = folder.run(&["judge", "a.wad", "--json"]);
    assert!(said.out.contains(&format!(r#""text":"{words}""#)), "{said:?}");
    let member = nodes.map_or(String::new(), |nodes| format!(r#""nodes":"{nodes}"}}"#));
    assert!(said.out.contains(&member) && said.out.contains(r#""nodes":"#) == nodes.is_some(), "{said:?}");
}

/// The four rooms with these bytes in place of SEGS, SSECTORS and NODES.
fn with(segs: &[u8], subsectors: &[u8], nodes: &[u8]) -> Plan {
    let mut plan = Plan::new(rooms(), MAP_NAME);
    for (place, bytes) in [(5, segs), (6, subsectors), (7, nodes)] {
        plan.entry_at(place).content = Content::Bytes(bytes.to_vec());
    }
    plan
}

/// The GL lumps of a map, as zdbsp puts them behind it.
fn gl() -> Vec<EntryPlan> {
    let lump = |name: &[u8; 8]| EntryPlan::new(*name, Content::Bytes(b"gNd2".to_vec()));
    vec![EntryPlan::empty(*b"GL_MAP01"), lump(b"GL_VERT\0"), lump(b"GL_SEGS\0"), lump(b"GL_SSECT"), lump(b"GL_NODES")]
}

#[test]
fn marked_nodes_are_named_by_their_kind() {
    for (mark, kind) in [
        ("XNOD", "the extended kind"),
        ("ZNOD", "the compressed kind"),
        ("XGLN", "the extended GL kind"),
        ("ZGLN", "the compressed GL kind"),
        ("XGL3", "the extended GL kind"),
        ("xNd4", "DeePBSP's kind"),
    ] {
        let words = format!("NODES are of {kind} ({mark}), {PLAIN}");
        let marked = [mark.as_bytes(), &[0; 80]].concat();
        judged(&with(b"", b"", &marked).wad(), "21 at SEGS", &words, Some(mark));
        judged(&with(b"", &marked, b"").wad(), "21 at SEGS", &words, Some(mark));
        let mut plan = Plan::new(rooms(), MAP_NAME);
        plan.entry_at(7).content = Content::Bytes([&marked[..], b"x"].concat());
        judged(&plan.wad(), "20 at NODES", &words, Some(mark));
    }
}

#[test]
fn marked_nodes_of_a_fitting_size_are_named_too() {
    let mut map = rooms();
    (map.nodes[0].x, map.nodes[0].y) = (i16::from_le_bytes(*b"XN"), i16::from_le_bytes(*b"OD"));
    assert!(meshpigeon::judge_map(&Plan::wad_of(map.clone()), &MAP_NAME).is_ok());
    map.nodes[1].left = 99;
    let folder = Folder::with("a.wad", &Plan::wad_of(map));
    folder
        .run(&["judge", "a.wad"])
        .is(1, &[&format!("a.wad:MAP01: refused 27 at NODES 1: NODES are of the extended kind (XNOD), {PLAIN}")]);
}

#[test]
fn gl_nodes_alone_are_named_by_their_marker() {
    let words = format!("the map has no nodes but GL nodes (entry 11, GL_MAP01), {PLAIN}");
    let mut plan = with(b"", b"", b"");
    plan.entries.extend(gl());
    judged(&plan.wad(), "21 at SEGS", &words, Some("GL_MAP01"));
    let mut plan = Plan::new(rooms(), MAP_NAME);
    plan.entries.drain(5..8);
    plan.entries.extend(gl());
    judged(&plan.wad(), "12 at SEGS", &words.replace("entry 11", "entry 8"), Some("GL_MAP01"));
    let mut plan = Plan::new(rooms(), MAP_NAME);
    plan.entries.extend(gl());
    assert_eq!(Folder::with("a.wad", &plan.wad()).run(&["judge", "a.wad"]).status, 0);
}

#[test]
fn a_map_that_was_saved_without_nodes_is_told_so() {
    let mut plan = Plan::new(rooms(), MAP_NAME);
    plan.entries.drain(5..8);
    let words = "the map was saved without nodes: SEGS is missing, and entry 5 is called SECTORS. Save the map with a \
                 node builder switched on.";
    judged(&plan.wad(), "12 at SEGS", words, None);
    let words =
        "the map was saved without nodes: SEGS, SSECTORS and NODES are empty. Save the map with a node builder switched on.";
    judged(&with(b"", b"", b"").wad(), "21 at SEGS", words, None);
}

#[test]
fn a_missing_lump_is_told_with_what_was_found() {
    let order = "Behind the marker come THINGS, LINEDEFS, SIDEDEFS, VERTEXES, SEGS, SSECTORS, NODES, SECTORS, REJECT \
                 and BLOCKMAP, in this order.";
    let mut plan = Plan::new(rooms(), MAP_NAME);
    plan.entry_at(2).name = *b"OTHER\0\0\0";
    judged(&plan.wad(), "12 at LINEDEFS", &format!("LINEDEFS is missing: entry 2 is called OTHER. {order}"), None);
    plan.entries.truncate(2);
    judged(&plan.wad(), "12 at LINEDEFS", &format!("LINEDEFS is missing: the directory ends before it. {order}"), None);
    let mut plan = Plan::new(rooms(), MAP_NAME);
    plan.entries.truncate(10);
    let words =
        format!("BLOCKMAP is missing: the directory ends before it. Save the map with a node builder switched on. {order}");
    judged(&plan.wad(), "12 at BLOCKMAP", &words, None);
    let mut plan = Plan::new(rooms(), MAP_NAME);
    plan.entry_at(0).content = Content::Bytes(vec![1, 2, 3]);
    let words = "the marker, entry 0, has 3 bytes: a marker is empty. The lump is damaged: save the map again.";
    judged(&plan.wad(), "12 at the marker", words, None);
}
