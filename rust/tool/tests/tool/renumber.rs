//! `renumber`, and `judge` and `descend` on the file that it wrote.

use crate::json_reader::{object, Value};
use crate::support::{changed, good, said, Folder, Said};
use generator::{hexen_rooms, rooms, Content, EntryPlan, MapSpec, Plan, MAP_NAME, MOST_BYTES};
use reader::{Node, SUBSECTOR_BIT};
use std::fs;
use std::io::Write;
use std::os::unix::fs::symlink;
use std::process::Stdio;

/// The nodes of the four rooms in a file of five: the root, number 4, has the east, node 0, and the west, node 2; nothing leads to nodes 1 and 3.
fn tangle(map: &mut MapSpec) {
    let [west, east, root] = [map.nodes[0], map.nodes[1], map.nodes[2]];
    let stray = Node { right: 4, left: 1, ..root };
    map.nodes = vec![east, stray, west, Node { right: SUBSECTOR_BIT, ..stray }, Node { right: 0, left: 2, ..root }];
}

fn tangled() -> Vec<u8> {
    changed(tangle)
}

/// The children of each node of a file's last map.
fn children(wad: &[u8]) -> Vec<[u16; 2]> {
    let marker = reader::find_map(wad, &MAP_NAME).marker.expect("a map");
    Node::all(reader::lump(wad, marker + Node::PLACE)).map(|node| [node.right, node.left]).collect()
}

fn bytes_of(folder: &Folder, name: &str) -> Vec<u8> {
    fs::read(folder.file(name)).expect("the file is there")
}

/// What is left when an entry's lump, and where it lies, are taken from a file: header, the other entries, and all other lumps.
fn others(wad: &[u8], number: usize) -> (Vec<u8>, Vec<Vec<u8>>) {
    let directory = reader::directory(wad).expect("a good directory");
    let mut kept = wad[..12].to_vec();
    let mut entries = wad[directory.start..][..16 * directory.count].to_vec();
    entries[16 * number..][..8].fill(0);
    kept.extend(entries);
    let lumps = (0..directory.count).filter(|other| *other != number).map(|other| reader::lump(wad, other).to_vec());
    (kept, lumps.collect())
}

/// Runs the tool on a file, as `in.wad`, and holds the new one to it: `judge` says the same of both but for the count of nodes, points descend
/// alike, and nothing else is another.
fn renumbered(wad: &[u8], arguments: &[&str]) -> (Said, Vec<u8>) {
    let folder = Folder::with("in.wad", wad);
    let said = folder.run(&[&["renumber", "in.wad", "MAP01", "-o", "out.wad"], arguments].concat());
    let new = bytes_of(&folder, "out.wad");
    let [old_verdict, new_verdict] = ["in.wad", "out.wad"].map(|file| folder.run(&["judge", "--json", file]));
    assert_eq!((old_verdict.status, new_verdict.status), (0, 0), "{new_verdict:?}");
    assert_eq!(depth(&old_verdict), depth(&new_verdict));
    for (x, y) in
        [("-32768", "5"), ("256", "0"), ("257", "-9"), ("512", "32767"), ("513", "100"), ("768", "1"), ("32767", "-32768")]
    {
        let descended =
            |file: &str| folder.run(&["descend", file, "MAP01", x, y]).out.split_once(": ").map(|(_, rest)| rest.to_string());
        assert_eq!(descended("in.wad"), descended("out.wad"));
    }
    let number = reader::find_map(wad, &MAP_NAME).marker.expect("a map") + Node::PLACE;
    assert_eq!(others(wad, number), others(&new, number));
    (said, new)
}

fn depth(said: &Said) -> Option<Value> {
    object(said.out.trim_end()).into_iter().find(|(key, _)| key == "depth").map(|(_, value)| value)
}

#[test]
fn without_a_list_the_order_is_post_order() {
    let (said, new) = renumbered(&tangled(), &[]);
    said.is(0, &["in.wad:MAP01: 3 nodes renumbered, 2 dropped, written to out.wad"]);
    let subsectors = |first: u16| [SUBSECTOR_BIT | (first + 1), SUBSECTOR_BIT | first];
    assert_eq!(children(&new), [subsectors(2), subsectors(0), [0, 1]]);
    assert_eq!(new.len(), tangled().len());
}

#[test]
fn a_list_may_be_given() {
    let folder = Folder::with("in.wad", &tangled()).and("list.txt", b" 2, 0\n\t4,\r\n");
    folder
        .run(&["renumber", "in.wad", "map01", "-o", "out.wad", "--order", "list.txt"])
        .is(0, &["in.wad:MAP01: 3 nodes renumbered, 2 dropped, written to out.wad"]);
    let subsectors = |first: u16| [SUBSECTOR_BIT | (first + 1), SUBSECTOR_BIT | first];
    assert_eq!(children(&bytes_of(&folder, "out.wad")), [subsectors(0), subsectors(2), [1, 0]]);
    folder.run(&["judge", "out.wad"]).is(0, &["out.wad:MAP01: accepted, depth 2, 3 nodes, 4 subsectors"]);
}

#[test]
fn the_answer_is_an_object_too() {
    let (said, _) = renumbered(&tangled(), &["--json"]);
    let line = r#"{"format":1,"file":"in.wad","file_bytes":null,"map":"MAP01","number":0,"count":3,"dropped":2,"order":[0,2,4],"output":"out.wad"}"#;
    said.is(0, &[line]);
    let list = [0, 2, 4].map(Value::Number).into();
    assert_eq!(object(line).iter().rev().nth(1), Some(&("order".to_string(), Value::List(list))));
    let (said, _) = renumbered(&tangled(), &["--quiet"]);
    said.is(0, &[]);
}

#[test]
fn nodes_in_order_stay_as_they_are() {
    let in_order = renumbered(&good(), &[]).1;
    assert_eq!(renumbered(&in_order, &[]).1, in_order);
    let (said, _) = renumbered(&in_order, &[]);
    said.is(0, &["in.wad:MAP01: 3 nodes renumbered, 0 dropped, written to out.wad"]);
}

#[test]
fn a_map_without_nodes_is_written_as_it_is() {
    let wad = changed(|map| {
        map.nodes.clear();
        map.subsectors.truncate(1);
    });
    let (said, new) = renumbered(&wad, &[]);
    said.is(0, &["in.wad:MAP01: 0 nodes renumbered, 0 dropped, written to out.wad"]);
    assert_eq!(new, wad);
}

#[test]
fn maps_of_hexen_have_nodes_too() {
    let mut map = hexen_rooms();
    tangle(&mut map);
    let (said, new) = renumbered(&Plan::wad_of(map), &[]);
    said.is(0, &["in.wad:MAP01: 3 nodes renumbered, 2 dropped, written to out.wad"]);
    assert_eq!(children(&new).len(), 3);
}

/// The bytes that the new lump leaves are zero, and no entry has them; the others stay where they are.
#[test]
fn what_is_left_of_the_old_lump_is_zero() {
    let (old, new) = (tangled(), renumbered(&tangled(), &[]).1);
    let (offset, size) = reader::entry(&old, Node::PLACE).expect("an entry");
    assert_eq!((reader::entry(&new, Node::PLACE), size), (Ok((offset, 84)), 140));
    assert_eq!((&new[12..offset], &new[offset + 84..offset + 140]), (&old[12..offset], &[0; 56][..]));
}

/// The tangled rooms, with another entry before the marker that has some bytes of NODES.
fn sharing(length: Option<usize>) -> Vec<u8> {
    let mut plan = Plan::new(rooms(), MAP_NAME);
    tangle(&mut plan.map);
    plan.entries.insert(0, EntryPlan::empty(*b"COPY\0\0\0\0"));
    plan.marker = 1;
    plan.length = length;
    let offset = reader::entry(&plan.wad(), 1 + Node::PLACE).expect("an entry").0;
    (plan.entries[0].offset, plan.entries[0].size) = (Some(offset as i32 + 139), Some(5));
    plan.wad()
}

#[test]
fn where_another_lump_has_bytes_of_nodes_the_new_ones_come_last() {
    let (said, new) = renumbered(&sharing(None), &[]);
    said.is(0, &["in.wad:MAP01: 3 nodes renumbered, 2 dropped, written to out.wad"]);
    assert_eq!(reader::entry(&new, 1 + Node::PLACE), Ok((sharing(None).len(), 84)));
    assert_eq!(children(&new)[2], [0, 1]);
}

#[test]
fn a_file_never_grows_too_long() {
    for (length, status) in [(MOST_BYTES - 84, 0), (MOST_BYTES - 83, 2), (MOST_BYTES, 2)] {
        let folder = Folder::with("in.wad", &sharing(Some(length)));
        let said = folder.run(&["renumber", "in.wad", "MAP01", "-o", "out.wad"]);
        assert_eq!((said.status, folder.names().len()), (status, if status == 0 { 2 } else { 1 }), "{said:?}");
        assert_eq!(said.err.contains("NODES shares bytes with another lump"), status == 2, "{said:?}");
    }
}

/// A lump that has the directory's entry of NODES would change with it.
#[test]
fn a_lump_over_the_directory_is_not_changed() {
    let mut plan = Plan::new(rooms(), MAP_NAME);
    tangle(&mut plan.map);
    let start = reader::directory(&plan.wad()).expect("a directory").start;
    for (first, size, status) in [(16 * 7 + 7, 1, 2), (16 * 7, 1, 2), (16 * 7 + 8, 8, 0), (0, 16 * 7, 0)] {
        let mut over = EntryPlan::new(*b"OVER\0\0\0\0", Content::Bytes(Vec::new()));
        (over.offset, over.size) = (Some((start + first) as i32), Some(size));
        plan.entries.truncate(11);
        plan.entries.push(over);
        let folder = Folder::with("in.wad", &plan.wad());
        let said = folder.run(&["renumber", "in.wad", "MAP01", "-o", "out.wad"]);
        assert_eq!((said.status, folder.names().len()), (status, if status == 0 { 2 } else { 1 }), "{said:?}");
        if status == 0 {
            assert_eq!(others(&plan.wad(), 7), others(&bytes_of(&folder, "out.wad"), 7));
        }
    }
}

/// What is said of a list, in a folder in which nothing may be written.
fn refused(list: &str, arguments: &[&str]) -> Said {
    let folder = Folder::with("in.wad", &tangled()).and("list.txt", list.as_bytes());
    let said = folder.run(&[&["renumber", "in.wad", "MAP01", "-o", "out.wad", "--list=list.txt"], arguments].concat());
    assert_eq!(folder.names(), ["in.wad", "list.txt"]);
    said
}

#[test]
fn bad_orders_are_refused_with_what_was_found() {
    let length = "73: the order is too short or too long: it must have as many numbers as there are nodes that the root reaches";
    let once = "70: the order lists a node twice, or one that the root does not reach: it must hold each reached node once";
    let root = "72: the order does not end with the root: the root, the last of the old nodes, must come last";
    let lines = [
        ("", length, "that is 3, and it has 0"),
        ("0 2 4 4", length, "that is 3, and it has 4"),
        ("0 0 4", once, "0 is such a number"),
        ("4 3 2", once, "3 is such a number"),
        ("0 2 65535", once, "65535 is such a number"),
        ("0 4 2", root, "it ends with 2, and the root is 4"),
    ];
    for (list, words, found) in lines {
        refused(list, &[]).is(1, &[&format!("in.wad:MAP01: refused {words}; here {found}")]);
    }
    for (list, number, found) in
        [("4", 73, r#"{"count":1,"needed":3}"#), ("0 1 4", 70, r#"{"number":1}"#), ("4 2 0", 72, r#"{"number":0,"root":4}"#)]
    {
        let said = refused(list, &["--json", "-q"]);
        let part = format!(
            r#""map":"MAP01","verdict":"refused","number":{number},"place":null,"lump":null,"record":null,"found":{found},"reason":null,"#
        );
        assert!(said.out.contains(&part) && said.out.contains(r#""game":"Doom""#), "{said:?}");
        assert_eq!(said.status, 1);
    }
}

/// A chain: the root, number 3, has node 0, that has node 1, and that node 2.
#[test]
fn a_child_behind_its_parent_is_named() {
    let wad = changed(|map| {
        let (node, subsector) = (map.nodes[0], map.subsectors[0]);
        let child = |at: u16| [1, 2, SUBSECTOR_BIT | 4, 0][usize::from(at)];
        map.nodes = (0..4).map(|at| Node { right: child(at), left: SUBSECTOR_BIT | at, ..node }).collect();
        map.subsectors.resize(5, subsector);
    });
    let folder = Folder::with("in.wad", &wad).and("list.txt", b"2 0 1 3");
    let said = folder.run(&["renumber", "in.wad", "MAP01", "-o", "out.wad", "--list", "list.txt"]);
    let words = "refused 71: the order has a child behind its parent: every child that is a node must come before its parent";
    said.is(1, &[&format!("in.wad:MAP01: {words}; here node 1 stands behind its parent, node 0")]);
    let said = folder.run(&["renumber", "in.wad", "MAP01", "-o", "out.wad", "--list", "list.txt", "--json"]);
    assert!(
        said.out.contains(r#""number":71,"place":null,"lump":null,"record":null,"found":{"child":1,"parent":0}"#),
        "{said:?}"
    );
    assert_eq!(folder.names(), ["in.wad", "list.txt"]);
}

/// A map that is not accepted has the line that `judge` has of it, whatever the list is.
#[test]
fn a_refused_map_is_refused_as_it_is_judged() {
    let bad =
        [changed(|map| map.linedefs[5].right = 99), changed(|map| map.nodes[1].right = 2), changed(|map| map.reject.clear())];
    for wad in bad {
        let folder = Folder::with("in.wad", &wad).and("list.txt", b"0 0 0 0");
        for arguments in [
            &["renumber", "in.wad", "MAP01", "-o", "out.wad"][..],
            &["renumber", "in.wad", "MAP01", "-o", "out.wad", "--list=list.txt"],
        ] {
            let said = folder.run(arguments);
            assert_eq!((said.status, &said.out), (1, &folder.run(&["judge", "in.wad"]).out));
        }
        let said = folder.run(&["renumber", "in.wad", "MAP01", "-o", "out.wad", "--json"]);
        assert_eq!((said.status, said.out), (1, folder.run(&["judge", "in.wad", "--json"]).out));
        assert_eq!(folder.names(), ["in.wad", "list.txt"]);
    }
    let folder = Folder::with("in.wad", &good()).and("cut.wad", &good()[..11]);
    for (file, map, line) in [
        ("in.wad", "MAP02", "in.wad:MAP02: refused 11: "),
        ("in.wad", "ROOMS", "in.wad:ROOMS: refused 10: "),
        ("cut.wad", "MAP01", "cut.wad: refused 1: "),
    ] {
        let said = folder.run(&["renumber", file, map, "-o", "out.wad"]);
        assert!(said.status == 1 && said.out.starts_with(line), "{said:?}");
    }
    assert_eq!(folder.names(), ["cut.wad", "in.wad"]);
}

#[test]
fn a_bad_list_is_told_with_its_line() {
    for (list, line, word) in
        [("0 2 -4", 1, "-4"), ("0\n2\nfour", 3, "four"), ("0 2 65536", 1, "65536"), ("0;2;4", 1, "0;2;4"), ("# 0", 1, "#")]
    {
        let said = refused(list, &[]);
        let words = format!("line {line}: '{word}' is no node's number: 0 to 65535, with white space or commas between them");
        assert_eq!((said.status, said.out.as_str(), said.err), (2, "", format!("meshpigeon: list.txt: {words}\n")));
    }
    let folder = Folder::with("in.wad", &tangled()).and("long.txt", &[b' '; MOST_BYTES + 1]);
    for (list, words) in [("no.txt", "No such file"), ("long.txt", "a list of more than 16,777,216 bytes is not read")] {
        let said = folder.run(&["renumber", "in.wad", "MAP01", "-o", "out.wad", "--list", list]);
        assert!(said.status == 2 && said.err.starts_with(&format!("meshpigeon: {list}: {words}")), "{said:?}");
    }
    assert_eq!(folder.names(), ["in.wad", "long.txt"]);
}

/// The tool's output as bytes, with these on standard input.
fn piped(folder: &Folder, arguments: &[&str], input: &[u8]) -> (Vec<u8>, Said) {
    let mut child = folder
        .command(arguments)
        .stdin(Stdio::piped())
        .stdout(Stdio::piped())
        .stderr(Stdio::piped())
        .spawn()
        .expect("the tool runs");
    child.stdin.take().expect("a pipe").write_all(input).expect("the tool reads");
    let mut output = child.wait_with_output().expect("the tool ends");
    let bytes = std::mem::take(&mut output.stdout);
    (bytes, said(output))
}

#[test]
fn file_list_and_output_may_be_pipes() {
    let folder = Folder::with("in.wad", &tangled());
    folder
        .run(&["renumber", "in.wad", "MAP01", "-o", "out.wad"])
        .is(0, &["in.wad:MAP01: 3 nodes renumbered, 2 dropped, written to out.wad"]);
    let new = bytes_of(&folder, "out.wad");
    for (arguments, input) in [
        (&["renumber", "-", "MAP01", "-o", "-"][..], tangled()),
        (&["renumber", "in.wad", "MAP01", "-o", "-", "--list", "-"], b"0 2 4".to_vec()),
        (&["renumber", "in.wad", "MAP01", "-o", "-", "--json"], Vec::new()),
    ] {
        let (bytes, said) = piped(&folder, arguments, &input);
        assert_eq!((said.status, said.err.as_str(), &bytes), (0, "", &new), "{arguments:?}");
    }
}

#[test]
fn a_file_is_never_written_over_what_it_comes_from() {
    let folder = Folder::with("in.wad", &tangled()).and("list.txt", b"0 2 4");
    fs::hard_link(folder.file("in.wad"), folder.file("hard.wad")).expect("the folder takes links");
    symlink("list.txt", folder.file("soft.txt")).expect("the folder takes links");
    for output in ["./in.wad", "hard.wad", "list.txt", "soft.txt"] {
        let said = folder.run(&["renumber", "in.wad", "MAP01", "-o", output, "--list", "list.txt"]);
        let words = "meshpigeon: the new file would be written over a file that it comes from\n";
        assert_eq!((said.status, said.out.as_str(), said.err.as_str()), (3, "", words), "{output}");
    }
    assert_eq!((bytes_of(&folder, "in.wad"), bytes_of(&folder, "list.txt")), (tangled(), b"0 2 4".to_vec()));
}

#[test]
fn a_place_that_cannot_be_written_is_told() {
    let said = Folder::with("in.wad", &tangled()).run(&["renumber", "in.wad", "MAP01", "-o", "no/out.wad"]);
    assert!(said.err.starts_with("meshpigeon: no/out.wad: "), "{said:?}");
    assert_eq!((said.status, said.out.as_str()), (2, ""));
}

#[test]
fn the_deepest_map_is_renumbered() {
    for wad in [generator::chain(32_766), generator::balanced(32_766)] {
        let (said, new) = renumbered(&wad, &[]);
        said.is(0, &["in.wad:MAP01: 32,766 nodes renumbered, 0 dropped, written to out.wad"]);
        let is_below = |(at, both): (usize, &[u16; 2])| both.iter().all(|&word| word >= SUBSECTOR_BIT || usize::from(word) < at);
        assert!(children(&new).iter().enumerate().all(is_below));
    }
}
