//! `order`.

use crate::json_reader::{object, Value};
use crate::support::{changed, good, Folder};
use generator::{hexen_rooms, rooms, Plan, MAP_NAME};
use reader::{Node, Subsector, SUBSECTOR_BIT};

#[test]
fn the_rooms_are_listed_front_first() {
    let folder = Folder::with("a.wad", &good());
    for (x, list) in [("-32768", "0 1 2 3"), ("256", "0 1 2 3"), ("257", "1 0 2 3"), ("513", "2 3 1 0"), ("32767", "3 2 1 0")] {
        let line = format!("a.wad:MAP01: from ({x}, -5) 4 subsectors, front first: {list}");
        folder.run(&["order", "a.wad", "map01", x, "-5"]).is(0, &[&line]);
    }
}

#[test]
fn the_list_begins_with_the_points_own_subsector() {
    let folder = Folder::with("a.wad", &good());
    for x in ["0", "300", "700", "1000"] {
        let found = folder.run(&["descend", "a.wad", "MAP01", x, "0"]).out;
        let drawn = folder.run(&["order", "a.wad", "MAP01", x, "0"]).out;
        let own = |said: &str, before: &str| said.split_once(before).and_then(|(_, rest)| rest.chars().next());
        assert_eq!(own(&found, "subsector "), own(&drawn, "first: "), "{found}{drawn}");
    }
}

#[test]
fn a_map_without_nodes_is_one_subsector() {
    let wad = changed(|map| {
        map.nodes.clear();
        map.subsectors.truncate(1);
    });
    let said = Folder::with("a.wad", &wad).run(&["order", "a.wad", "MAP01", "0", "0"]);
    said.is(0, &["a.wad:MAP01: from (0, 0) 1 subsector, front first: 0"]);
}

#[test]
fn the_answer_is_an_object_too() {
    let folder = Folder::with("a.wad", &good());
    let line = r#"{"format":1,"file":"a.wad","file_bytes":null,"map":"MAP01","number":0,"x":300,"y":-1,"count":4,"subsectors":[1,0,2,3],"output":null}"#;
    folder.run(&["order", "a.wad", "MAP01", "300", "-1", "--json"]).is(0, &[line]);
    let list = [1, 0, 2, 3].map(Value::Number).into();
    assert_eq!(object(line).iter().rev().nth(1), Some(&("subsectors".to_string(), Value::List(list))));
    let line = line.replace("\"output\":null", "\"output\":\"a.svg\"");
    folder.run(&["order", "a.wad", "MAP01", "300", "-1", "-o", "a.svg", "--json"]).is(0, &[&line]);
}

#[test]
fn a_map_of_hexen_is_listed() {
    let said = Folder::with("a.wad", &Plan::wad_of(hexen_rooms())).run(&["order", "a.wad", "MAP01", "300", "0"]);
    said.is(0, &["a.wad:MAP01: from (300, 0) 4 subsectors, front first: 1 0 2 3"]);
}

/// A map of this many nodes in a chain, each with a subsector of its own.
fn chain(count: u16) -> Vec<u8> {
    changed(|map| {
        let (node, subsector) = (map.nodes[2], map.subsectors[0]);
        let child = |at: u16| at.checked_sub(1).unwrap_or(SUBSECTOR_BIT);
        map.nodes = (0..count).map(|at| Node { right: child(at), left: SUBSECTOR_BIT | (at + 1), ..node }).collect();
        map.subsectors = vec![Subsector { ..subsector }; usize::from(count) + 1];
    })
}

#[test]
fn a_way_of_257_nodes_is_refused() {
    let folder = Folder::with("good.wad", &chain(256)).and("deep.wad", &chain(257));
    let said = folder.run(&["order", "good.wad", "MAP01", "0", "0"]);
    assert!(said.out.starts_with("good.wad:MAP01: from (0, 0) 257 subsectors, front first: 256 255 "), "{said:?}");
    let line = "deep.wad:MAP01: refused 44: a way down passes more than 256 nodes: a draw order follows ways of at most 256";
    folder.run(&["order", "deep.wad", "MAP01", "0", "0"]).is(1, &[line]);
    assert_eq!(folder.run(&["judge", "deep.wad"]).status, 0);
}

#[test]
fn a_list_that_grows_too_long_is_refused() {
    let samples = generator::samples();
    let shared = samples.iter().find(|(name, _)| *name == "shared.wad").expect("the sample");
    let said = Folder::with("a.wad", &shared.1).run(&["order", "a.wad", "MAP01", "0", "0"]);
    assert!(said.out.starts_with("a.wad:MAP01: refused 46: the draw order grows too long: "), "{said:?}");
    assert_eq!((said.status, said.out.lines().count()), (1, 1));
}

#[test]
fn a_child_that_is_not_there_is_refused_with_its_node() {
    let folder = Folder::with("a.wad", &changed(|map| map.nodes[1].right = 3));
    for x in ["0", "1000"] {
        let said = folder.run(&["order", "a.wad", "MAP01", x, "0"]);
        assert!(said.out.starts_with("a.wad:MAP01: refused 42 at node 1: "), "{said:?}");
        assert_eq!(said.status, 1);
    }
}

#[test]
fn the_rest_of_the_map_may_be_bad_but_its_lumps_must_be_there() {
    let folder = Folder::with("a.wad", &changed(|map| map.reject.clear()));
    assert_eq!(folder.run(&["order", "a.wad", "MAP01", "0", "0"]).status, 0);
    let mut plan = Plan::new(rooms(), MAP_NAME);
    plan.entry_at(7).name = *b"NODE\0\0\0\0";
    let said = Folder::with("a.wad", &plan.wad()).run(&["order", "a.wad", "MAP01", "0", "0"]);
    assert!(said.out.starts_with("a.wad:MAP01: refused 12 at NODES: "), "{said:?}");
    let said = folder.run(&["order", "a.wad", "E1M1", "0", "0", "--json"]);
    assert!(said.out.contains(r#""map":"E1M1","verdict":"refused","number":11,"#), "{said:?}");
    assert_eq!(said.status, 1);
}

/// The titles of a picture's subsectors, in the order in which they are drawn.
fn titles(svg: &str) -> Vec<&str> {
    svg.split("<title>").skip(1).filter_map(|it| it.split_once("</title>")).map(|(title, _)| title).collect()
}

#[test]
fn a_picture_is_drawn_from_far_to_near() {
    let folder = Folder::with("a.wad", &good());
    let line = "a.wad:MAP01: from (300, 0) 4 subsectors, front first: 1 0 2 3, drawn to a.svg";
    folder.run(&["order", "a.wad", "MAP01", "300", "0", "-o", "a.svg"]).is(0, &[line]);
    let svg = std::fs::read_to_string(folder.file("a.svg")).expect("the picture");
    let far = ["subsector 3, 4 of 4", "subsector 2, 3 of 4", "subsector 0, 2 of 4", "subsector 1, 1 of 4", "the point"];
    assert_eq!(titles(&svg), far);
    assert!(
        svg.contains(r##"stroke="#a50026""##) && svg.contains(r##"stroke="#abd9e9""##),
        "near and far have their shades: {svg}"
    );
    assert!(
        svg.contains(r#"d="M256 0L256 -256M256 -256L512 -256M512 -256L512 0M512 0L256 0"><title>subsector 1,"#),
        "north is up: {svg}"
    );
    assert!(svg.contains(r#"<circle cx="300" cy="0""#), "{svg}");
    let said = folder.run(&["order", "a.wad", "MAP01", "300", "0", "-o", "-"]);
    assert_eq!((said.status, said.out), (0, svg));
}

#[test]
fn no_picture_of_a_refused_list_and_none_over_its_file() {
    let bad = changed(|map| map.nodes[1].right = 3);
    let folder = Folder::with("a.wad", &bad);
    assert_eq!(folder.run(&["order", "a.wad", "MAP01", "0", "0", "-o", "a.svg"]).status, 1);
    assert_eq!(folder.run(&["order", "a.wad", "MAP01", "0", "0", "-o", "a.wad"]).status, 3);
    assert_eq!(folder.run(&["order", "a.wad", "MAP01", "0", "0", "-o", "none/a.svg"]).status, 1);
    assert_eq!((folder.names(), std::fs::read(folder.file("a.wad")).expect("the file")), (vec!["a.wad".to_string()], bad));
    let folder = Folder::with("a.wad", &good());
    assert_eq!(folder.run(&["order", "a.wad", "MAP01", "0", "0", "-o", "none/a.svg"]).status, 2);
}

#[test]
fn a_seg_that_many_subsectors_have_is_drawn_once_and_a_line_without_its_vertex_not_at_all() {
    let wad = changed(|map| {
        map.subsectors.iter_mut().for_each(|it| (it.first, it.number) = (0, 16));
        map.segs[3].end = 500;
        map.linedefs[0].start = 500;
    });
    let said = Folder::with("a.wad", &wad).run(&["order", "a.wad", "MAP01", "300", "0", "-o", "-"]);
    let lines: Vec<usize> = said.out.lines().filter(|it| it.starts_with("<path")).map(|it| it.matches('L').count()).collect();
    assert_eq!((lines, said.status), (vec![12, 0, 0, 0, 15], 0), "{}", said.out);
}

#[test]
fn a_map_of_hexen_is_drawn() {
    let folder = Folder::with("a.wad", &Plan::wad_of(hexen_rooms()));
    let hexen = folder.run(&["order", "a.wad", "MAP01", "300", "0", "-o", "-"]).out;
    let doom = Folder::with("a.wad", &good()).run(&["order", "a.wad", "MAP01", "300", "0", "-o", "-"]).out;
    assert_eq!(hexen, doom, "the same rooms");
}
