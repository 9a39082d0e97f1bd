//! Lumps of a map behind a name that no map has, and files without a map: what may not pass for an accepted map.

use crate::support::{changed, good, lumps, Folder, GOOD};
use generator::{rooms, EntryPlan, Plan, MAP_NAME};

/// What such names are told.
const RULE: &str = "nothing of it was judged. Maps are called MAP01 to MAP99, or E1M1 to E9M9.";

/// The four rooms with nodes that turn back, under this name.
fn called(name: [u8; 8]) -> Vec<u8> {
    let mut map = rooms();
    map.nodes[1].right = 2;
    Plan::new(map, name).wad()
}

#[test]
fn a_map_that_nobody_judged_has_status_1() {
    for (name, said) in [
        (*b"MYMAP\0\0\0", "MYMAP"),
        (*b"MAP00\0\0\0", "MAP00"),
        (*b"MAP100\0\0", "MAP100"),
        (*b"E1M10\0\0\0", "E1M10"),
        (*b"LEVEL01\0", "LEVEL01"),
    ] {
        let folder = Folder::with("a.wad", &called(name));
        let line = format!("a.wad: entry 0, {said}, has map lumps behind it but is no map name: {RULE}");
        folder.run(&["judge", "a.wad"]).is(1, &[&line]);
        folder.run(&["judge", "-q", "a.wad"]).is(1, &[&line]);
        let json = folder.run(&["judge", "-q", "--json", "a.wad"]);
        let parts = [r#""verdict":"no-map","number":null"#, &format!(r#""found":{{"entry":0,"name":"{said}","lumps":10}}"#)];
        assert!(json.status == 1 && parts.iter().all(|part| json.out.contains(part)), "{json:?}");
    }
}

#[test]
fn it_is_said_beside_the_maps_that_were_judged() {
    let mut plan = Plan::new(rooms(), MAP_NAME);
    let map: Vec<EntryPlan> = plan.entries[1..].to_vec();
    plan.entries.push(EntryPlan::empty(*b"MAP100\0\0"));
    plan.entries.extend(map);
    let folder = Folder::with("a.wad", &plan.wad());
    let line = format!("a.wad: entry 11, MAP100, has map lumps behind it but is no map name: {RULE}");
    let good = format!("a.wad:MAP01: {GOOD}");
    folder.run(&["judge", "a.wad"]).is(1, &[&good, &line, "1 file: 1 map accepted, 1 map not judged"]);
    folder.run(&["judge", "a.wad", "--map", "MAP01"]).is(0, &[&good]);
}

#[test]
fn two_lumps_in_order_are_a_maps() {
    let entries = |names: &[&[u8; 8]]| lumps(&names.iter().map(|name| (*name, vec![])).collect::<Vec<_>>());
    let said = |names: &[&[u8; 8]]| Folder::with("a.wad", &entries(names)).run(&["judge", "a.wad"]);
    let line =
        |entry: usize, name: &str| format!("a.wad: entry {entry}, {name}, has map lumps behind it but is no map name: {RULE}");
    said(&[b"MYMAP\0\0\0", b"LINEDEFS", b"SECTORS\0"]).is(1, &[&line(0, "MYMAP")]);
    said(&[b"OTHER\0\0\0", b"MYMAP\0\0\0", b"THINGS\0\0", b"LINEDEFS"]).is(1, &[&line(1, "MYMAP")]);
    said(&[b"THINGS\0\0", b"OTHER\0\0\0", b"LINEDEFS", b"THINGS\0\0"]).is(0, &["a.wad: no map"]);
    let words =
        "2 lumps of a map have no name before them: nothing of them was judged. Maps are called MAP01 to MAP99, or E1M1 to E9M9.";
    said(&[b"THINGS\0\0", b"LINEDEFS"]).is(1, &[&format!("a.wad: {words}")]);
}

#[test]
fn a_lump_that_is_misnamed_is_no_marker() {
    let mut plan = Plan::new(rooms(), MAP_NAME);
    plan.entry_at(3).name = *b"OTHER\0\0\0";
    let said = Folder::with("a.wad", &plan.wad()).run(&["judge", "a.wad"]);
    assert!(
        said.out.starts_with("a.wad:MAP01: refused 12 at SIDEDEFS: SIDEDEFS is missing: entry 3 is called OTHER. "),
        "{said:?}"
    );
    assert_eq!((said.status, said.out.lines().count()), (1, 1));
}

#[test]
fn a_text_map_of_another_name_is_said_too() {
    let named = |name| {
        lumps(&[(name, vec![]), (b"TEXTMAP\0", vec![]), (b"REJECT\0\0", vec![]), (b"BLOCKMAP", vec![]), (b"ENDMAP\0\0", vec![])])
    };
    let said = Folder::with("a.wad", &named(b"LEVEL01\0")).run(&["judge", "a.wad"]);
    said.is(1, &[&format!("a.wad: entry 0, LEVEL01, has a text map behind it but is no map name: {RULE}")]);
    let said = Folder::with("a.wad", &named(b"MAP01\0\0\0")).run(&["judge", "a.wad"]);
    assert!(said.out.starts_with("a.wad:MAP01: a text map: ") && said.out.lines().count() == 1, "{said:?}");
}

#[test]
fn it_is_said_behind_a_text_map_and_behind_an_earlier_map_of_a_name() {
    let lumps = |names: &[&[u8; 8]]| lumps(&names.iter().map(|name| (*name, vec![])).collect::<Vec<_>>());
    let line = |entry: usize| format!("a.wad: entry {entry}, MYMAP, has map lumps behind it but is no map name: {RULE}");
    let text = lumps(&[b"MAP01\0\0\0", b"TEXTMAP\0", b"ENDMAP\0\0", b"MYMAP\0\0\0", b"THINGS\0\0", b"LINEDEFS"]);
    let said = Folder::with("a.wad", &text).run(&["judge", "a.wad"]);
    assert_eq!((said.out.lines().nth(1), said.status), (Some(line(3).as_str()), 1), "{said:?}");
    let twice = lumps(&[b"MAP01\0\0\0", b"MYMAP\0\0\0", b"THINGS\0\0", b"LINEDEFS", b"MAP01\0\0\0"]);
    let said = Folder::with("a.wad", &twice).run(&["judge", "a.wad"]);
    assert_eq!((said.out.lines().nth(1), said.status), (Some(line(1).as_str()), 1), "{said:?}");
}

#[test]
fn of_a_pair_it_is_said_whose_it_is() {
    let folder = Folder::with("base.wad", &good()).and("patch.wad", &called(*b"MYMAP\0\0\0"));
    let line = format!("patch.wad: entry 0 of the patch, MYMAP, has map lumps behind it but is no map name: {RULE}");
    let said = folder.run(&["judge", "--base", "base.wad", "patch.wad"]);
    said.is(
        1,
        &[
            &format!("patch.wad:MAP01: {}", GOOD.replace("accepted", "accepted (of the base)")),
            &line,
            "1 file: 1 map accepted, 1 map not judged",
        ],
    );
}

#[test]
fn a_file_without_a_map_may_be_required_to_have_one() {
    let picture = lumps(&[(b"PLAYPAL\0", vec![1])]);
    let folder = Folder::with("a.wad", &picture).and("b.wad", &good());
    folder.run(&["judge", "a.wad"]).is(0, &["a.wad: no map"]);
    folder.run(&["judge", "-q", "a.wad"]).is(0, &[]);
    let line = "a.wad: no map, and one is required";
    folder.run(&["judge", "--require-map", "a.wad"]).is(1, &[line]);
    folder.run(&["judge", "--require-map", "-q", "a.wad", "b.wad"]).is(1, &[line]);
    folder.run(&["judge", "--require-map", "-q", "b.wad"]).is(0, &[]);
    let said = folder.run(&["judge", "--require-map", "--json", "a.wad"]);
    assert!(said.status == 1 && said.out.contains(r#""verdict":"no-map""#), "{said:?}");
    let said = folder.run(&["judge", "--require-map", "--base", "b.wad", "a.wad"]);
    assert_eq!(said.status, 0, "{said:?}");
}

#[test]
fn gl_nodes_alone_are_no_map() {
    let wad = lumps(&[(b"GL_MAP01", vec![]), (b"GL_VERT\0", vec![]), (b"GL_SEGS\0", vec![])]);
    let said = Folder::with("a.wad", &wad).run(&["judge", "a.wad"]);
    said.is(0, &["a.wad: no map; entry 0, GL_MAP01, has the GL nodes of a map, which the box cannot read"]);
}

#[test]
fn a_good_file_says_nothing_of_it() {
    let folder = Folder::with("a.wad", &good()).and("b.wad", &changed(|_| ()));
    assert_eq!(folder.run(&["judge", "a.wad", "b.wad"]).status, 0);
}
