//! `diff`: two files with maps of one name.

use crate::json_reader::{object, Members, Value};
use crate::support::{changed, good, lumps, said, Folder, Said};
use generator::{hexen_rooms, rooms, MapSpec, Plan, MAP_NAME};
use reader::{Linedef, Sector, Thing, Vertex};
use std::io::Write;
use std::process::Stdio;

/// What is said of two files.
fn diff(old: &[u8], new: &[u8], arguments: &[&str]) -> Said {
    Folder::with("old.wad", old).and("new.wad", new).run(&[&["diff", "old.wad", "new.wad"], arguments].concat())
}

/// The rooms of a game after a change.
fn changed_of(hexen: bool, change: impl FnOnce(&mut MapSpec)) -> Vec<u8> {
    let mut map = if hexen { hexen_rooms() } else { rooms() };
    change(&mut map);
    Plan::wad_of(map)
}

/// The second thing of a room.
const MONSTER: Thing =
    Thing { hexen: false, id: 0, x: 5, y: -6, height: 0, angle: 90, kind: 3001, flags: 7, action: 0, args: [0; 5] };

#[test]
fn a_map_is_the_same_as_itself() {
    for arguments in [&[][..], &["--records"], &["--map", "map01"]] {
        diff(&good(), &good(), arguments).is(0, &["new.wad:MAP01: the same records"]);
    }
    let folder = Folder::with("a.wad", &good());
    folder.run(&["diff", "a.wad", "a.wad"]).is(0, &["a.wad:MAP01: the same records"]);
}

#[test]
fn lumps_that_are_not_records_are_not_compared() {
    let new = changed(|map| {
        map.reject[0] = 0xFF;
        map.blockmap.origin_x = 99;
    });
    diff(&good(), &new, &["--records"]).is(0, &["new.wad:MAP01: the same records"]);
}

#[test]
fn changed_added_and_dropped_records_are_counted() {
    let new = changed(|map| {
        map.linedefs[5].special = 12;
        map.linedefs[7].tag = 3;
        map.things.push(MONSTER);
        map.things.push(MONSTER);
        map.vertices[2].x = 1;
    });
    let lines = [
        "new.wad:MAP01: THINGS: 0 changed, 2 added, 0 dropped",
        "new.wad:MAP01: LINEDEFS: 2 changed, 0 added, 0 dropped",
        "new.wad:MAP01: VERTEXES: 1 changed, 0 added, 0 dropped",
    ];
    diff(&good(), &new, &[]).is(1, &lines);
    let back = ["new.wad:MAP01: THINGS: 0 changed, 0 added, 2 dropped", lines[1], lines[2]];
    diff(&new, &good(), &[]).is(1, &back);
    let mixed = changed(|map| map.things[0].angle = 45);
    diff(&new, &mixed, &["--map=MAP01"]).is(1, &["new.wad:MAP01: THINGS: 1 changed, 0 added, 2 dropped", lines[1], lines[2]]);
}

#[test]
fn records_are_told_with_their_fields() {
    let new = changed(|map| {
        map.things.push(MONSTER);
        (map.linedefs[5].special, map.linedefs[5].tag) = (12, 7);
        map.sidedefs[0].upper = *b"STEP2\0z\0";
        (map.sidedefs[1].x_offset, map.sidedefs[1].sector) = (-8, 1);
        map.vertices.push(Vertex { x: -1, y: 2 });
        (map.segs[3].angle, map.segs[3].offset) = (5, -5);
        map.subsectors[1].number = 3;
        map.nodes[0].right_box[2] = -9;
        map.sectors[2].floor_flat = *b"NUKAGE1\0";
    });
    let lines = [
        "THINGS: 0 changed, 1 added, 0 dropped",
        "THINGS 1 added: x 5, y -6, angle 90, kind 3001, flags 7",
        "LINEDEFS: 1 changed, 0 added, 0 dropped",
        "LINEDEFS 5 changed: special 0 -> 12, tag 0 -> 7",
        "SIDEDEFS: 2 changed, 0 added, 0 dropped",
        r#"SIDEDEFS 0 changed: upper "STEP1" -> "STEP2\x00z""#,
        "SIDEDEFS 1 changed: x_offset 0 -> -8, sector 0 -> 1",
        "VERTEXES: 0 changed, 1 added, 0 dropped",
        "VERTEXES 10 added: x -1, y 2",
        "SEGS: 1 changed, 0 added, 0 dropped",
        "SEGS 3 changed: angle 32768 -> 5, offset 0 -> -5",
        "SSECTORS: 1 changed, 0 added, 0 dropped",
        "SSECTORS 1 changed: number 4 -> 3",
        "NODES: 1 changed, 0 added, 0 dropped",
        "NODES 0 changed: right_box (256 0 256 512) -> (256 0 -9 512)",
        "SECTORS: 1 changed, 0 added, 0 dropped",
        r#"SECTORS 2 changed: floor_flat "FLOOR4_8" -> "NUKAGE1""#,
    ];
    let lines = lines.map(|line| format!("new.wad:MAP01: {line}"));
    diff(&good(), &new, &["--records"]).is(1, &lines.each_ref().map(String::as_str));
    let said = diff(&new, &good(), &["--records"]);
    assert!(said.out.contains("MAP01: THINGS 1 dropped: x 5, y -6, angle 90, kind 3001, flags 7\n"), "{said:?}");
    assert!(said.out.contains(r#"SECTORS 2 changed: floor_flat "NUKAGE1" -> "FLOOR4_8""#), "{said:?}");
    assert_eq!(said.status, 1);
}

#[test]
fn records_of_hexen_have_their_own_fields() {
    let old = changed_of(true, |_| ());
    let new = changed_of(true, |map| {
        (map.things[1].id, map.things[1].args) = (8, [1, 2, 3, 4, 5]);
        map.things.push(Thing { hexen: true, height: 16, action: 80, ..MONSTER });
        map.linedefs[0].args[4] = 9;
        map.linedefs.push(Linedef { special: 255, ..map.linedefs[0] });
    });
    let lines = [
        "new.wad:MAP01: THINGS: 1 changed, 1 added, 0 dropped",
        "new.wad:MAP01: THINGS 1 changed: id 7 -> 8, args (1 0 0 0 0) -> (1 2 3 4 5)",
        "new.wad:MAP01: THINGS 2 added: id 0, x 5, y -6, height 16, angle 90, kind 3001, flags 7, action 80, args (0 0 0 0 0)",
        "new.wad:MAP01: LINEDEFS: 1 changed, 1 added, 0 dropped",
        "new.wad:MAP01: LINEDEFS 0 changed: args (0 0 0 0 0) -> (0 0 0 0 9)",
        "new.wad:MAP01: LINEDEFS 13 added: start 0, end 1, flags 1, special 255, args (0 0 0 0 9), right 0, left 65535",
    ];
    diff(&old, &new, &["--records"]).is(1, &lines);
}

/// A member of an object.
fn member<'a>(members: &'a Members, key: &str) -> &'a Value {
    &members.iter().find(|(it, _)| it == key).expect("the key is there").1
}

#[test]
fn the_answer_is_an_object_too() {
    let new = changed(|map| {
        map.vertices[9].y = 3;
        map.vertices.push(Vertex { x: -1, y: 2 });
    });
    let said = diff(&good(), &new, &["--json"]);
    let lump =
        |name: &str, changed: u8, added: u8| format!(r#"{{"lump":"{name}","changed":{changed},"added":{added},"dropped":0}}"#);
    let names = ["THINGS", "LINEDEFS", "SIDEDEFS", "VERTEXES", "SEGS", "SSECTORS", "NODES", "SECTORS"];
    let all = names.map(|name| lump(name, u8::from(name == "VERTEXES"), u8::from(name == "VERTEXES"))).join(",");
    let front = r#"{"format":1,"file":"new.wad","file_bytes":null,"old":"old.wad","map":"MAP01","number":0,"only":null,"count":2,"lumps":"#;
    said.is(1, &[&format!("{front}[{all}]}}")]);
    let said = diff(&good(), &new, &["--json", "--records"]);
    let records = r#""records":[{"record":9,"became":"changed","before":{"x":1024,"y":256},"after":{"x":1024,"y":3}},{"record":10,"became":"added","before":null,"after":{"x":-1,"y":2}}]}"#;
    assert!(said.out.contains(&format!(r#"{{"lump":"VERTEXES","changed":1,"added":1,"dropped":0,{records}"#)), "{said:?}");
    let members = object(said.out.trim_end());
    let Value::List(lumps) = member(&members, "lumps") else { panic!("{members:?}") };
    assert_eq!((lumps.len(), said.status), (8, 1));
    let said = diff(&new, &good(), &["--json", "--records"]);
    assert!(said.out.contains(r#"{"record":10,"became":"dropped","before":{"x":-1,"y":2},"after":null}"#), "{said:?}");
    let said = diff(&good(), &good(), &["--json"]);
    assert!(said.status == 0 && said.out.contains(r#""only":null,"count":0,"lumps":[{"#), "{said:?}");
}

#[test]
fn every_field_of_every_record_is_an_object_s_member() {
    let old = changed_of(true, |map| map.things.truncate(1));
    let new = changed_of(true, |map| {
        map.sectors.push(Sector { tag: 5, ..map.sectors[0] });
        map.reject.resize((5 * 5_usize).div_ceil(8), 0);
    });
    let said = diff(&old, &new, &["--json", "--records"]);
    for part in [
        r#""after":{"id":7,"x":896,"y":128,"height":48,"angle":90,"kind":8065,"flags":2023,"action":80,"args":[1,0,0,0,0]}"#,
        r#""after":{"floor":0,"ceiling":192,"floor_flat":"FLOOR4_8","ceiling_flat":"CEIL3_5","light":224,"special":0,"tag":5}"#,
    ] {
        assert!(said.out.contains(part), "{said:?}");
    }
}

/// A file with these maps, all of them the rooms but for a thing's angle.
fn file_of(maps: &[(&[u8; 8], u16)]) -> Vec<u8> {
    let mut all = Vec::new();
    for (name, angle) in maps {
        let mut map = rooms();
        map.things[0].angle = *angle;
        all.push((**name, Vec::new()));
        all.extend((1..).zip(generator::LUMP_NAMES).map(|(place, name)| (name, map.lump(place))));
    }
    lumps(&all.iter().map(|(name, bytes)| (name, bytes.clone())).collect::<Vec<_>>())
}

#[test]
fn without_names_all_maps_of_both_are_compared() {
    let old = file_of(&[(b"MAP02\0\0\0", 0), (b"E1M1\0\0\0\0", 0), (b"MAP01\0\0\0", 0), (b"MAP07\0\0\0", 0)]);
    let new = file_of(&[(b"MAP01\0\0\0", 0), (b"MAP02\0\0\0", 9), (b"MAP03\0\0\0", 0), (b"E1M1\0\0\0\0", 0)]);
    let lines = [
        "new.wad:MAP02: THINGS: 1 changed, 0 added, 0 dropped",
        "new.wad:E1M1: the same records",
        "new.wad:MAP01: the same records",
        "old.wad:MAP07: only the old file has this map",
        "new.wad:MAP03: only the new file has this map",
    ];
    diff(&old, &new, &[]).is(1, &lines);
    let said = diff(&old, &new, &["--json"]);
    let only = |map: &str, word: &str| {
        format!(
            r#"{{"format":1,"file":"new.wad","file_bytes":null,"old":"old.wad","map":"{map}","number":null,"only":"{word}","count":null,"lumps":null}}"#
        )
    };
    assert_eq!(said.out.lines().skip(3).collect::<Vec<_>>(), [only("MAP07", "old"), only("MAP03", "new")]);
    diff(&old, &new, &["--map", "MAP01", "--map", "e1m1", "--map", "map01"]).is(0, &[lines[2], lines[1]]);
}

/// A map that one file lacks is a difference, as a file is for diff; by its name it is refused.
#[test]
fn a_map_that_one_file_lacks() {
    let none = lumps(&[(b"DEMO1\0\0\0", vec![1])]);
    diff(&good(), &none, &[]).is(1, &["old.wad:MAP01: only the old file has this map"]);
    diff(&none, &good(), &[]).is(1, &["new.wad:MAP01: only the new file has this map"]);
    diff(&none, &none, &[]).is(0, &["new.wad: no map"]);
    let words = "refused 11: the file has no map of that name; there is no map at all";
    diff(&good(), &none, &["--map", "MAP01"]).is(2, &[&format!("new.wad:MAP01: {words}")]);
    diff(&none, &good(), &["--map", "MAP01"]).is(2, &[&format!("old.wad:MAP01: {words}")]);
    diff(&none, &none, &["--map", "MAP01"]).is(2, &[&format!("old.wad:MAP01: {words}")]);
    let said = diff(&good(), &good(), &["--map", "ROOMS"]);
    assert!(said.status == 2 && said.out.starts_with("old.wad:ROOMS: refused 10: "), "{said:?}");
}

/// A refused map has the line of `judge`, the old one first; then nothing of the map is compared.
#[test]
fn a_refused_map_is_refused_as_it_is_judged() {
    let bad =
        [changed(|map| map.linedefs[5].right = 99), changed(|map| map.nodes[1].right = 2), changed(|map| map.reject.clear())];
    for (at, wad) in bad.iter().enumerate() {
        let other = &bad[(at + 1) % bad.len()];
        for (old, new, file) in [(wad, &good(), "old.wad"), (&good(), wad, "new.wad"), (wad, other, "old.wad")] {
            let folder = Folder::with("old.wad", old).and("new.wad", new);
            for more in [&[][..], &["--json"]] {
                let said = folder.run(&[&["diff", "old.wad", "new.wad", "--records"], more].concat());
                let judged = folder.run(&[&["judge", file], more].concat());
                assert_eq!((said.status, said.out, said.err.as_str()), (2, judged.out, ""));
            }
        }
    }
}

#[test]
fn two_games_are_not_compared() {
    let words = "one map is Doom's and the other Hexen's: only two maps of one game can be compared";
    let hexen = Plan::wad_of(hexen_rooms());
    diff(&good(), &hexen, &[]).is(2, &[&format!("new.wad:MAP01: refused 76 (Hexen): {words}")]);
    diff(&hexen, &good(), &[]).is(2, &[&format!("new.wad:MAP01: refused 76: {words}")]);
    let said = diff(&good(), &hexen, &["--json"]);
    let part =
        r#""map":"MAP01","verdict":"refused","number":76,"place":null,"lump":null,"record":null,"found":null,"reason":null,"#;
    assert!(said.status == 2 && said.out.contains(part), "{said:?}");
}

/// What is refused or not read outweighs what differs.
#[test]
fn the_status_is_the_largest() {
    let old = file_of(&[(b"MAP01\0\0\0", 0), (b"MAP02\0\0\0", 0)]);
    let mut new = file_of(&[(b"MAP01\0\0\0", 9), (b"MAP02\0\0\0", 9)]);
    assert_eq!(diff(&old, &new, &[]).status, 1);
    let marker = reader::find_map(&new, b"MAP02\0\0\0").marker.expect("a map");
    let (offset, _) = reader::entry(&new, marker + Linedef::PLACE).expect("an entry");
    new[offset] = 99;
    let said = diff(&old, &new, &[]);
    assert_eq!((said.status, said.out.lines().count()), (2, 2), "{said:?}");
    assert!(said.out.contains("new.wad:MAP02: refused 23 at LINEDEFS 0"), "{said:?}");
}

#[test]
fn files_that_are_no_good_are_told() {
    let folder = Folder::with("a.wad", &good()).and("cut.wad", &good()[..11]);
    for (old, new) in [("a.wad", "cut.wad"), ("cut.wad", "a.wad")] {
        let said = folder.run(&["diff", old, new]);
        assert!(said.status == 2 && said.out.starts_with("cut.wad: refused 1: "), "{said:?}");
        assert_eq!(said.out.lines().count(), 1);
    }
    for (old, new) in [("a.wad", "no.wad"), ("no.wad", "a.wad")] {
        let said = folder.run(&["diff", old, new]);
        assert!(said.status == 2 && said.out.is_empty() && said.err.starts_with("meshpigeon: no.wad: No such file"), "{said:?}");
    }
    let said = folder.run(&["diff", "cut.wad", "no.wad"]);
    assert!(said.status == 2 && said.out.starts_with("cut.wad: refused 1: ") && said.err.contains("no.wad"), "{said:?}");
}

#[test]
fn one_file_may_be_a_pipe() {
    let folder = Folder::with("a.wad", &good());
    for (arguments, line) in
        [(["diff", "-", "a.wad"], "a.wad:MAP01: the same records"), (["diff", "a.wad", "-"], "-:MAP01: the same records")]
    {
        let mut child = folder
            .command(&arguments)
            .stdin(Stdio::piped())
            .stdout(Stdio::piped())
            .stderr(Stdio::piped())
            .spawn()
            .expect("the tool runs");
        child.stdin.take().expect("a pipe").write_all(&good()).expect("the tool reads");
        said(child.wait_with_output().expect("the tool ends")).is(0, &[line]);
    }
}

/// The largest map there is, and the same with another last record of its last lump of records.
#[test]
fn the_last_record_of_the_largest_map_is_told() {
    let old = generator::largest_map();
    let (offset, size) = reader::entry(&old, Sector::PLACE).expect("an entry");
    let mut new = old.clone();
    new[offset + size - 1] ^= 1;
    let said = diff(&old, &new, &["--records", "--map", std::str::from_utf8(&MAP_NAME[..5]).expect("a name")]);
    let (first, second) = said.out.trim_end().split_once('\n').expect("two lines");
    assert_eq!((first, said.status), ("new.wad:MAP01: SECTORS: 1 changed, 0 added, 0 dropped", 1));
    assert!(second.starts_with("new.wad:MAP01: SECTORS 7999 changed: tag "), "{second}");
}
