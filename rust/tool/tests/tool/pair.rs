//! `--base`: a patch over a base, as the box opens them.

use crate::json_reader::{object, Value};
use crate::png_reader;
use crate::support::{changed, good, lumps, Folder, Said};
use generator::{hexen_rooms, rooms, EntryPlan, MapSpec, PictureSpec, Plan, Post, MAP_NAME};
use std::fs;
use std::os::unix::fs::symlink;

const MAP02: [u8; 8] = *b"MAP02\0\0\0";

/// A file with one map of that name.
fn file_with(map: MapSpec, name: [u8; 8]) -> Vec<u8> {
    Plan::new(map, name).wad()
}

/// The four rooms without nodes: one subsector.
fn one_room() -> MapSpec {
    let mut map = rooms();
    map.nodes.clear();
    map.subsectors.truncate(1);
    map
}

/// A file of the four rooms and of MAP02 that is the same.
fn both() -> Vec<u8> {
    let mut plan = Plan::new(rooms(), MAP_NAME);
    let second: Vec<EntryPlan> = plan.entries[1..].to_vec();
    plan.entries.push(EntryPlan::empty(MAP02));
    plan.entries.extend(second);
    plan.wad()
}

const OF_BASE: &str = "accepted (of the base), depth 2, 3 nodes, 4 subsectors";
const OF_PATCH: &str = "accepted (of the patch), depth 0, 0 nodes, 1 subsector";

#[test]
fn the_patchs_map_takes_the_place_of_the_bases() {
    let folder = Folder::with("base.wad", &both()).and("patch.wad", &file_with(one_room(), MAP_NAME));
    let lines = [format!("patch.wad:MAP01: {OF_PATCH}"), format!("patch.wad:MAP02: {OF_BASE}")];
    for arguments in [&["judge", "--base", "base.wad", "patch.wad"], &["judge", "patch.wad", "--base", "base.wad"]] {
        folder.run(arguments).is(0, &[&lines[0], &lines[1], "1 file: 2 maps accepted"]);
    }
    folder.run(&["judge", "--base=base.wad", "patch.wad", "--map", "map02"]).is(0, &[&lines[1]]);
}

#[test]
fn each_file_is_a_patch_of_its_own() {
    let folder = Folder::with("base.wad", &good()).and("a.wad", &file_with(one_room(), MAP_NAME)).and("b.wad", &lumps(&[]));
    let lines = [format!("a.wad:MAP01: {OF_PATCH}"), format!("b.wad:MAP01: {OF_BASE}")];
    let said = folder.run(&["judge", "--base", "base.wad", "a.wad", "b.wad"]);
    said.is(0, &[&lines[0], &lines[1], "2 files: 2 maps accepted"]);
    folder.run(&["judge", "--base", "b.wad", "b.wad"]).is(0, &["b.wad: no map"]);
}

#[test]
fn a_bad_map_of_the_patch_hides_a_good_one_of_the_base() {
    let folder = Folder::with("base.wad", &good())
        .and("loop.wad", &changed(|map| map.nodes[1].right = 2))
        .and("marker.wad", &lumps(&[(&MAP_NAME, vec![])]));
    let said = folder.run(&["judge", "--base", "base.wad", "loop.wad"]);
    assert!(said.out.starts_with("loop.wad:MAP01: refused 31 at NODES (of the patch): the nodes turn back"), "{said:?}");
    assert_eq!(said.status, 1);
    let said = folder.run(&["judge", "--base", "base.wad", "marker.wad"]);
    assert!(said.out.starts_with("marker.wad:MAP01: refused 12 at THINGS (of the patch): THINGS is missing"), "{said:?}");
    folder
        .run(&["judge", "--base", "loop.wad", "base.wad"])
        .is(0, &["base.wad:MAP01: accepted (of the patch), depth 2, 3 nodes, 4 subsectors"]);
}

#[test]
fn what_was_found_is_found_in_the_maps_own_file() {
    let folder = Folder::with("base.wad", &changed(|map| map.reject.push(0))).and("patch.wad", &lumps(&[]));
    let said = folder.run(&["judge", "--base", "base.wad", "patch.wad"]);
    assert!(said.out.starts_with("patch.wad:MAP01: refused 22 at REJECT (of the base): "), "{said:?}");
    assert!(said.out.contains(": REJECT has 3 bytes, and the sectors of this map need 2. "), "{said:?}");
}

#[test]
fn the_patch_is_judged_before_the_base() {
    let bad = lumps(&[(b"GOOD\0\0\0\0", vec![]), (b"bad\0\0\0\0\0", vec![])]);
    let folder = Folder::with("bad.wad", &bad).and("short.wad", b"PWAD").and("good.wad", &good());
    let line = |base: &str, patch: &str| folder.run(&["judge", "--base", base, patch, "--map", "no map"]);
    let starts = |said: Said, words: &str| {
        assert!(said.out.starts_with(words), "{said:?}");
        assert_eq!((said.status, said.out.lines().count(), said.err.as_str()), (1, 1, ""));
    };
    starts(line("bad.wad", "short.wad"), "short.wad: refused 1 (of the patch): the file has 4 bytes");
    starts(
        line("short.wad", "bad.wad"),
        "bad.wad: refused 6 at entry 1 (of the patch): entry 1, with offset 12 and size 0, is called \"bad\": ",
    );
    starts(
        line("bad.wad", "good.wad"),
        "good.wad: refused 6 at entry 1 (of the base): entry 1, with offset 12 and size 0, is called \"bad\": ",
    );
    starts(line("good.wad", "good.wad"), "good.wad:NO MAP: refused 10: that is no map's name");
}

#[test]
fn a_map_that_neither_has_is_refused() {
    let folder = Folder::with("base.wad", &good()).and("patch.wad", &good());
    let said = folder.run(&["judge", "--base", "base.wad", "patch.wad", "--map", "MAP09", "--map", "MAP08"]);
    let lines = ["MAP09", "MAP08"]
        .map(|map| format!("patch.wad:{map}: refused 11: neither file has an entry of that name; the only map is MAP01"));
    said.is(1, &[&lines[0], &lines[1], "1 file: 2 maps not there"]);
}

#[test]
fn a_base_that_cannot_be_read_ends_it() {
    let folder = Folder::with("a.wad", &good());
    for arguments in [&["judge", "--base", "no.wad", "a.wad"][..], &["picture", "--base", "no.wad", "a.wad", "P", "-o", "p.png"]]
    {
        let said = folder.run(arguments);
        assert!(said.err.starts_with("meshpigeon: no.wad: No such file"), "{said:?}");
        assert_eq!((said.status, said.out.as_str()), (2, ""));
    }
    let said = folder.run(&["judge", "--base", "a.wad", "no.wad", "a.wad"]);
    assert!(said.err.starts_with("meshpigeon: no.wad: No such file"), "{said:?}");
    assert_eq!((said.status, said.out.lines().count()), (2, 2));
}

#[test]
fn the_game_is_that_of_the_maps_own_file() {
    let folder = Folder::with("hexen.wad", &Plan::wad_of(hexen_rooms())).and("doom.wad", &file_with(rooms(), MAP02));
    let said = folder.run(&["judge", "--base", "hexen.wad", "doom.wad"]);
    let doom = "doom.wad:MAP02: accepted (of the patch), depth 2, 3 nodes, 4 subsectors";
    let hexen = "doom.wad:MAP01: accepted (Hexen, of the base), depth 2, 3 nodes, 4 subsectors";
    said.is(0, &[doom, hexen, "1 file: 2 maps accepted"]);
}

/// The values of these keys.
fn values(line: &str, keys: &[&str]) -> Vec<Value> {
    let members = object(line);
    let value = |key: &&str| members.iter().find(|(name, _)| name == key).expect("the key").1.clone();
    keys.iter().map(value).collect()
}

#[test]
fn json_has_the_file_as_from() {
    let text = |it: &str| Value::Text(it.to_string());
    let folder =
        Folder::with("base.wad", &both()).and("patch.wad", &file_with(one_room(), MAP_NAME)).and("bad.wad", b"hello, world");
    let judge = |base: &str, patch: &str| {
        let said = folder.run(&["judge", "--json", "--base", base, patch, "--map", "MAP01", "--map", "MAP02", "--map", "MAP03"]);
        said.out.lines().map(|line| values(line, &["file", "map", "number", "marker", "from"])).collect::<Vec<_>>()
    };
    let (patch, null) = (text("patch.wad"), Value::Null);
    let expected = [
        vec![patch.clone(), text("MAP01"), Value::Number(0), Value::Number(0), text("patch")],
        vec![patch.clone(), text("MAP02"), Value::Number(0), Value::Number(11), text("base")],
        vec![patch.clone(), text("MAP03"), Value::Number(11), null.clone(), null.clone()],
    ];
    assert_eq!(judge("base.wad", "patch.wad"), expected);
    assert_eq!(judge("bad.wad", "patch.wad"), [[patch, null.clone(), Value::Number(2), null.clone(), text("base")]]);
    assert_eq!(judge("base.wad", "bad.wad"), [[text("bad.wad"), null.clone(), Value::Number(2), null, text("patch")]]);
}

/// One column of one pixel of this colour.
fn pixel(colour: u8) -> Vec<u8> {
    let mut picture = PictureSpec::blank(1, 1);
    picture.give_column(0, &[Post { start: 0, pixels: vec![colour], ignored: [0, 0] }]);
    picture.data.push(255);
    picture.encode()
}

/// A palette of reds (0), greens (1) or blues (2): colour n has n of it.
fn palette(channel: usize) -> Vec<u8> {
    let colour = |n| std::array::from_fn::<u8, 3, _>(|at| if at == channel { n } else { 0 });
    (0..=255).flat_map(colour).collect()
}

#[test]
fn lump_and_palette_come_through_the_pair() {
    let base = lumps(&[(b"PLAYPAL\0", palette(0)), (b"WALL\0\0\0\0", pixel(7)), (b"DOOR\0\0\0\0", pixel(8))]);
    let folder = Folder::with("base.wad", &base)
        .and("wall.wad", &lumps(&[(b"WALL\0zzz", pixel(9))]))
        .and("green.wad", &lumps(&[(b"PLAYPAL\0", palette(1))]));
    let painted = |patch: &str, lump: &str, of: &str, rgb: [u8; 3]| {
        let said = folder.run(&["picture", "--base", "base.wad", patch, lump, "-o", "out.png"]);
        said.is(0, &[&format!("{patch}:{lump}: 1 x 1 (of the {of}), offsets 0 and 0, written to out.png")]);
        let png = png_reader::read(&fs::read(folder.file("out.png")).expect("the picture"));
        assert_eq!(png.pixels, [[rgb[0], rgb[1], rgb[2], 255]]);
    };
    painted("wall.wad", "WALL", "patch", [9, 0, 0]);
    painted("wall.wad", "DOOR", "base", [8, 0, 0]);
    painted("green.wad", "WALL", "base", [0, 7, 0]);
    let line = r#"{"format":1,"file":"wall.wad","file_bytes":null,"lump":"DOOR","number":0,"width":1,"height":1,"left":0,"top":0,"output":"out.png","from":"base"}"#;
    folder.run(&["picture", "--base=base.wad", "wall.wad", "door", "-o", "out.png", "--json"]).is(0, &[line]);
}

#[test]
fn a_refused_picture_says_whose_it_is() {
    let folder = Folder::with("base.wad", &lumps(&[(b"WALL\0\0\0\0", pixel(7))]))
        .and("patch.wad", &lumps(&[(b"WALL\0\0\0\0", vec![0; 7])]));
    let said = folder.run(&["picture", "--base", "base.wad", "patch.wad", "WALL", "-o", "out.png"]);
    assert!(said.out.starts_with("patch.wad:WALL: refused 50 (of the patch): the picture is too short"), "{said:?}");
    assert_eq!((said.status, folder.names().len()), (1, 2));
    let said = folder.run(&["picture", "--base", "patch.wad", "base.wad", "DOOR", "-o", "out.png"]);
    assert_eq!((said.status, said.err.as_str()), (2, "meshpigeon: base.wad: there is no lump DOOR, nor in the base\n"));
}

#[test]
fn a_picture_is_never_written_over_the_base() {
    let wad = lumps(&[(b"WALL\0\0\0\0", pixel(7))]);
    let folder = Folder::with("base.wad", &wad).and("patch.wad", &lumps(&[]));
    symlink("base.wad", folder.file("soft.png")).expect("the folder takes links");
    for output in ["base.wad", "soft.png"] {
        let said = folder.run(&["picture", "--base", "base.wad", "patch.wad", "WALL", "-o", output]);
        assert_eq!((said.status, said.out.as_str()), (3, ""), "{output}");
    }
    assert_eq!(fs::read(folder.file("base.wad")).expect("it is there"), wad);
}
