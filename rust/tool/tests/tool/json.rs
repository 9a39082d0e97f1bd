//! `--json`.

use crate::json_reader::{object, Value};
use crate::support::{changed, good, lumps, Folder, Said};
use generator::{hexen_rooms, rooms, PictureSpec, Plan, MAP_NAME};
use std::ffi::OsStr;

/// All keys of a verdict in their order.
const KEYS: [&str; 22] = [
    "format", "file", "file_bytes", "length", "crc32", "base_length", "base_crc32", "map", "verdict", "number", "place", "lump",
    "record", "found", "reason", "depth", "marker", "game", "from", "text", "further", "more",
];

/// The value of a key.
fn value(line: &str, key: &str) -> Value {
    object(line).into_iter().find(|(it, _)| it == key).expect("the key").1
}

/// The values of some keys of a verdict without a base: file, map, number, place, lump, record, found, depth, marker and game.
fn verdict(line: &str) -> Vec<Value> {
    let keys: Vec<String> = object(line).into_iter().map(|(key, _)| key).collect();
    assert_eq!(keys, KEYS);
    assert_eq!((value(line, "format"), value(line, "from"), value(line, "base_crc32")), (Number(1), Null, Null));
    assert!(matches!(value(line, "text"), Value::Text(text) if !text.is_empty()));
    ["file", "map", "number", "place", "lump", "record", "found", "depth", "marker", "game"].map(|key| value(line, key)).to_vec()
}

fn verdicts(said: &Said) -> Vec<Vec<Value>> {
    assert_eq!(said.err, "");
    said.out.lines().map(verdict).collect()
}

fn text(it: &str) -> Value {
    Value::Text(it.to_string())
}

use Value::{Null, Number};

#[test]
fn an_accepted_map_has_depth_and_marker() {
    let mut plan = Plan::new(rooms(), MAP_NAME);
    plan.entries.insert(0, generator::EntryPlan::empty(*b"OTHER\0\0\0"));
    let said = Folder::with("a.wad", &plan.wad()).run(&["judge", "a.wad", "--json"]);
    let expected = vec![text("a.wad"), text("MAP01"), Number(0), Null, Null, Null, Null, Number(2), Number(1), text("Doom")];
    assert_eq!((verdicts(&said), said.status), (vec![expected], 0));
}

#[test]
fn a_refusal_has_place_lump_and_record_where_they_mean_something() {
    let folder = Folder::with("loop.wad", &changed(|map| map.nodes[1].right = 2))
        .and("shared.wad", &changed(|map| map.nodes[2].right = 0))
        .and("seg.wad", &changed(|map| map.segs[0].linedef = 99))
        .and("name.wad", &lumps(&[(b"GOOD\0\0\0\0", vec![]), (b"bad\0\0\0\0\0", vec![])]))
        .and("none.wad", &lumps(&[]));
    let said = folder.run(&["judge", "--json", "loop.wad", "shared.wad", "seg.wad", "none.wad"]);
    let expected = vec![
        vec![text("loop.wad"), text("MAP01"), Number(31), Number(7), text("NODES"), Null, Null, Null, Null, text("Doom")],
        vec![text("shared.wad"), text("MAP01"), Number(32), Number(7), text("NODES"), Null, Null, Null, Null, text("Doom")],
        vec![text("seg.wad"), text("MAP01"), Number(25), Number(5), text("SEGS"), Number(0), Null, Null, Null, text("Doom")],
        vec![text("none.wad"), Null, Null, Null, Null, Null, Null, Null, Null, Null],
    ];
    assert_eq!((verdicts(&said), said.status), (expected, 1));
    let said = folder.run(&["judge", "--json", "name.wad"]);
    let values = verdicts(&said).remove(0);
    assert_eq!(values[..6], [text("name.wad"), Null, Number(6), Null, Null, Number(1)]);
}

#[test]
fn the_game_is_said_where_the_ten_lumps_are_there() {
    let spoilt = |spoil: fn(&mut Plan)| {
        let mut plan = Plan::new(hexen_rooms(), MAP_NAME);
        spoil(&mut plan);
        plan.wad()
    };
    let folder = Folder::with("good.wad", &spoilt(|_| ()))
        .and("size.wad", &spoilt(|plan| plan.entry_at(1).padding = vec![0; 10]))
        .and("doom.wad", &spoilt(|plan| plan.entries.truncate(11)))
        .and("name.wad", &spoilt(|plan| plan.entry_at(3).name = *b"OTHER\0\0\0"));
    let said = folder.run(&["judge", "--json", "good.wad", "size.wad", "doom.wad", "name.wad"]);
    let last = |values: Vec<Value>| values.into_iter().last();
    let games: Vec<Option<Value>> = verdicts(&said).into_iter().map(last).collect();
    assert_eq!(games, [Some(text("Hexen")), Some(text("Hexen")), Some(text("Doom")), Some(Null)], "{said:?}");
    assert!(said.out.lines().next().is_some_and(|line| line.contains(r#""text":"accepted (Hexen), depth 2"#)), "{said:?}");
}

#[test]
fn quiet_leaves_the_refusals() {
    let folder = Folder::with("a.wad", &good()).and("b.wad", &changed(|map| map.segs[0].linedef = 99));
    let said = folder.run(&["judge", "--json", "--quiet", "a.wad", "b.wad"]);
    let expected =
        vec![text("b.wad"), text("MAP01"), Number(25), Number(5), text("SEGS"), Number(0), Null, Null, Null, text("Doom")];
    assert_eq!(verdicts(&said), [expected]);
}

#[test]
fn a_refused_picture_is_the_lump() {
    let mut picture = PictureSpec::blank(3, 3);
    picture.offsets[2] = 0;
    let folder = Folder::with("a.wad", &lumps(&[(b"BAD\0\0\0\0\0", picture.encode())]));
    let said = folder.run(&["picture", "a.wad", "BAD", "-o", "out.png", "--json"]);
    assert_eq!(verdicts(&said), [vec![text("a.wad"), Null, Number(53), Null, text("BAD"), Number(2), Null, Null, Null, Null]]);
}

#[test]
fn other_answers_are_objects_too() {
    let picture = PictureSpec::blank(3, 2).encode();
    let folder = Folder::with("a.wad", &good()).and("b.wad", &lumps(&[(b"P\0\0\0\0\0\0\0", picture)]));
    let lines = [
        (
            vec!["list", "b.wad", "--json"],
            r#"{"format":1,"file":"b.wad","file_bytes":null,"entry":0,"name":"P","offset":12,"size":21}"#,
        ),
        (
            vec!["descend", "a.wad", "MAP01", "300", "-1", "--json"],
            r#"{"format":1,"file":"a.wad","file_bytes":null,"map":"MAP01","number":0,"x":300,"y":-1,"subsector":1,"count":2}"#,
        ),
        (
            vec!["picture", "b.wad", "p", "-o", "o.png", "--json"],
            r#"{"format":1,"file":"b.wad","file_bytes":null,"lump":"P","number":0,"width":3,"height":2,"left":0,"top":0,"output":"o.png","from":null}"#,
        ),
    ];
    for (arguments, line) in lines {
        object(line);
        folder.run(&arguments).is(0, &[line]);
    }
}

#[test]
fn strange_file_names_are_escaped() {
    let name = "a\"b\\c\n\u{1}é.wad";
    let said = Folder::with(name, &good()).run(&["judge", "--json", name]);
    assert_eq!(verdicts(&said)[0][0], text(name));
    assert_eq!(said.out.lines().count(), 1);
}

#[test]
#[cfg(unix)]
fn file_names_that_are_not_utf_8_are_shown_as_far_as_can_be() {
    use std::os::unix::ffi::OsStrExt;
    let name = OsStr::from_bytes(b"a\xFFb.wad");
    let folder = Folder::with(name, &good());
    let said = folder.run(&[OsStr::new("judge"), OsStr::new("--json"), name]);
    assert_eq!(verdicts(&said)[0][0], text("a\u{FFFD}b.wad"));
    assert_eq!(value(said.out.trim_end(), "file_bytes"), text(r"a\xffb.wad"));
    let said = folder.run(&[OsStr::new("judge"), name]);
    assert!(said.out.starts_with(r"a\xffb.wad:MAP01: accepted"), "{said:?}");
}

/// The verdict, the length and the checksum of each object.
fn kinds(said: &Said) -> Vec<[Value; 3]> {
    said.out.lines().map(|line| ["verdict", "length", "crc32"].map(|key| value(line, key))).collect()
}

#[test]
fn each_verdict_has_its_word_and_the_bytes_that_were_judged() {
    let textmap = lumps(&[(b"MAP01\0\0\0", vec![]), (b"TEXTMAP\0", vec![])]);
    let files = [("good.wad", good()), ("bad.wad", changed(|map| map.reject.clear())), ("text.wad", textmap)];
    let files = files.into_iter().chain([("none.wad", lumps(&[])), ("no.wad", b"hello, world".to_vec())]);
    let files: Vec<(&str, Vec<u8>)> = files.collect();
    let folder = files.iter().fold(Folder::new(), |folder, (name, bytes)| folder.and(name, bytes));
    let names = files.iter().map(|(name, _)| *name).chain(["missing.wad"]);
    let said = folder.run(&[vec!["judge", "--json"], names.collect()].concat());
    let digest = |bytes: &[u8]| [Number(bytes.len() as i64), text(&format!("{:08x}", crc32(bytes)))];
    let words = ["accepted", "refused", "text", "no-map", "refused"];
    let mut expected: Vec<[Value; 3]> = words
        .iter()
        .zip(&files)
        .map(|(word, (_, bytes))| [vec![text(word)], digest(bytes).to_vec()].concat().try_into().expect("three"))
        .collect();
    expected.push([text("unreadable"), Null, Null]);
    assert_eq!((kinds(&said), said.status), (expected, 2));
    let line = said.out.lines().last().expect("a line");
    assert_eq!((value(line, "file"), value(line, "text")), (text("missing.wad"), text("No such file or directory")));
    assert_eq!(said.err, "meshpigeon: missing.wad: No such file or directory\n");
}

/// CRC-32 bit by bit, as document authors define it.
fn crc32(bytes: &[u8]) -> u32 {
    let step = |crc: u32| if crc & 1 == 1 { crc >> 1 ^ 0xEDB8_8320 } else { crc >> 1 };
    !bytes.iter().fold(u32::MAX, |crc, &byte| (0..8).fold(crc ^ u32::from(byte), |crc, _| step(crc)))
}

#[test]
fn a_damaged_transfer_has_another_checksum() {
    let (whole, mut holed) = (good(), good());
    holed[20] ^= 1;
    let folder = Folder::with("a.wad", &whole).and("b.wad", &holed);
    let said = folder.run(&["judge", "--json", "a.wad", "b.wad"]);
    let [one, other] = kinds(&said).try_into().expect("two objects");
    assert_eq!((&one[0], &other[0], &one[1]), (&text("accepted"), &text("accepted"), &other[1]));
    assert_ne!(one[2], other[2]);
}

#[test]
fn a_pair_has_the_checksums_of_both_files() {
    let empty = lumps(&[]);
    let folder = Folder::with("base.wad", &good()).and("patch.wad", &empty);
    let said = folder.run(&["judge", "--json", "--base", "base.wad", "patch.wad"]);
    let line = said.out.trim_end();
    let check = |bytes: &[u8]| text(&format!("{:08x}", crc32(bytes)));
    assert_eq!((value(line, "crc32"), value(line, "base_crc32")), (check(&empty), check(&good())));
    assert_eq!((value(line, "length"), value(line, "base_length")), (Number(12), Number(good().len() as i64)));
    let said = folder.and("short.wad", b"PWAD").run(&["judge", "--json", "--base", "short.wad", "patch.wad"]);
    let line = said.out.trim_end();
    assert_eq!((value(line, "from"), value(line, "base_length")), (text("base"), Number(4)));
}

#[test]
fn what_is_too_long_has_no_checksum() {
    let folder = Folder::new();
    std::fs::File::create(folder.file("a.wad")).and_then(|file| file.set_len(1 << 33)).expect("a sparse file");
    let said = folder.run(&["judge", "--json", "a.wad"]);
    assert_eq!(kinds(&said), [[text("refused"), Number(1 << 33), Null]]);
}
