//! `extract`: a map or a lump, cut out of a file of any size.

use crate::support::{good, lumps, palette, Folder, GOOD};
use generator::{hexen_rooms, rooms, Content, EntryPlan, Plan, MAP_NAME};
use std::fs::{self, File};

/// A file that is longer than any that is judged, by bytes that no entry has.
fn long() -> Folder {
    let mut plan = Plan::new(rooms(), MAP_NAME);
    plan.directory_first = true;
    plan.entries.insert(0, EntryPlan::new(*b"PLAYPAL\0", Content::Bytes(palette())));
    plan.entries.push(EntryPlan::new(*b"DEMO1\0\0\0", Content::Bytes(vec![1; 99])));
    let folder = Folder::with("long.wad", &plan.wad());
    let file = File::options().write(true).open(folder.file("long.wad")).expect("it is there");
    file.set_len(1 << 33).expect("a sparse file");
    folder
}

#[test]
fn a_map_is_cut_out_of_a_file_that_is_too_long() {
    let folder = long();
    assert_eq!(folder.run(&["judge", "long.wad"]).status, 1);
    let length = good().len();
    let said = folder.run(&["extract", "long.wad", "map01", "-o", "out.wad"]);
    said.is(0, &[&format!("long.wad:MAP01: 11 entries, 1,{} bytes, written to out.wad", length - 1_000)]);
    folder.run(&["judge", "out.wad"]).is(0, &[&format!("out.wad:MAP01: {GOOD}")]);
    assert_eq!(fs::read(folder.file("out.wad")).expect("it is there"), good());
}

#[test]
fn a_lump_is_cut_out_too() {
    let folder = long();
    let said = folder.run(&["extract", "long.wad", "PLAYPAL", "-o", "out.wad"]);
    said.is(0, &["long.wad:PLAYPAL: 1 entry, 796 bytes, written to out.wad"]);
    folder.run(&["list", "out.wad"]).is(0, &["   0  PLAYPAL         12       768"]);
    let folder = folder.and("in.pam", b"P5 1 1 255\n.");
    assert_eq!(folder.run(&["encode", "in.pam", "-o", "out.lmp", "--palette", "out.wad"]).status, 0);
}

#[test]
fn the_answer_is_an_object_too() {
    let folder = Folder::with("a.wad", &good());
    let said = folder.run(&["extract", "a.wad", "MAP01", "-o", "out.wad", "--json"]);
    let start = r#"{"format":1,"file":"a.wad","file_bytes":null,"map":"MAP01","lump":null,"number":0,"count":11,"length":"#;
    assert!(said.status == 0 && said.out.starts_with(start), "{said:?}");
    let crc = |line: &str| line.split_once(r#""crc32":""#).map(|(_, rest)| rest[..8].to_string());
    assert_eq!(crc(&said.out), crc(&folder.run(&["judge", "--json", "out.wad"]).out));
    folder.run(&["extract", "a.wad", "MAP01", "-o", "out.wad", "-q"]).is(0, &[]);
}

#[test]
fn hexens_lumps_and_those_of_a_text_map_belong_to_it() {
    let mut plan = Plan::new(hexen_rooms(), MAP_NAME);
    plan.entries.push(EntryPlan::new(*b"SCRIPTS\0", Content::Bytes(vec![7])));
    plan.entries.push(EntryPlan::new(*b"OTHER\0\0\0", Content::Bytes(vec![7])));
    let text = [(b"MAP02\0\0\0", vec![]), (b"TEXTMAP\0", b"a = 1;".to_vec()), (b"ZNODES\0\0", vec![1]), (b"ENDMAP\0\0", vec![])];
    plan.entries.extend(text.map(|(name, bytes)| EntryPlan::new(*name, Content::Bytes(bytes))));
    let folder = Folder::with("a.wad", &plan.wad());
    let names = |map: &str| {
        assert_eq!(folder.run(&["extract", "a.wad", map, "-o", "out.wad", "-q"]).status, 0);
        let list = folder.run(&["list", "out.wad"]).out;
        list.lines().map(|line| line.split_whitespace().nth(1).expect("a name").to_string()).collect::<Vec<_>>()
    };
    assert_eq!(names("MAP01")[10..], ["BLOCKMAP", "BEHAVIOR", "SCRIPTS"]);
    assert_eq!(names("MAP02"), ["MAP02", "TEXTMAP", "ZNODES", "ENDMAP"]);
}

#[test]
fn the_last_map_of_a_name_is_cut_out_as_it_is() {
    let mut plan = Plan::new(rooms(), MAP_NAME);
    plan.entries.push(EntryPlan::empty(MAP_NAME));
    let folder = Folder::with("a.wad", &plan.wad());
    folder.run(&["extract", "a.wad", "MAP01", "-o", "out.wad"]).is(0, &["a.wad:MAP01: 1 entry, 28 bytes, written to out.wad"]);
    assert_eq!(
        folder.run(&["judge", "out.wad"]).out,
        folder.run(&["judge", "a.wad"]).out.replace("a.wad", "out.wad").replace("entry 12", "entry 1")
    );
}

#[test]
fn what_is_not_there_is_told_and_nothing_is_written() {
    let mut cut = good();
    cut.truncate(cut.len() - 1);
    let mut outside = Plan::new(rooms(), MAP_NAME);
    outside.entry_at(7).offset = Some(1_000_000);
    let folder = Folder::with("a.wad", &good())
        .and("none.wad", &lumps(&[]))
        .and("hello.wad", b"hello, world")
        .and("short.wad", b"PWAD")
        .and("cut.wad", &cut)
        .and("outside.wad", &outside.wad());
    for (file, name, words) in [
        ("a.wad", "MAP02", "there is no map MAP02; its maps are MAP01"),
        ("a.wad", "HELLO", "there is no lump HELLO; its maps are MAP01"),
        ("none.wad", "MAP01", "there is no map MAP01, and no map at all"),
        ("hello.wad", "MAP01", "this is no WAD file: a WAD file begins with IWAD or PWAD"),
        ("short.wad", "MAP01", "this is no WAD file: a WAD file begins with IWAD or PWAD"),
        ("cut.wad", "MAP01", "its directory should end at byte 1,546, and it has 1,545 bytes. Get the file again."),
        ("outside.wad", "MAP01", "NODES has offset 1,000,000 and size 84, and the file has 1,546 bytes. Get the file again."),
        ("no.wad", "MAP01", "No such file or directory"),
        (".", "MAP01", "Is a directory"),
    ] {
        let said = folder.run(&["extract", file, name, "-o", "out.wad"]);
        assert_eq!((said.status, said.out.as_str(), said.err), (2, "", format!("meshpigeon: {file}: {words}\n")));
    }
    assert!(!folder.file("out.wad").exists());
    let said = folder.run(&["extract", "a.wad", "MAP01", "-o", "./a.wad"]);
    assert_eq!(
        (said.status, said.err.as_str()),
        (3, "meshpigeon: the new file would be written over the file that it comes from\n")
    );
}

#[test]
fn what_would_be_too_long_is_not_cut_out() {
    let mut plan = Plan::new(rooms(), MAP_NAME);
    plan.entry_at(1).size = Some(16_777_216);
    let folder = Folder::with("a.wad", &plan.wad());
    let file = File::options().write(true).open(folder.file("a.wad")).expect("it is there");
    file.set_len(1 << 25).expect("a sparse file");
    let said = folder.run(&["extract", "a.wad", "MAP01", "-o", "out.wad"]);
    assert!(
        said.status == 2
            && said.err.contains("what is cut out would have 16,77")
            && said.err.ends_with("at most 16,777,216 are allowed\n"),
        "{said:?}"
    );
    plan.count = Some(i32::MAX);
    let folder = folder.and("b.wad", &plan.wad());
    File::options().write(true).open(folder.file("b.wad")).and_then(|file| file.set_len(1 << 36)).expect("a sparse file");
    let said = folder.run(&["extract", "b.wad", "MAP01", "-o", "out.wad"]);
    assert_eq!(said.err, "meshpigeon: b.wad: its header says 2,147,483,647 lumps, and at most 1,048,576 are read\n");
}
