//! Folders and lists of files as `judge` takes them.

use crate::support::{changed, good, said, Folder, Said, GOOD};
use std::ffi::OsStr;
use std::fs;
use std::io::Write;
use std::os::unix::ffi::OsStrExt;
use std::os::unix::fs::symlink;
use std::process::Stdio;

/// A folder `maps` with good files, a bad one and others that are no WAD files.
fn maps() -> Folder {
    let folder = Folder::new();
    for below in ["maps", "maps/b", "maps/b/c", "maps/empty"] {
        fs::create_dir(folder.file(below)).expect("a folder");
    }
    for name in ["maps/z.wad", "maps/a.WAD", "maps/b/c/deep.Wad", "maps/b/x.wad.txt", "maps/wad"] {
        fs::write(folder.file(name), good()).expect("a file");
    }
    fs::write(folder.file("maps/b/bad.wad"), changed(|map| map.nodes[1].right = 2)).expect("a file");
    folder
}

/// The names before the map's on each line but the last.
fn files(said: &Said) -> Vec<&str> {
    said.out.lines().filter_map(|line| line.split_once(":MAP01").map(|(file, _)| file)).collect()
}

#[test]
fn every_wad_file_below_a_folder_is_judged() {
    let said = maps().run(&["judge", "maps"]);
    assert_eq!(files(&said), ["maps/a.WAD", "maps/b/bad.wad", "maps/b/c/deep.Wad", "maps/z.wad"]);
    assert!(said.out.ends_with("\n4 files: 3 maps accepted, 1 map refused\n"), "{said:?}");
    assert_eq!((said.status, said.err.as_str()), (1, ""));
}

#[test]
fn folders_and_files_are_judged_in_turn() {
    let folder = maps().and("one.wad", &good());
    let said = folder.run(&["judge", "one.wad", "maps/b/c/", "maps/a.WAD"]);
    assert_eq!(files(&said), ["one.wad", "maps/b/c/deep.Wad", "maps/a.WAD"]);
    assert_eq!(said.status, 0);
}

#[test]
fn an_empty_folder_has_nothing_to_judge() {
    let folder = maps();
    folder.run(&["judge", "maps/empty"]).is(0, &["maps/empty: no .wad file in it"]);
    folder.run(&["judge", "--require-map", "-q", "maps/empty"]).is(1, &["maps/empty: no .wad file in it"]);
    let said = folder.run(&["judge", "--json", "maps/empty"]);
    assert!(
        said.out.contains(r#""file":"maps/empty","file_bytes":null,"length":null"#) && said.out.contains(r#""verdict":"no-map""#)
    );
}

#[test]
fn links_to_folders_are_not_followed_and_broken_ones_are_told() {
    let folder = maps();
    symlink("..", folder.file("maps/b/up.wad")).expect("a link");
    symlink("../../maps", folder.file("maps/b/circle")).expect("a link");
    symlink("c/deep.Wad", folder.file("maps/b/link.wad")).expect("a link");
    symlink("nothing", folder.file("maps/b/broken.wad")).expect("a link");
    let said = folder.run(&["judge", "maps/b"]);
    assert_eq!(files(&said), ["maps/b/bad.wad", "maps/b/c/deep.Wad", "maps/b/link.wad"]);
    assert_eq!((said.status, said.err.as_str()), (2, "meshpigeon: maps/b/broken.wad: No such file or directory\n"));
}

#[test]
fn a_list_has_names_that_zeros_end() {
    let folder = maps().and("list", b"maps/z.wad\0maps/b\0").and("open", b"maps/z.wad\0maps/a.WAD").and("empty", b"");
    let said = folder.run(&["judge", "--files0-from", "list"]);
    assert_eq!(files(&said), ["maps/z.wad", "maps/b/bad.wad", "maps/b/c/deep.Wad"]);
    assert_eq!(files(&folder.run(&["judge", "--files0-from=open"])), ["maps/z.wad", "maps/a.WAD"]);
    folder.run(&["judge", "--files0-from", "empty"]).is(0, &["empty: no file in it"]);
    folder.run(&["judge", "--files0-from", "empty", "--require-map"]).is(1, &["empty: no file in it"]);
    let said = folder.run(&["judge", "--files0-from", "none"]);
    assert_eq!((said.status, said.err.as_str()), (2, "meshpigeon: none: No such file or directory\n"));
}

#[test]
fn a_list_may_come_from_a_pipe_and_hold_any_name() {
    let strange: [&[u8]; 3] = [b"a\nb.wad", b"\xff.wad", b"-"];
    let folder = strange.iter().fold(Folder::new(), |folder, name| folder.and(OsStr::from_bytes(name), &good()));
    let mut child = folder
        .command(&["judge", "--files0-from", "-"])
        .stdin(Stdio::piped())
        .stdout(Stdio::piped())
        .stderr(Stdio::piped())
        .spawn()
        .expect("the tool runs");
    child.stdin.take().expect("a pipe").write_all(&strange.join(&0)).expect("the tool reads");
    let said = said(child.wait_with_output().expect("the tool ends"));
    let lines = [r"a\nb.wad", r"\xff.wad", "./-"].map(|name| format!("{name}:MAP01: {GOOD}"));
    said.is(0, &[&lines[0], &lines[1], &lines[2], "3 files: 3 maps accepted"]);
}

#[test]
fn a_name_of_no_bytes_is_no_file() {
    let folder = maps().and("list", b"maps/z.wad\0\0maps/a.WAD\0");
    let said = folder.run(&["judge", "--files0-from", "list"]);
    assert_eq!((files(&said), said.status), (vec!["maps/z.wad", "maps/a.WAD"], 2));
    assert_eq!(said.err, "meshpigeon: a file without a name: No such file or directory\n");
}
