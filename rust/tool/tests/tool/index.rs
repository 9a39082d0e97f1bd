//! `index`, and `list --name --index`.

use crate::json_reader::{object, Value};
use crate::support::{good, lumps, said, Folder, Said};
use std::fs;
use std::io::Write;
use std::process::Stdio;

/// Six entries: three of one name, two of them with rubbish after its zero.
fn skies() -> Vec<u8> {
    lumps(&[
        (b"SKY1\0\0\0\0", vec![1]),
        (b"ABCDEFGH", vec![]),
        (b"SKY1\0old", vec![2, 2]),
        (b"SKY\0\0\0\0\0", vec![3]),
        (b"SKY1\0\0\0Z", vec![4; 4]),
        (b"MAP01\0\0\0", vec![]),
    ])
}

/// A folder with the file and its index.
fn folder() -> Folder {
    let folder = Folder::with("a.wad", &skies());
    folder.run(&["index", "a.wad", "-o", "a.wix"]).is(0, &["a.wad: 6 entries indexed, 71 bytes, written to a.wix"]);
    folder
}

fn index_of(folder: &Folder) -> Vec<u8> {
    fs::read(folder.file("a.wix")).expect("the index is there")
}

/// The folder with an index that is changed so.
fn changed(change: impl FnOnce(&mut Vec<u8>)) -> Folder {
    let folder = folder();
    let mut index = index_of(&folder);
    change(&mut index);
    folder.and("a.wix", &index)
}

const FIND: [&str; 5] = ["list", "a.wad", "--index", "a.wix", "--name"];

fn find(folder: &Folder, name: &str) -> Said {
    folder.run(&[&FIND[..], &[name]].concat())
}

#[test]
fn the_index_has_every_entry_by_name_and_number() {
    let parts = [
        &b"WIX\x01\0\x06\0\x74\0\0\0"[..],
        b"ABCDEFGH\x01\0",
        b"MAP01\0\0\0\x05\0",
        b"SKY\0\0\0\0\0\x03\0",
        b"SKY1\0\0\0\0\0\0",
        b"SKY1\0\0\0\0\x02\0",
        b"SKY1\0\0\0\0\x04\0",
    ];
    assert_eq!((skies().len(), index_of(&folder())), (0x74, parts.concat()));
}

#[test]
fn what_was_written_is_right() {
    folder().run(&["index", "a.wad", "--check", "a.wix"]).is(0, &["a.wix: the index of a.wad"]);
    for wad in [good(), lumps(&[]), lumps(&[(b"A\0\0\0\0\0\0\0", vec![])]), generator::directory_of(4_096)] {
        let folder = Folder::with("a.wad", &wad);
        assert_eq!(folder.run(&["index", "a.wad", "-o", "a.wix", "--quiet"]).status, 0);
        folder.run(&["index", "a.wad", "--check", "a.wix", "--quiet"]).is(0, &[]);
        assert_eq!(index_of(&folder), meshpigeon::index_build(&wad).expect("an index"));
    }
    Folder::with("a.wad", &lumps(&[(b"A\0\0\0\0\0\0\0", vec![])]))
        .run(&["index", "a.wad", "-o", "a.wix"])
        .is(0, &["a.wad: 1 entry indexed, 21 bytes, written to a.wix"]);
}

#[test]
fn the_answers_are_objects_too() {
    let folder = folder();
    let line = r#"{"format":1,"file":"a.wad","file_bytes":null,"number":0,"count":6,"length":71,"output":"b.wix"}"#;
    folder.run(&["index", "a.wad", "-o", "b.wix", "--json"]).is(0, &[line]);
    let line = r#"{"format":1,"file":"a.wad","file_bytes":null,"number":0,"count":6,"index":"b.wix"}"#;
    folder.run(&["index", "a.wad", "--check", "b.wix", "--json"]).is(0, &[line]);
    let line = r#"{"format":1,"file":"a.wad","file_bytes":null,"entry":4,"name":"SKY1","offset":16,"size":4,"compared":2,"index":"a.wix"}"#;
    folder.run(&[&FIND[..], &["SKY1", "--json"]].concat()).is(0, &[line]);
}

#[test]
fn a_name_leads_to_its_last_entry() {
    let folder = folder();
    find(&folder, "SKY1").is(0, &["   4  SKY1            16         4  2 names compared"]);
    find(&folder, "sky").is(0, &["   3  SKY             15         1  3 names compared"]);
    find(&folder, "ABCDEFGH").is(0, &["   1  ABCDEFGH         0         0  3 names compared"]);
    let said = folder.run(&["list", "a.wad", "--name=MAP01", "--index=a.wix"]);
    said.is(0, &["   5  MAP01            0         0  3 names compared"]);
    let one = Folder::with("a.wad", &lumps(&[(b"SKY\0\0\0\0\0", vec![])]));
    assert_eq!(one.run(&["index", "a.wad", "-o", "a.wix"]).status, 0);
    find(&one, "SKY").is(0, &["   0  SKY              0         0  1 name compared"]);
}

/// Every row of the plain list that is the last of its name is found, and is the same row.
#[test]
fn rows_are_those_of_the_list() {
    let folder = Folder::with("a.wad", &generator::littered_directory_of(300));
    assert_eq!(folder.run(&["index", "a.wad", "-o", "a.wix"]).status, 0);
    let listed = folder.run(&["list", "a.wad"]);
    let rows: Vec<&str> = listed.out.lines().collect();
    let name = |row: &str| row.split_whitespace().nth(1).expect("a name").to_string();
    for row in rows.iter().step_by(37) {
        let last = rows.iter().rfind(|it| name(it) == name(row)).expect("the row itself");
        let said = find(&folder, &name(row));
        assert!(said.status == 0 && said.out.starts_with(last), "{said:?}");
    }
}

#[test]
fn a_name_that_is_not_there_is_refused() {
    let folder = folder();
    for (name, compared) in
        [("SKY0", "3 names"), ("AAA", "3 names"), ("ZZZ", "2 names"), ("ABCDEFGHI", "0 names"), ("", "3 names")]
    {
        let line = format!("a.wad:{name}: refused 11: the index leads to no entry of that name; {compared} compared");
        find(&folder, name).is(1, &[&line]);
    }
    let said = folder.run(&[&FIND[..], &["sky0", "--json"]].concat());
    let members = object(said.out.trim_end());
    let value = |key: &str| members.iter().find(|it| it.0 == key).map(|it| it.1.clone()).expect("the key");
    assert_eq!((value("number"), value("lump"), said.status), (Value::Number(11), Value::Text("SKY0".into()), 1));
    assert_eq!(value("found"), Value::Object(vec![("compared".into(), Value::Number(3))]));
}

/// What is said of a changed index: by the check, and by a lookup, where it is the same.
fn refused(change: impl FnOnce(&mut Vec<u8>), number: u32, words: &str, found: &[(&str, i64)]) {
    let folder = changed(change);
    let said = folder.run(&["index", "a.wad", "--check", "a.wix"]);
    assert!(said.out.starts_with(&format!("a.wix: refused {number}: the index ")), "{said:?}");
    assert!(said.out.trim_end().ends_with(words) && said.status == 1, "{said:?}");
    if number != 84 {
        assert_eq!((find(&folder, "SKY1").out, find(&folder, "").status), (said.out, 1));
    }
    let said = folder.run(&["index", "a.wad", "--check", "a.wix", "--json", "--quiet"]);
    let members = object(said.out.trim_end()).into_iter().find(|it| it.0 == "found").expect("the key").1;
    let wanted = found.iter().map(|(key, number)| (key.to_string(), Value::Number(*number))).collect::<Vec<_>>();
    assert_eq!(members, if found.is_empty() { Value::Null } else { Value::Object(wanted) });
}

#[test]
fn a_wrong_index_is_refused_with_what_was_found() {
    refused(|index| index.truncate(70), 82, "; for this file that is 71 bytes, and it has 70", &[("length", 70), ("needed", 71)]);
    refused(|index| index.clear(), 82, "; for this file that is 71 bytes, and it has 0", &[("length", 0), ("needed", 71)]);
    refused(|index| index[2] = b'Y', 82, "and is at least 11 bytes long and 10 for each entry", &[]);
    refused(|index| index[5] = 5, 82, "; it says 5, and the file has 6", &[("count", 5), ("needed", 6)]);
    refused(|index| index[8] = 4, 82, "; it says 1,140 bytes, and the file has 116", &[("wad_length", 1_140), ("needed", 116)]);
    refused(|index| index[3] = 2, 83, "; this one is of version 2", &[("version", 2)]);
    refused(|index| index[4] = 1, 83, "; this one is of version 257", &[("version", 257)]);
    refused(|index| index[11] = b'B', 84, "; its entry 0 is the first that differs", &[("entry", 0)]);
    refused(|index| index[69] = 2, 84, "; its entry 5 is the first that differs", &[("entry", 5)]);
    refused(|index| index.push(0), 84, "; it has 1 byte too many", &[("more", 1)]);
    refused(|index| index.extend([0; 2_000]), 84, "; it has 2,000 bytes too many", &[("more", 2_000)]);
}

/// A lookup does not look for 84, and believes no number that leads to another name.
#[test]
fn a_wrong_index_never_leads_to_another_name() {
    find(&changed(|index| index[69] = 2), "SKY1").is(0, &["   2  SKY1            13         2  2 names compared"]);
    for number in [3, 6, 255] {
        let line = "a.wad:SKY1: refused 11: the index leads to no entry of that name; 2 names compared";
        find(&changed(|index| index[69] = number), "SKY1").is(1, &[line]);
    }
    find(&changed(|index| index.push(7)), "SKY1").is(0, &["   4  SKY1            16         4  2 names compared"]);
}

/// A file that grew has another index.
#[test]
fn an_index_is_of_one_file() {
    let folder = folder().and("b.wad", &[skies(), vec![0]].concat()).and("c.wad", &good());
    let said = folder.run(&["index", "b.wad", "--check", "a.wix"]);
    assert!(said.out.trim_end().ends_with("; it says 116 bytes, and the file has 117") && said.status == 1, "{said:?}");
    let said = folder.run(&["index", "c.wad", "--check", "a.wix"]);
    assert!(said.out.trim_end().ends_with("; for this file that is 121 bytes, and it has 71") && said.status == 1, "{said:?}");
}

#[test]
fn a_bad_file_is_refused_before_its_index() {
    let mut wad = skies();
    wad[0] = b'X';
    let folder = Folder::with("a.wad", &wad);
    for arguments in [
        &["index", "a.wad", "-o", "b.wix"][..],
        &["index", "a.wad", "--check", "no.wix"],
        &["list", "a.wad", "--name=A", "--index=no.wix"],
    ] {
        let said = folder.run(arguments);
        assert!(said.out.starts_with("a.wad: refused 2: ") && said.err.is_empty(), "{said:?}");
        assert_eq!((said.status, folder.names()), (1, vec!["a.wad".to_string()]));
    }
}

#[test]
fn what_cannot_be_read_or_written_is_told() {
    let folder = folder();
    for (arguments, file) in [
        (&["index", "no.wad", "-o", "b.wix"][..], "no.wad"),
        (&["index", "a.wad", "-o", "no/b.wix"], "no/b.wix"),
        (&["index", "a.wad", "--check", "no.wix"], "no.wix"),
        (&["list", "a.wad", "--name=SKY1", "--index=no.wix"], "no.wix"),
    ] {
        let said = folder.run(arguments);
        assert!(said.err.starts_with(&format!("meshpigeon: {file}: ")), "{said:?}");
        assert_eq!((said.status, said.out.as_str()), (2, ""));
    }
}

#[test]
fn an_index_is_never_written_over_its_file() {
    let folder = Folder::with("a.wad", &skies());
    fs::hard_link(folder.file("a.wad"), folder.file("hard.wad")).expect("the folder takes links");
    for output in ["./a.wad", "hard.wad"] {
        let said = folder.run(&["index", "a.wad", "-o", output]);
        let words = "meshpigeon: the index would be written over the file that it comes from\n";
        assert_eq!((said.status, said.out.as_str(), said.err.as_str()), (3, "", words));
    }
    assert_eq!(fs::read(folder.file("a.wad")).expect("the file"), skies());
}

/// Runs the tool with this on standard input.
fn piped(folder: &Folder, arguments: &[&str], input: &[u8]) -> std::process::Output {
    let mut command = folder.command(arguments);
    let mut child = command.stdin(Stdio::piped()).stdout(Stdio::piped()).stderr(Stdio::piped()).spawn().expect("the tool runs");
    child.stdin.take().expect("a pipe").write_all(input).expect("the input is read");
    child.wait_with_output().expect("the tool ends")
}

#[test]
fn standard_input_and_output_serve_too() {
    let folder = folder();
    let output = piped(&folder, &["index", "-", "-o", "-"], &skies());
    assert_eq!((output.stdout, output.status.code()), (index_of(&folder), Some(0)));
    said(piped(&folder, &["index", "a.wad", "--check", "-"], &index_of(&folder))).is(0, &["-: the index of a.wad"]);
    let line = "   4  SKY1            16         4  2 names compared";
    said(piped(&folder, &["list", "-", "--name", "SKY1", "--index", "a.wix"], &skies())).is(0, &[line]);
    said(piped(&folder, &["list", "a.wad", "--name", "SKY1", "--index", "-"], &index_of(&folder))).is(0, &[line]);
}

#[test]
fn the_largest_directory_needs_no_more_than_13_names() {
    let folder = Folder::with("a.wad", &generator::directory_of(4_096));
    folder.run(&["index", "a.wad", "-o", "a.wix"]).is(0, &["a.wad: 4,096 entries indexed, 40,971 bytes, written to a.wix"]);
    for (name, compared) in [("BLOCKMAP", 13), ("LUMP0011", 12), ("LUMP4095", 12), ("THINGS", 12), ("VERTEXES", 12)] {
        let said = find(&folder, name);
        assert!(said.out.trim_end().ends_with(&format!("  {compared} names compared")) && said.status == 0, "{said:?}");
    }
}
