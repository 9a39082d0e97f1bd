//! What was found, where a refusal is about a number or a name: in words, with what to do, and in JSON.

use crate::json_reader::{object, Value};
use crate::support::{changed, good, lumps, said, Folder, Said};
use generator::{rooms, Content, EntryPlan, PictureSpec, Plan, MAP_NAME};
use std::fs::File;
use std::process::Stdio;

/// The largest file there may be.
const MOST_BYTES: u64 = 16_777_216;

/// The one object that was printed, and in it what was found.
fn found(said: &Said) -> Vec<(String, i64)> {
    let member = object(said.out.trim_end()).into_iter().find(|(key, _)| key == "found").expect("the key");
    let Value::Object(members) = member.1 else { panic!("nothing was found: {said:?}") };
    members.into_iter().map(|(key, value)| (key, number(value))).collect()
}

fn number(value: Value) -> i64 {
    match value {
        Value::Number(number) => number,
        other => panic!("{other:?} is no number"),
    }
}

fn named(members: &[(&str, i64)]) -> Vec<(String, i64)> {
    members.iter().map(|(key, number)| (key.to_string(), *number)).collect()
}

/// Asserts what `judge` says of the folder's a.wad after the refusal's number and place, in text and in JSON, and what it found.
fn judged(folder: &Folder, words: &str, members: &[(&str, i64)]) {
    let said = folder.run(&["judge", "a.wad"]);
    let sentence = said.out.trim_end().split_once(": refused ").and_then(|(_, rest)| rest.split_once(": "));
    assert_eq!((sentence.map(|it| it.1), said.status), (Some(words), 1), "{said:?}");
    let said = folder.run(&["judge", "a.wad", "--json"]);
    assert_eq!((found(&said), said.status), (named(members), 1));
    let text = object(said.out.trim_end()).into_iter().find(|(key, _)| key == "text");
    assert_eq!(text, Some(("text".to_string(), Value::Text(words.to_string()))));
}

/// What is to be done where only the node builder's lumps are wrong.
const BUILD: &str = "Nothing is wrong in your drawing: the nodes are damaged. Build the nodes again.";

/// A file whose map has this in place of a lump.
fn with_lump(place: usize, bytes: Vec<u8>) -> Folder {
    let mut plan = Plan::new(rooms(), MAP_NAME);
    plan.entry_at(place).content = Content::Bytes(bytes);
    Folder::with("a.wad", &plan.wad())
}

#[test]
fn a_short_file_has_its_length() {
    let words = "the file is empty: a WAD file has at least 12 bytes. Send it again.";
    judged(&Folder::with("a.wad", b""), words, &[("length", 0)]);
    let words = "the file has 11 bytes, and a WAD file has at least 12. Send it again.";
    judged(&Folder::with("a.wad", &[0; 11]), words, &[("length", 11)]);
}

#[test]
fn a_long_file_has_its_length_and_is_to_be_cut() {
    let folder = Folder::new();
    let cut = "Cut what you need out of it: meshpigeon extract FILE MAP -o OUT.wad";
    for (length, said) in [(MOST_BYTES + 1, "16,777,217"), (1 << 33, "8,589,934,592")] {
        File::create(folder.file("a.wad")).and_then(|file| file.set_len(length)).expect("a sparse file");
        let words = format!("the file has {said} bytes, and at most 16,777,216 are allowed. {cut}");
        judged(&folder, &words, &[("length", length as i64)]);
    }
}

#[test]
fn a_base_or_a_palette_that_is_too_long_is_to_be_cut() {
    let folder = Folder::with("a.wad", &good()).and("in.pam", b"");
    File::create(folder.file("big.wad")).and_then(|file| file.set_len(MOST_BYTES + 1)).expect("a sparse file");
    let cut = |what: &str| {
        format!(
            "the file has 16,777,217 bytes, and at most 16,777,216 are allowed. Cut what you need out of it: \
             meshpigeon extract FILE {what} -o OUT.wad"
        )
    };
    let said = folder.run(&["judge", "--base", "big.wad", "a.wad"]);
    said.is(1, &[&format!("a.wad: refused 1 (of the base): {}", cut("MAP"))]);
    let said = folder.run(&["encode", "in.pam", "-o", "out.lmp", "--palette", "big.wad"]);
    said.is(1, &[&format!("big.wad: refused 1: {}", cut("PLAYPAL"))]);
    let said = folder.run(&["picture", "big.wad", "P", "-o", "out.png"]);
    said.is(1, &[&format!("big.wad: refused 1: {}", cut("LUMP"))]);
}

#[test]
fn a_long_input_is_not_read_to_its_end() {
    let folder = Folder::new();
    let zeros = || Stdio::from(File::open("/dev/zero").expect("the device of zeros"));
    let fed = |arguments: &[&str]| said(folder.command(arguments).stdin(zeros()).output().expect("the tool runs"));
    fed(&["judge", "-"]).is(1, &["-: refused 1: the input has more than 16,777,216 bytes, and no more are allowed"]);
    assert_eq!(found(&fed(&["judge", "-", "--json"])), named(&[("more_than", MOST_BYTES as i64)]));
}

#[test]
fn a_file_that_is_no_wad_file_is_told_by_what_it_begins_with() {
    let rule = "this is no WAD file: a WAD file begins with IWAD or PWAD";
    for (start, words, mark) in [
        (&b"hello, world"[..], r#", and this one with "hell""#, "hell"),
        (b"\x1b[2J        ", r#", and this one with "\x1b[2J""#, r"\\x1b[2J"),
        (
            b"PK\x03\x04        ",
            ", and this one begins as a zip file does. Unpack it, and send the WAD file in it.",
            r"PK\\x03\\x04",
        ),
        (b"\x89PNG\r\n\x1a\n    ", ", and this one begins as a PNG image does", r"\\x89PNG"),
    ] {
        let folder = Folder::with("a.wad", start);
        folder.run(&["judge", "a.wad"]).is(1, &[&format!("a.wad: refused 2: {rule}{words}")]);
        let said = folder.run(&["judge", "a.wad", "--json"]);
        assert!(said.out.contains(&format!(r#""found":{{"mark":"{mark}"}}"#)), "{said:?}");
    }
}

#[test]
fn the_header_has_its_count() {
    let mut plan = Plan::new(rooms(), MAP_NAME);
    for (count, said) in [(-1, "-1"), (4_097, "4,097"), (i32::MIN, "-2,147,483,648")] {
        plan.count = Some(count);
        let words = format!("the header says {said} lumps, and 0 to 4,096 are allowed. The header is damaged. Send it again.");
        judged(&Folder::with("a.wad", &plan.wad()), &words, &[("count", i64::from(count))]);
    }
    (plan.count, plan.length) = (Some(4_097), Some(100_000));
    let words = "the header says 4,097 lumps, and 0 to 4,096 are allowed. \
                 Cut what you need out of it: meshpigeon extract FILE MAP -o OUT.wad";
    judged(&Folder::with("a.wad", &plan.wad()), words, &[("count", 4_097)]);
}

#[test]
fn a_directory_outside_the_file_is_told_with_its_end() {
    let wad = good();
    let start = i64::from(i32::from_le_bytes([8, 9, 10, 11].map(|at| wad[at])));
    let (end, length) = (wad.len(), wad.len() - 5);
    let words = format!(
        "the file is cut off: its directory should end at byte 1,{}, and it has 1,{} bytes. Send it again.",
        end - 1_000,
        length - 1_000
    );
    judged(&Folder::with("a.wad", &wad[..length]), &words, &[("start", start), ("count", 11), ("length", length as i64)]);
    let mut plan = Plan::new(rooms(), MAP_NAME);
    plan.start = Some(5);
    let words =
        "the directory starts at byte 5 by the header: byte 12 or later is allowed. The header is damaged. Send it again.";
    judged(&Folder::with("a.wad", &plan.wad()), words, &[("start", 5), ("count", 11), ("length", end as i64)]);
    plan.start = Some(i32::MAX);
    let words = format!(
        "the directory should end at byte 2,147,483,823 by the header, and the file has 1,{} bytes. \
         The header is damaged. Send it again.",
        end - 1_000
    );
    judged(&Folder::with("a.wad", &plan.wad()), &words, &[("start", i64::from(i32::MAX)), ("count", 11), ("length", end as i64)]);
}

#[test]
fn an_entry_is_told_with_its_name_offset_and_size() {
    let with = |change: fn(&mut EntryPlan)| {
        let mut plan = Plan::new(rooms(), MAP_NAME);
        change(plan.entry_at(3));
        Folder::with("a.wad", &plan.wad())
    };
    let told = |folder: &Folder, words: &str, members: &str| {
        folder.run(&["judge", "a.wad"]).is(1, &[&format!("a.wad: refused {words}")]);
        let said = folder.run(&["judge", "a.wad", "--json"]);
        let length = std::fs::metadata(folder.file("a.wad")).expect("it is there").len();
        assert!(said.out.contains(&format!(r#""found":{{{members},"length":{length}}}"#)), "{said:?}");
    };
    let folder = with(|entry| entry.size = Some(999_999));
    let words = "5 at entry 3: entry 3, SIDEDEFS, has offset 204 and size 999,999, and the file has 1,546 bytes. The \
                 file is cut off or damaged. Send it again.";
    told(&folder, words, r#""name":"SIDEDEFS","offset":204,"size":999999"#);
    let folder = with(|entry| entry.size = Some(-7));
    let words = "5 at entry 3: entry 3, SIDEDEFS, has offset 204 and size -7: no size is below 0. The directory is \
                 damaged. Send it again.";
    told(&folder, words, r#""name":"SIDEDEFS","offset":204,"size":-7"#);
    let folder = with(|entry| entry.offset = Some(11));
    let words = "5 at entry 3: entry 3, SIDEDEFS, has offset 11 and size 480: a lump starts at byte 12 or later. The \
                 directory is damaged. Send it again.";
    told(&folder, words, r#""name":"SIDEDEFS","offset":11,"size":480"#);
    let rule = r"a name has one to eight of A-Z, 0-9, [ ] - _ and \";
    let folder = with(|entry| entry.name = *b"sidedefs");
    let words =
        format!(r#"6 at entry 3: entry 3, with offset 204 and size 480, is called "sidedefs": {rule}. Call it SIDEDEFS."#);
    told(&folder, &words, r#""name":"sidedefs","offset":204,"size":480"#);
    let folder = with(|entry| entry.name = *b"A\x1b!\0\0\0\0\0");
    let words =
        format!(r#"6 at entry 3: entry 3, with offset 204 and size 480, is called "A\x1b!": {rule}. Give it another name."#);
    told(&folder, &words, r#""name":"A\\x1b!","offset":204,"size":480"#);
}

#[test]
fn every_command_says_what_it_found_in_a_file() {
    let folder = Folder::with("a.wad", b"PWAD");
    for arguments in [
        vec!["list", "a.wad"],
        vec!["descend", "a.wad", "MAP01", "0", "0"],
        vec!["order", "a.wad", "MAP01", "0", "0"],
        vec!["picture", "a.wad", "P", "-o", "p"],
    ] {
        let said = folder.run(&arguments);
        assert!(said.out.ends_with(": the file has 4 bytes, and a WAD file has at least 12. Send it again.\n"), "{said:?}");
        assert_eq!(found(&folder.run(&[&arguments[..], &["--json"]].concat())), named(&[("length", 4)]));
    }
}

#[test]
fn a_lump_that_is_cut_off_has_its_size() {
    let words = format!("NODES is cut off inside a record: it has 85 bytes, which is no multiple of 28. {BUILD}");
    judged(&with_lump(7, vec![0; 85]), &words, &[("size", 85)]);
    let words = format!("SSECTORS is cut off inside a record: it has 1 byte, which is no multiple of 4. {BUILD}");
    judged(&with_lump(6, vec![0]), &words, &[("size", 1)]);
    let words = "VERTEXES is cut off inside a record: it has 41 bytes, which is no multiple of 4. The lump is \
                 damaged: save the map again.";
    judged(&with_lump(4, vec![0; 41]), words, &[("size", 41)]);
}

#[test]
fn a_lump_has_its_count_of_records() {
    let words = "the map has 65,536 things, and at most 65,535 are allowed. Take some out.";
    judged(&with_lump(1, vec![0; 10 * 65_536]), words, &[("count", 65_536)]);
    let words = "the map has 65,536 vertices, and at most 65,535 are allowed. Take some out.";
    judged(&with_lump(4, vec![0; 4 * 65_536]), words, &[("count", 65_536)]);
    let words = "VERTEXES is empty: a map has at least 1 vertex. Draw something, and save the map again.";
    judged(&with_lump(4, vec![]), words, &[("count", 0)]);
    let words = "the map has 32,768 subsectors, and at most 32,767 are allowed. Make the map smaller.";
    judged(&with_lump(6, vec![0; 4 * 32_768]), words, &[("count", 32_768)]);
    let words = format!("SEGS is empty: a map has at least 1 seg. {BUILD}");
    judged(&with_lump(5, vec![]), &words, &[("count", 0)]);
}

#[test]
fn nodes_are_counted_beside_the_subsectors() {
    let words = format!("the map has 0 nodes and 4 subsectors: only a map of a single subsector has no nodes. {BUILD}");
    judged(&with_lump(7, vec![]), &words, &[("count", 0), ("subsectors", 4)]);
    let words = "the map has 32,768 nodes and 4 subsectors, and at most 32,767 nodes are allowed. Make the map smaller.";
    judged(&with_lump(7, vec![0; 28 * 32_768]), words, &[("count", 32_768), ("subsectors", 4)]);
}

#[test]
fn reject_has_both_lengths() {
    let longer = Folder::with("a.wad", &changed(|map| map.reject.push(0)));
    let words = "REJECT has 3 bytes, and the sectors of this map need 2. \
                 Nothing is wrong in your drawing: REJECT is damaged. Build the nodes again.";
    judged(&longer, words, &[("length", 3), ("needed", 2)]);
    let words =
        "REJECT is empty: the node builder was told to leave it out. Build the nodes again, with REJECT (zdbsp without -r).";
    judged(&with_lump(9, vec![]), words, &[("length", 0), ("needed", 2)]);
}

#[test]
fn the_last_map_of_a_name_is_looked_at() {
    let mut plan = Plan::new(rooms(), MAP_NAME);
    let map = plan.entries.clone();
    plan.entries.extend(map);
    plan.marker = 11;
    plan.entry_at(7).content = Content::Bytes(vec![0; 29]);
    let words = format!("NODES is cut off inside a record: it has 29 bytes, which is no multiple of 28. {BUILD}");
    judged(&Folder::with("a.wad", &plan.wad()), &words, &[("size", 29)]);
}

#[test]
fn a_flat_is_no_picture() {
    let folder = Folder::with("a.wad", &lumps(&[(b"FLOOR4_8", vec![106; 4_096])])).and("zero.lmp", &[0; 4_096]);
    let rule = "the picture's size is wrong: 1 to 320 across and 1 to 200 down are allowed";
    let words = "its 4,096 bytes look like a flat, which is no picture";
    let said = folder.run(&["picture", "a.wad", "FLOOR4_8", "-o", "p"]);
    said.is(1, &[&format!("a.wad:FLOOR4_8: refused 51: {rule}; {words}")]);
    let said = folder.run(&["picture", "a.wad", "FLOOR4_8", "-o", "p", "--json"]);
    assert!(said.out.contains(r#""found":{"width":27242,"height":27242,"flat":true}"#), "{said:?}");
    folder.run(&["picture", "zero.lmp", "-o", "p"]).is(1, &[&format!("zero.lmp: refused 51: {rule}; {words}")]);
}

#[test]
fn a_picture_has_its_own_size() {
    let rule = "the picture's size is wrong: 1 to 320 across and 1 to 200 down are allowed";
    for (width, height, said) in
        [(321, 1, "321 across and 1 down"), (3, 0, "3 across and 0 down"), (65_535, 201, "65,535 across and 201 down")]
    {
        let folder = Folder::with(
            "a.wad",
            &lumps(&[(b"BAD\0\0\0\0\0", PictureSpec { width, height, ..PictureSpec::blank(1, 1) }.encode())]),
        );
        folder
            .run(&["picture", "a.wad", "BAD", "-o", "p"])
            .is(1, &[&format!("a.wad:BAD: refused 51: {rule}; this one is {said}")]);
        let said = folder.run(&["picture", "a.wad", "BAD", "-o", "p", "--json"]);
        assert_eq!(found(&said), named(&[("width", i64::from(width)), ("height", i64::from(height))]));
    }
}
