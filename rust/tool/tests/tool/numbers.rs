//! Every refusal that the tool can meet: a good map, picture, list or index is damaged, and the sentence is held in text and in JSON.

use crate::json_reader::{object, Value};
use crate::schema;
use crate::support::{changed, good, lumps, said, Folder, Said};
use generator::{rooms, Content, EntryPlan, PictureSpec, Plan, Post, MAP_NAME};
use reader::{Node, Sidedef, SUBSECTOR_BIT};
use std::io::Write;
use std::process::Stdio;

const BUILD: &str = "Nothing is wrong in your drawing: the nodes are damaged. Build the nodes again.";

/// Runs the tool with these bytes on standard input.
fn fed(folder: &Folder, arguments: &[&str], input: &[u8]) -> Said {
    let mut command = folder.command(arguments);
    let mut child = command.stdin(Stdio::piped()).stdout(Stdio::piped()).stderr(Stdio::piped()).spawn().expect("the tool runs");
    let _ = child.stdin.take().expect("a pipe").write_all(input);
    said(child.wait_with_output().expect("the tool ends"))
}

/// Asserts what is said behind `refused `, in text and in JSON, and that the object keeps to the schema.
fn told_of(folder: &Folder, arguments: &[&str], input: &[u8], words: &str) {
    let text = fed(folder, arguments, input);
    let line = text.out.lines().next().unwrap_or_default();
    assert_eq!(line.split_once(": refused ").map(|it| it.1), Some(words), "{text:?}");
    let json = fed(folder, &[arguments, &["--json"]].concat(), input);
    assert_eq!((json.status, json.out.lines().count()), (text.status, 1), "{json:?}");
    schema::holds(json.out.trim_end());
    let members = object(json.out.trim_end());
    let of = |key: &str| members.iter().find(|(it, _)| it == key).expect("the key").1.clone();
    let (number, sentence) = words.split_once(": ").expect("a sentence");
    let number = number.split(' ').next().expect("a number").parse().expect("a number");
    assert_eq!((of("verdict"), of("number")), (Value::Text("refused".into()), Value::Number(number)));
    assert_eq!(of("text"), Value::Text(sentence.to_string()));
}

/// What `judge` says of a file.
fn judged(wad: &[u8], words: &str) {
    told_of(&Folder::with("a.wad", wad), &["judge", "a.wad"], &[], words);
}

/// The same of a map with another lump.
fn with_lump(place: usize, bytes: Vec<u8>, words: &str) {
    let mut plan = Plan::new(rooms(), MAP_NAME);
    plan.entry_at(place).content = Content::Bytes(bytes);
    judged(&plan.wad(), words);
}

#[test]
fn of_files_1_to_6() {
    judged(&good()[..11], "1: the file has 11 bytes, and a WAD file has at least 12. Send it again.");
    let mut plan = Plan::new(rooms(), MAP_NAME);
    plan.mark = *b"QWAD";
    judged(&plan.wad(), "2: this is no WAD file: a WAD file begins with IWAD or PWAD, and this one with \"QWAD\"");
    let mut plan = Plan::new(rooms(), MAP_NAME);
    plan.count = Some(-1);
    judged(&plan.wad(), "3: the header says -1 lumps, and 0 to 4,096 are allowed. The header is damaged. Send it again.");
    let whole = good();
    let words = "4: the file is cut off: its directory should end at byte 1,546, and it has 1,000 bytes. Send it again.";
    judged(&whole[..1_000], words);
    let mut plan = Plan::new(rooms(), MAP_NAME);
    plan.entry_at(8).size = Some(2_000);
    let words = "5 at entry 8: entry 8, SECTORS, has offset 1,016 and size 2,000, and the file has 1,546 bytes. \
                 The file is cut off or damaged. Send it again.";
    judged(&plan.wad(), words);
    let mut plan = Plan::new(rooms(), MAP_NAME);
    plan.entry_at(8).name = *b"sectors\0";
    let words = "6 at entry 8: entry 8, with offset 1,016 and size 104, is called \"sectors\": \
                 a name has one to eight of A-Z, 0-9, [ ] - _ and \\. Call it SECTORS.";
    judged(&plan.wad(), words);
}

#[test]
fn of_names_10_to_12() {
    let folder = Folder::with("a.wad", &good());
    let words = "10: that is no map's name: maps are called E1M1 to E9M9, or MAP01 to MAP99";
    told_of(&folder, &["judge", "a.wad", "--map", "HELLO"], &[], words);
    let words = "11: the file has no map of that name; the only map is MAP01";
    told_of(&folder, &["judge", "a.wad", "--map", "MAP02"], &[], words);
    let mut plan = Plan::new(rooms(), MAP_NAME);
    plan.entries.drain(5..8);
    let words = "12 at SEGS: the map was saved without nodes: SEGS is missing, and entry 5 is called SECTORS. \
                 Save the map with a node builder switched on.";
    judged(&plan.wad(), words);
}

#[test]
fn of_lumps_20_to_22() {
    with_lump(
        7,
        vec![0; 85],
        &format!("20 at NODES: NODES is cut off inside a record: it has 85 bytes, which is no multiple of 28. {BUILD}"),
    );
    with_lump(
        2,
        vec![],
        "21 at LINEDEFS: LINEDEFS is empty: a map has at least 1 linedef. Draw something, and save the map again.",
    );
    let words = "22 at REJECT: REJECT has 1 byte, and the sectors of this map need 2. \
                 Nothing is wrong in your drawing: REJECT is damaged. Build the nodes again.";
    with_lump(9, vec![0], words);
}

#[test]
fn of_records_23_to_28() {
    let words = "23 at LINEDEFS 0: linedef 0, from (0, 0) to (0, 256), is marked two-sided but has no left side: give \
                 it one, or clear the flag";
    judged(&changed(|map| map.linedefs[0].flags |= 4), words);
    let words =
        "24 at SIDEDEFS 0: sidedef 0, the right side of linedef 0, from (0, 0) to (0, 256), faces sector 4, and this map has \
         sectors 0 to 3: give it a sector that is there";
    judged(&changed(|map| map.sidedefs[0].sector = 4), words);
    let words = "25 at SEGS 0: seg 0, from (0, 0) to (0, 256), belongs to linedef 13, and this map has linedefs 0 to 12.";
    judged(&changed(|map| map.segs[0].linedef = 13), &format!("{words} {BUILD}"));
    let words = "26 at SSECTORS 1: subsector 1, whose first seg runs from (256, 0) to (256, 256), has no segs, and it \
                 must have at least 1.";
    judged(&changed(|map| map.subsectors[1].number = 0), &format!("{words} {BUILD}"));
    let words = "27 at NODES 2: node 2, with the partition line from (512, 0) to (512, 256), has subsector 9 as its \
                 left child, and this map has subsectors 0 to 3.";
    judged(&changed(|map| map.nodes[2].left = SUBSECTOR_BIT | 9), &format!("{words} {BUILD}"));
    let words = "28 at BLOCKMAP cell 1: cell 1, the square from (120, -8) to (248, 120), has offset 5, and all lists \
                 are in words 31 to 123. \
                 Nothing is wrong in your drawing: BLOCKMAP is damaged. Build the nodes again.";
    judged(&changed(|map| map.blockmap.offsets[1] = 5), words);
    let words = "28 at BLOCKMAP header: BLOCKMAP has 513 rows by its header, and 1 to 512 are allowed. \
                 Nothing is wrong in your drawing: BLOCKMAP is damaged. Build the nodes again.";
    judged(&changed(|map| map.blockmap.rows = 513), words);
}

#[test]
fn of_the_graph_31_and_32() {
    let words = "31 at NODES: the nodes turn back on themselves: some way down from the root never ends.";
    judged(
        &changed(|map| map.nodes[0].left = 2),
        &format!("{words} {BUILD} From the root go left, left: there node 2 comes a second time."),
    );
    let words = "32 at NODES: two ways down lead to subsector 3: it is the right child of node 1 and the left child of node 0.";
    judged(&changed(|map| map.nodes[0].left = SUBSECTOR_BIT | 3), &format!("{words} {BUILD}"));
}

#[test]
fn of_walks_40_to_46() {
    let folder = |nodes: Vec<u8>| {
        let mut plan = Plan::new(rooms(), MAP_NAME);
        plan.entry_at(7).content = Content::Bytes(nodes);
        Folder::with("a.wad", &plan.wad())
    };
    let bad = |words: &str| format!("{words}. {BUILD}");
    let (descend, order) = (["descend", "a.wad", "MAP01", "0", "0"], ["order", "a.wad", "MAP01", "0", "0"]);
    told_of(
        &folder(vec![0; 29]),
        &descend,
        &[],
        &bad("40: these are no nodes: a multiple of 28 bytes, and at most 32,767 nodes"),
    );
    told_of(
        &folder(vec![]),
        &descend,
        &[],
        &bad("41: the count of subsectors is not 1 to 32,767, or not 1 where there are no nodes"),
    );
    let marked = [&b"XNOD"[..], &[0; 99]].concat();
    let words =
        "NODES are of the extended kind (XNOD), which the box cannot read: build plain nodes (zdbsp without -X, -x and -z)";
    told_of(&folder(marked), &descend, &[], &format!("40: {words}"));
    let walk = |change: fn(&mut Vec<Node>)| Folder::with("a.wad", &changed(|map| change(&mut map.nodes)));
    let words = bad("42 at node 2: the way down came to node 2, one of whose children is not there");
    told_of(&walk(|nodes| nodes[2].left = 99), &descend, &[], &words);
    let words =
        bad("43: the descent passed as many nodes as there are and is still on a node: the nodes turn back on themselves");
    told_of(&walk(|nodes| nodes[2].left = 2), &descend, &[], &words);
    let words = "44: a way down passes more than 256 nodes: a draw order follows ways of at most 256";
    told_of(&walk(|nodes| nodes[2].left = 2), &order, &[], words);
    let words = bad("46: the draw order grows too long: it lists at most one subsector more than there are nodes, \
                     each reached by one way only");
    let doubled = |nodes: &mut Vec<Node>| {
        let root = nodes[2];
        *nodes = (0..20_u16)
            .map(|at| at.checked_sub(1).unwrap_or(SUBSECTOR_BIT))
            .map(|it| Node { right: it, left: it, ..root })
            .collect();
    };
    told_of(&walk(doubled), &order, &[], &words);
}

#[test]
fn of_pictures_50_to_56() {
    let of = |bytes: Vec<u8>, words: &str| {
        let folder = Folder::with("a.wad", &lumps(&[(b"P\0\0\0\0\0\0\0", bytes)]));
        told_of(&folder, &["picture", "a.wad", "P", "-o", "p.png"], &[], words);
    };
    of(vec![0; 7], "50: the picture is too short: its header alone has 8 bytes");
    let wide = PictureSpec { width: 321, ..PictureSpec::blank(1, 1) };
    let words =
        "51: the picture's size is wrong: 1 to 320 across and 1 to 200 down are allowed; this one is 321 across and 1 down";
    of(wide.encode(), words);
    of(
        vec![106; 4_096],
        "51: the picture's size is wrong: 1 to 320 across and 1 to 200 down are allowed; its 4,096 \
         bytes look like a flat, which is no picture",
    );
    of(
        PictureSpec::blank(9, 9).encode()[..20].to_vec(),
        "52: the picture's column offsets run past its end: there are four bytes for each column",
    );
    let mut low = PictureSpec::blank(3, 3);
    low.offsets[2] = 0;
    let words = "53 at column 2: column 2 starts before the end of the column offsets, or runs past the picture's \
                 end: a column is posts \
                 and then the byte 255, all of them inside";
    of(low.encode(), words);
    let mut deep = PictureSpec::blank(2, 3);
    deep.give_column(1, &[Post { start: 2, pixels: vec![1, 2], ignored: [0, 0] }]);
    deep.data.push(255);
    let words = "54 at column 1: column 1 has a post that starts above the end of the one before it, or ends below \
                 the picture's last row: \
                 posts go downward and do not overlap";
    of(deep.encode(), words);
    let folder = Folder::with("a.pgm", &[&b"P5 321 1 255\n"[..], &[0; 321]].concat());
    let words = "56: a picture of that size cannot be written: 1 to 320 across and 1 to 200 down are allowed; this \
                 one is 321 across and 1 down";
    told_of(&folder, &["encode", "a.pgm", "-o", "p.lmp"], &[], words);
}

#[test]
fn of_orders_and_comparisons_70_to_76() {
    let folder = Folder::with("a.wad", &good()).and("b.wad", &Plan::wad_of(generator::hexen_rooms()));
    let order = |list: &[u8], words: &str| {
        told_of(&folder, &["renumber", "a.wad", "MAP01", "-o", "out.wad", "--list", "-"], list, words);
    };
    order(
        b"0 0 2",
        "70: the order lists a node twice, or one that the root does not reach: it must hold each reached \
         node once; here 0 is such a number",
    );
    order(
        b"1 0 2 2",
        "73: the order is too short or too long: it must have as many numbers as there are nodes that \
         the root reaches; here that is 3, and it has 4",
    );
    order(
        b"1 2 0",
        "72: the order does not end with the root: the root, the last of the old nodes, must come last; \
         here it ends with 0, and the root is 2",
    );
    let chain = changed(|map| {
        (map.nodes[2].right, map.nodes[0].left) = (SUBSECTOR_BIT, 1);
        map.subsectors.truncate(4);
    });
    let folder = folder.and("c.wad", &chain);
    let words = "71: the order has a child behind its parent: every child that is a node must come before its parent; \
                 here node 1 stands behind its parent, node 0";
    told_of(&folder, &["renumber", "c.wad", "MAP01", "-o", "out.wad", "--list", "-"], b"0 1 2", words);
    let words = "76 (Hexen): one map is Doom's and the other Hexen's: only two maps of one game can be compared";
    told_of(&folder, &["diff", "a.wad", "b.wad"], &[], words);
}

#[test]
fn of_sidedefs_and_indexes_80_to_84() {
    let folder = Folder::with("a.wad", &good());
    let words = "80: the count of sectors is not one that a map can have: a map has 1 to 65,535; the count given is 0";
    told_of(&folder, &["sidedefs", "0"], &[], words);
    let words = "81: more bytes came than any SIDEDEFS may have: at most 16,777,216 may come";
    told_of(&folder, &["sidedefs", "4"], &vec![0; 16_777_217], words);
    let words = "24 at SIDEDEFS 0: sidedef 0 names a sector that is not there: every sidedef faces a sector of the map";
    let bytes: Vec<u8> = generator::Encode::encode(&Sidedef { sector: 4, ..rooms().sidedefs[0] });
    told_of(&folder, &["sidedefs", "4"], &bytes, words);
    let index = meshpigeon::index_build(&good()).expect("an index");
    let check = ["index", "a.wad", "--check", "-"];
    let words = "82: the index is not of this file: it begins with WIX, has the file's count of entries and its \
                 length, and is at least 11 \
                 bytes long and 10 for each entry; for this file that is 121 bytes, and it has 120";
    told_of(&folder, &check, &index[..120], words);
    let mut other = index.clone();
    other[3] = 2;
    told_of(&folder, &check, &other, "83: the index has another version: only version 1 is known; this one is of version 2");
    let words = "84: the index is not the one of this directory: it holds the name and number of each entry once, \
                 sorted by name and then by \
                 number, with zeros after a name's first zero, and nothing behind them; it has 1 byte too many";
    told_of(&folder, &check, &[&index[..], b"x"].concat(), words);
}

#[test]
fn of_texts_90_to_93() {
    let of = |text: &str, words: &str| {
        let entries = [(b"MAP01\0\0\0", Vec::new()), (b"TEXTMAP\0", text.as_bytes().to_vec()), (b"ENDMAP\0\0", Vec::new())];
        let mut plan = Plan::new(rooms(), MAP_NAME);
        plan.entries = entries.map(|(name, bytes)| EntryPlan::new(*name, Content::Bytes(bytes))).to_vec();
        judged(&plan.wad(), words);
    };
    of("vertex { x = 1; y = 2 }", "90 at TEXTMAP 1:23: expected `;` after the value, found `}`");
    of(
        "a = 99999999999;",
        "91 at TEXTMAP 1:5: `99999999999` is no number of 32 bits: -2,147,483,648 to 2,147,483,647 are allowed",
    );
    of("thing { x = 1; type = 1; }", "92 at TEXTMAP 1:26: this thing has no y");
    let words = "93 at TEXTMAP 1:1703911: this vertex is one too many: a text map has at most 65,535 of each kind";
    of(&"vertex{x=0.000000;y=1000;}".repeat(65_536), words);
}
