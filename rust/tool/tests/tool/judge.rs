//! `judge`: lines, order, summary and exit status.

use crate::support::{changed, good, lumps, Folder, GOOD};
use generator::{rooms, EntryPlan, Plan, LUMP_NAMES, MAP_NAME};

/// A file with maps of these names, all of them the four rooms.
fn maps(names: &[&[u8; 8]]) -> Vec<u8> {
    let mut plan = Plan::new(rooms(), MAP_NAME);
    let map: Vec<EntryPlan> = plan.entries.drain(..).collect();
    for name in names {
        plan.entries.push(EntryPlan::empty(**name));
        plan.entries.extend_from_slice(&map[1..]);
    }
    plan.wad()
}

#[test]
fn a_good_map_is_one_line() {
    let folder = Folder::with("good.wad", &good());
    folder.run(&["judge", "good.wad"]).is(0, &[&format!("good.wad:MAP01: {GOOD}")]);
    assert_eq!(folder.names(), ["good.wad"]);
}

#[test]
fn a_loop_is_refused_with_its_number_and_lump() {
    let folder = Folder::with("loop.wad", &changed(|map| map.nodes[1].right = 2));
    let said = folder.run(&["judge", "loop.wad"]);
    assert!(said.out.starts_with("loop.wad:MAP01: refused 31 at NODES: the nodes turn back on themselves"), "{said:?}");
    assert_eq!((said.status, said.out.lines().count(), said.err.as_str()), (1, 1, ""));
}

#[test]
fn a_shared_child_is_refused_with_its_number_and_lump() {
    let folder = Folder::with("shared.wad", &changed(|map| map.nodes[1].right = map.nodes[0].right));
    let said = folder.run(&["judge", "shared.wad"]);
    assert!(
        said.out.starts_with(
            "shared.wad:MAP01: refused 32 at NODES: two ways down lead to subsector 1: it is the right child of node 1"
        ),
        "{said:?}"
    );
    assert_eq!((said.status, said.out.lines().count(), said.err.as_str()), (1, 1, ""));
}

#[test]
fn a_reference_is_refused_with_its_record() {
    let folder = Folder::with("a.wad", &changed(|map| map.sidedefs[7].sector = 4));
    let said = folder.run(&["judge", "a.wad"]);
    said.is(
        1,
        &["a.wad:MAP01: refused 24 at SIDEDEFS 7: sidedef 7, the left side of linedef 5, from (512, 256) to \
           (512, 0), faces sector 4, and this map has sectors 0 to 3: give it a sector that is there"],
    );
}

#[test]
fn a_bad_directory_refuses_the_file() {
    let mut plan = Plan::new(rooms(), MAP_NAME);
    plan.entries[3].offset = Some(11);
    let folder = Folder::with("a.wad", &plan.wad());
    for arguments in [vec!["judge", "a.wad"], vec!["judge", "a.wad", "--map", "MAP01", "--map", "MAP02"]] {
        let said = folder.run(&arguments);
        assert!(said.out.starts_with("a.wad: refused 5 at entry 3: "), "{said:?}");
        assert_eq!((said.status, said.out.lines().count()), (1, 1));
    }
}

#[test]
fn every_map_is_judged_once_in_directory_order() {
    let wad = maps(&[b"MAP02\0\0\0", b"E1M1\0\0\0\0", b"MAP01\0\0\0", b"MAP02\0\0\0"]);
    let lines = ["MAP02", "E1M1", "MAP01"].map(|map| format!("a.wad:{map}: {GOOD}"));
    let lines: Vec<&str> = lines.iter().map(String::as_str).chain(["1 file: 3 maps accepted"]).collect();
    Folder::with("a.wad", &wad).run(&["judge", "a.wad"]).is(0, &lines);
}

#[test]
fn the_last_map_of_a_name_counts() {
    let mut plan = Plan::new(rooms(), MAP_NAME);
    plan.entries.push(EntryPlan::empty(MAP_NAME));
    let said = Folder::with("a.wad", &plan.wad()).run(&["judge", "a.wad"]);
    assert!(said.out.starts_with("a.wad:MAP01: refused 12 at THINGS: THINGS is missing"), "{said:?}");
}

#[test]
fn a_map_is_called_by_what_precedes_its_zero() {
    let folder = Folder::with("a.wad", &maps(&[b"MAP01\0AP", b"E1M1\x001\0\0", b"MAP01\0zz"]));
    let lines = ["MAP01", "E1M1"].map(|map| format!("a.wad:{map}: {GOOD}"));
    folder.run(&["judge", "a.wad"]).is(0, &[&lines[0], &lines[1], "1 file: 2 maps accepted"]);
    folder.run(&["judge", "a.wad", "--map", "e1m1"]).is(0, &[&lines[1]]);
    let said = folder.run(&["judge", "a.wad", "--json"]);
    let markers = said.out.lines().map(|line| line.contains(r#""map":"MAP01""#) && line.contains(r#""marker":22"#));
    assert_eq!(markers.collect::<Vec<_>>(), [true, false], "{said:?}");
}

#[test]
fn a_name_that_is_bad_before_its_zero_is_refused() {
    for name in [b"\0MAP01\0\0", b"map01\0AP", &[0; 8]] {
        let said = Folder::with("a.wad", &lumps(&[(b"GOOD\0bad", vec![]), (name, vec![])])).run(&["judge", "a.wad"]);
        assert!(said.out.starts_with("a.wad: refused 6 at entry 1: entry 1, with offset 12 and size 0, is called "), "{said:?}");
        assert_eq!((said.status, said.out.lines().count()), (1, 1));
    }
}

#[test]
fn named_maps_are_judged_in_the_order_asked() {
    let folder = Folder::with("a.wad", &maps(&[b"MAP01\0\0\0", b"MAP02\0\0\0", b"MAP03\0\0\0"]));
    let lines = ["MAP03", "MAP01"].map(|map| format!("a.wad:{map}: {GOOD}"));
    let said = folder.run(&["judge", "--map", "map03", "a.wad", "--map=MAP01", "--map", "MAP03"]);
    said.is(0, &[&lines[0], &lines[1], "1 file: 2 maps accepted"]);
}

#[test]
fn a_map_that_is_not_there_is_refused() {
    let folder = Folder::with("a.wad", &good());
    let said = folder.run(&["judge", "a.wad", "--map", "MAP02"]);
    said.is(1, &["a.wad:MAP02: refused 11: the file has no map of that name; the only map is MAP01"]);
    for strange in ["MAP00", "HELLO", "MAP010101", "E1M10", ""] {
        let said = folder.run(&["judge", "a.wad", "--map", strange]);
        assert!(said.out.starts_with(&format!("a.wad:{strange}: refused 10: that is no map's name")), "{said:?}");
        assert_eq!(said.status, 1);
    }
}

#[test]
fn a_map_that_is_not_there_is_counted_apart() {
    let folder = Folder::with("both.wad", &maps(&[b"MAP01\0\0\0", b"MAP02\0\0\0"]))
        .and("one.wad", &good())
        .and("none.wad", &lumps(&[]))
        .and("bad.wad", &changed(|map| map.nodes[1].right = 2));
    let absent = |file, map| {
        let maps = if file == "none.wad" { "there is no map at all" } else { "the only map is MAP01" };
        format!("{file}:{map}: refused 11: the file has no map of that name; {maps}")
    };
    let said = folder.run(&["judge", "--map", "MAP02", "both.wad", "one.wad", "none.wad"]);
    let lines = [format!("both.wad:MAP02: {GOOD}"), absent("one.wad", "MAP02"), absent("none.wad", "MAP02")];
    said.is(1, &[&lines[0], &lines[1], &lines[2], "3 files: 1 map accepted, 2 maps not there"]);
    let said = folder.run(&["judge", "--map", "MAP01", "bad.wad", "none.wad"]);
    assert!(said.out.ends_with("\n2 files: 1 map refused, 1 map not there\n"), "{said:?}");
    assert_eq!(said.status, 1);
    let said = folder.run(&["judge", "one.wad", "--map", "MAP02", "--map", "MAP03"]);
    said.is(1, &[&absent("one.wad", "MAP02"), &absent("one.wad", "MAP03"), "1 file: 2 maps not there"]);
}

#[test]
fn a_file_without_a_map_is_said_so_and_not_refused() {
    let folder = Folder::with("a.wad", &lumps(&[(b"THINGS\0\0", vec![1])])).and("b.wad", &lumps(&[]));
    folder.run(&["judge", "a.wad"]).is(0, &["a.wad: no map"]);
    folder.run(&["judge", "b.wad", "a.wad"]).is(0, &["b.wad: no map", "a.wad: no map", "2 files: 2 files without a map"]);
    folder.run(&["judge", "b.wad", "--quiet"]).is(0, &[]);
}

#[test]
fn all_files_are_judged_and_the_worst_wins() {
    let folder =
        Folder::with("good.wad", &good()).and("bad.wad", &changed(|map| map.reject.push(0))).and("none.wad", b"hello, world");
    let said = folder.run(&["judge", "bad.wad", "missing.wad", "none.wad", "good.wad"]);
    let lines: Vec<&str> = said.out.lines().collect();
    assert!(lines[0].starts_with("bad.wad:MAP01: refused 22 at REJECT: "), "{said:?}");
    assert!(lines[1].starts_with("none.wad: refused 2: "), "{said:?}");
    assert_eq!(lines[2], format!("good.wad:MAP01: {GOOD}"));
    assert_eq!(lines[3..], ["4 files: 1 map accepted, 1 map refused, 1 file refused, 1 file not read"]);
    assert!(said.err.starts_with("meshpigeon: missing.wad: "), "{said:?}");
    assert_eq!(said.status, 2);
}

#[test]
fn quiet_says_refusals_only() {
    let folder = Folder::with("good.wad", &good()).and("bad.wad", &changed(|map| map.reject.push(0)));
    folder.run(&["judge", "-q", "good.wad"]).is(0, &[]);
    let said = folder.run(&["judge", "good.wad", "--quiet", "bad.wad", "good.wad"]);
    assert!(said.out.starts_with("bad.wad:MAP01: refused 22"), "{said:?}");
    assert_eq!((said.status, said.out.lines().count()), (1, 1));
}

#[test]
fn nothing_is_coloured_off_a_terminal() {
    let folder = Folder::with("good.wad", &good()).and("bad.wad", &changed(|map| map.reject.push(0)));
    assert!(!folder.run(&["judge", "good.wad", "bad.wad"]).out.contains('\x1b'));
}

#[test]
fn a_name_cannot_forge_a_line() {
    let name = "a\nb.wad:MAP01: accepted\x1b[2J";
    let folder = Folder::with(name, &good());
    let said = folder.run(&["judge", name]);
    said.is(0, &[&format!("a\\nb.wad:MAP01: accepted\\u{{1b}}[2J:MAP01: {GOOD}")]);
}

#[test]
fn the_ten_lumps_are_asked_for_by_name() {
    for (place, name) in (1..).zip(LUMP_NAMES) {
        let mut plan = Plan::new(rooms(), MAP_NAME);
        plan.entry_at(place).name = *b"OTHER\0\0\0";
        let said = Folder::with("a.wad", &plan.wad()).run(&["judge", "a.wad"]);
        let name = String::from_utf8_lossy(&name).trim_end_matches('\0').to_string();
        assert!(
            said.out
                .starts_with(&format!("a.wad:MAP01: refused 12 at {name}: {name} is missing: entry {place} is called OTHER. ")),
            "{said:?}"
        );
        assert_eq!((said.status, said.out.lines().count()), (1, 1));
    }
}
