//! `spool`: where each arrival goes, what is written beside it, and what stays.

use crate::json_reader::{object, Value};
use crate::schema;
use crate::support::{changed, good, lumps, Folder, Said};
use generator::MAP_NAME;
use std::fs;
use std::os::unix::fs::symlink;
use std::path::Path;
use std::process::Command;

/// The four folders.
pub const FOLDERS: [&str; 4] = ["in", "accepted", "refused", "held"];

/// One round over them.
pub const ROUND: [&str; 10] =
    ["spool", "in", "--accepted", "accepted", "--refused", "refused", "--held", "held", "--settle", "0"];

/// A folder with the four folders in it.
pub fn folders() -> Folder {
    let folder = Folder::new();
    FOLDERS.iter().for_each(|name| fs::create_dir(folder.file(name)).expect("a new folder"));
    folder
}

/// One round, with more options.
pub fn round(folder: &Folder, more: &[&str]) -> Said {
    folder.run(&[&ROUND[..], more].concat())
}

/// Puts a file among the arrivals.
pub fn arrives(folder: &Folder, name: impl AsRef<Path>, bytes: &[u8]) {
    fs::write(folder.file("in").join(name), bytes).expect("an arrival");
}

/// A map that loops.
pub fn looping() -> Vec<u8> {
    changed(|map| map.nodes[1].right = 2)
}

/// A file without a map.
pub fn empty() -> Vec<u8> {
    lumps(&[(b"OTHER\0\0\0", vec![1, 2, 3])])
}

/// The names in a folder, sorted; not those that the spool needs for itself.
pub fn names(folder: &Folder, name: &str) -> Vec<String> {
    let entries = fs::read_dir(folder.file(name)).expect("the folder is there");
    let names = entries.map(|it| it.expect("an entry").file_name().to_string_lossy().into_owned());
    let mut names: Vec<String> = names.filter(|name| name != ".meshpigeon-leaving").collect();
    names.sort();
    names
}

/// A text in the folder.
pub fn text(folder: &Folder, name: &str) -> String {
    fs::read_to_string(folder.file(name)).expect("a text")
}

fn value(line: &str, key: &str) -> Value {
    object(line.trim_end()).into_iter().find(|(it, _)| it == key).expect("the key").1
}

fn said(it: &str) -> Value {
    Value::Text(it.to_string())
}

#[test]
fn each_arrival_goes_where_it_belongs() {
    let folder = folders();
    for (name, bytes) in generator::samples() {
        arrives(&folder, name, &bytes);
    }
    fs::rename(folder.file("in/hexen.wad"), folder.file("in/UPPER.WAD")).expect("another name");
    fs::remove_file(folder.file("in/pigeon.pam")).unwrap_or_default();
    let said = round(&folder, &[]);
    assert_eq!((said.status, said.err.as_str()), (1, ""), "{said:?}");
    assert_eq!(said.out.lines().last(), Some("3 accepted, 3 refused, 2 held, 0 waiting"));
    assert_eq!(names(&folder, "in"), [""; 0]);
    assert_eq!(names(&folder, "accepted"), ["UPPER.WAD", "accepted.wad", "leftover.wad"]);
    let beside = |names: [&str; 3]| names.map(|name| ["", ".json", ".txt"].map(|ending| format!("{name}{ending}"))).concat();
    assert_eq!(names(&folder, "refused"), beside(["loop.wad", "reference.wad", "shared.wad"]));
    assert_eq!(names(&folder, "held")[..3], beside(["picture.wad", "", ""])[..3]);
    for (name, bytes) in generator::samples().into_iter().filter(|(name, _)| name.ends_with(".wad") && *name != "hexen.wad") {
        let places = FOLDERS.iter().filter(|it| fs::read(folder.file(it).join(name)).is_ok_and(|it| it == bytes)).count();
        assert_eq!(places, 1, "{name}");
    }
    round(&folder, &[]).is(0, &["0 accepted, 0 refused, 0 held, 0 waiting"]);
    round(&folder, &["--quiet"]).is(0, &[]);
}

#[test]
fn the_texts_say_why_and_what_to_do() {
    let folder = folders();
    arrives(&folder, "loop.wad", &looping());
    arrives(&folder, "no.wad", b"PK and so on, in a file of zip");
    arrives(&folder, "none.wad", &empty());
    assert_eq!(round(&folder, &[]).status, 1);
    let judged = folder.run(&["judge", "refused/loop.wad"]);
    let sentence = judged.out.strip_prefix("refused/loop.wad:").expect("the file's name");
    let looped = text(&folder, "refused/loop.wad.txt");
    assert!(looped.starts_with("Your file loop.wad was refused. It was not sent.\n\nMAP01: refused 31 at NODES: "), "{looped}");
    assert!(looped.contains(sentence) && looped.contains("\nWhat to do: mend what is refused above"), "{looped}");
    let zip = text(&folder, "refused/no.wad.txt");
    assert!(zip.contains("\nrefused 2: this is no WAD file: ") && zip.contains("begins as a zip file does. Unpack it"), "{zip}");
    let none = text(&folder, "held/none.wad.txt");
    assert!(none.starts_with("Your file none.wad is held. It was not sent. A person decides what becomes of it.\n"), "{none}");
    assert!(none.contains("\nThe file has no map.\n\nWhat to do: "), "{none}");
    let json = text(&folder, "refused/loop.wad.json");
    assert_eq!((value(&json, "outcome"), value(&json, "number")), (said("refused"), Value::Number(31)));
    let judged = folder.run(&["judge", "--json", "--all", "refused/loop.wad"]).out.replace("refused/loop.wad", "loop.wad");
    assert!(json.contains(&format!("\"verdicts\":[{}]", judged.trim_end())), "{json}");
    for name in ["refused/loop.wad.json", "refused/no.wad.json", "held/none.wad.json"] {
        schema::holds(text(&folder, name).trim_end());
    }
}

#[test]
fn text_maps_and_lumps_that_nobody_judged_are_held() {
    let folder = folders();
    let textmap = || (b"TEXTMAP\0", b"namespace = \"Doom\";".to_vec());
    arrives(&folder, "text.wad", &lumps(&[(&MAP_NAME, vec![]), textmap(), (b"ENDMAP\0\0", vec![])]));
    arrives(&folder, "named.wad", &lumps(&[(b"MYMAP\0\0\0", vec![]), textmap(), (b"ENDMAP\0\0", vec![])]));
    let bad = lumps(&[(&MAP_NAME, vec![]), (b"TEXTMAP\0", b"a = ".to_vec()), (b"ENDMAP\0\0", vec![])]);
    arrives(&folder, "bad.wad", &bad);
    assert_eq!(round(&folder, &[]).status, 1);
    assert!(text(&folder, "held/text.wad.txt").contains("What to do: save the map in the binary format"));
    assert!(text(&folder, "held/named.wad.txt").contains("What to do: give the map one of these names"));
    assert!(text(&folder, "refused/bad.wad.txt").contains("\nMAP01: refused 90 at TEXTMAP 1:5: "));
}

#[test]
fn nothing_is_overwritten() {
    let folder = folders();
    let put = |name: &str, bytes: &[u8]| fs::write(folder.file(name), bytes).expect("a file");
    put("accepted/a.wad", b"another");
    put("accepted/same.wad", &good());
    put("refused/b.wad", b"another");
    put("refused/b.2.wad.txt", b"another text");
    put("refused/c.wad.json", b"another object");
    symlink("nowhere", folder.file("refused/d.wad")).expect("a link");
    for (name, bytes) in
        [("a.wad", good()), ("same.wad", good()), ("b.wad", looping()), ("c.wad", looping()), ("d.wad", looping())]
    {
        arrives(&folder, name, &bytes);
    }
    let said = round(&folder, &[]);
    assert_eq!((said.status, said.err.as_str()), (1, ""), "{said:?}");
    assert_eq!(names(&folder, "in"), [""; 0]);
    assert_eq!(text(&folder, "accepted/a.wad"), "another");
    assert!(
        text(&folder, "held/a.wad.txt").contains("\nEvery map is accepted, but another file of this name was accepted before.\n")
    );
    assert_eq!([text(&folder, "refused/b.wad"), text(&folder, "refused/b.2.wad.txt")], ["another", "another text"]);
    for name in ["b.3.wad", "c.2.wad", "d.2.wad"] {
        assert_eq!(fs::read(folder.file("refused").join(name)).expect("it is there"), looping(), "{name}");
        assert!(
            folder.file("refused").join(format!("{name}.txt")).exists()
                && folder.file("refused").join(format!("{name}.json")).exists()
        );
    }
    assert!(folder.file("refused/d.wad").is_symlink());
    let before = names(&folder, "refused");
    arrives(&folder, "b.wad", &looping());
    assert_eq!((round(&folder, &[]).status, names(&folder, "refused")), (1, before));
}

#[test]
fn links_pipes_folders_and_dots_are_named_and_left() {
    let folder = folders();
    fs::write(folder.file("good.wad"), good()).expect("a file");
    symlink("../good.wad", folder.file("in/link.wad")).expect("a link");
    fs::create_dir(folder.file("in/folder.wad")).expect("a folder");
    let pipe = Command::new("mkfifo").arg(folder.file("in/pipe.wad")).status().expect("a pipe");
    assert!(pipe.success());
    arrives(&folder, ".part.wad", &good());
    arrives(&folder, "good.wad", &good());
    let said = round(&folder, &[]);
    assert_eq!(said.status, 2, "{said:?}");
    let mut lines: Vec<&str> = said.err.lines().collect();
    lines.sort_unstable();
    let expected = [
        "meshpigeon: in/.part.wad: it is left: its name begins with a dot, as an unfinished upload's does",
        "meshpigeon: in/folder.wad: it is left: it is a folder",
        "meshpigeon: in/link.wad: it is left: it is a symbolic link",
        "meshpigeon: in/pipe.wad: it is left: it is a pipe",
    ];
    assert_eq!(lines, expected);
    assert_eq!(names(&folder, "in"), [".part.wad", "folder.wad", "link.wad", "pipe.wad"]);
    assert_eq!(names(&folder, "accepted"), ["good.wad"]);
}

#[test]
fn a_young_file_waits() {
    let folder = folders();
    arrives(&folder, "a.wad", &good());
    let old = std::time::UNIX_EPOCH;
    fs::File::options().write(true).open(folder.file("in/a.wad")).and_then(|it| it.set_modified(old)).expect("an old time");
    let arguments = [&ROUND[..8], &["--settle", "86400"]].concat();
    folder.run(&arguments).is(0, &["0 accepted, 0 refused, 0 held, 1 waiting"]);
    folder.run(&ROUND[..8]).is(0, &["0 accepted, 0 refused, 0 held, 1 waiting"]);
    assert_eq!(names(&folder, "in"), ["a.wad"]);
    assert_eq!(round(&folder, &[]).status, 0);
    assert_eq!(names(&folder, "accepted"), ["a.wad"]);
}

#[test]
fn a_file_that_is_too_long_is_refused_whole() {
    let folder = folders();
    let long: Vec<u8> = (0..(16_777_216 + 3_000_000_u32)).map(|it| (it >> 7) as u8).collect();
    arrives(&folder, "long.wad", &long);
    assert_eq!(round(&folder, &[]).status, 1);
    assert!(fs::read(folder.file("refused/long.wad")).expect("it is there") == long);
    assert!(
        text(&folder, "refused/long.wad.txt").contains("\nrefused 1: the file has 19,777,216 bytes, and at most 16,777,216 are")
    );
    arrives(&folder, "long.wad", &long);
    assert_eq!((round(&folder, &[]).status, names(&folder, "refused").len()), (1, 3));
    arrives(&folder, "long.wad", &[&long[..long.len() - 1], b"!"].concat());
    assert_eq!((round(&folder, &[]).status, names(&folder, "refused").len(), names(&folder, "in").len()), (1, 6, 0));
}

#[test]
fn the_journal_has_a_line_for_each_outcome() {
    let folder = folders();
    arrives(&folder, "a.wad", &good());
    arrives(&folder, "b.wad", &looping());
    fs::write(folder.file("journal"), b"{\"half a line").expect("a file");
    assert_eq!(round(&folder, &["--journal", "journal"]).status, 1);
    arrives(&folder, "a.wad", &good());
    let printed = round(&folder, &["--journal", "journal", "--json"]);
    let journal = text(&folder, "journal");
    let lines: Vec<&str> = journal.lines().collect();
    assert_eq!((lines.len(), lines[0], printed.out.trim_end()), (4, "{\"half a line", lines[3]));
    let keys: Vec<String> = object(lines[1]).into_iter().map(|(key, _)| key).collect();
    let expected = [
        "format", "file", "file_bytes", "length", "crc32", "base_length", "base_crc32", "outcome", "number", "map", "text",
        "time", "stored", "again",
    ];
    assert_eq!(keys, expected);
    assert_eq!(value(lines[1], "outcome"), said("accepted"));
    assert_eq!(
        ["outcome", "number", "map", "stored"].map(|key| value(lines[2], key)),
        [said("refused"), Value::Number(31), said("MAP01"), said("b.wad")]
    );
    assert!(lines[1].ends_with("\"again\":false}") && lines[3].ends_with("\"again\":true}"));
    let summary = folder.run(&["spool", "--summary", "journal"]);
    assert!(summary
        .out
        .contains(": 2 files: 1 accepted, 1 refused, 0 held; 1 came again\nb.wad: refused: MAP01: refused 31 at NODES: "));
    assert!(summary.out.ends_with("\n1 line of the journal cannot be read\n"), "{summary:?}");
    assert_eq!((summary.status, summary.err.as_str()), (0, ""));
    lines[1..].iter().for_each(|line| schema::holds(line));
    let json = folder.run(&["spool", "--summary", "journal", "--json"]).out;
    schema::holds(json.trim_end());
    assert_eq!((value(&json, "refused"), value(&json, "strange")), (Value::Number(1), Value::Number(1)));
    let said = folder.run(&["spool", "--summary", "none"]);
    assert_eq!((said.status, said.err.as_str()), (2, "meshpigeon: none: No such file or directory\n"));
}

#[test]
fn a_patch_is_judged_over_its_base() {
    let folder = folders();
    fs::write(folder.file("base.wad"), good()).expect("a base");
    arrives(&folder, "good.wad", &good());
    arrives(&folder, "loop.wad", &looping());
    arrives(&folder, "none.wad", &empty());
    assert_eq!(round(&folder, &["--base", "base.wad", "--journal", "journal"]).status, 1);
    assert_eq!((names(&folder, "accepted"), names(&folder, "in").len()), (vec!["good.wad".to_string()], 0));
    assert!(text(&folder, "refused/loop.wad.txt").contains("MAP01: refused 31 at NODES (of the patch): "));
    assert!(text(&folder, "held/none.wad.txt").contains("\nNo map of its own: every map is the base's.\n"));
    assert!(matches!(value(text(&folder, "journal").lines().next().expect("a line"), "base_crc32"), Value::Text(_)));
}

#[test]
fn without_a_good_base_nothing_is_judged() {
    let folder = folders();
    arrives(&folder, "good.wad", &good());
    fs::write(folder.file("bad.wad"), b"no WAD file at all").expect("a base");
    for (base, words) in
        [("none.wad", "the base cannot be read, and nothing is judged: "), ("bad.wad", "the base is refused 2: ")]
    {
        let said = round(&folder, &["--base", base]);
        assert!(said.err.starts_with(&format!("meshpigeon: {base}: {words}")), "{said:?}");
        assert_eq!((said.status, names(&folder, "in")), (2, vec!["good.wad".to_string()]));
    }
}

#[test]
fn folders_that_cannot_be_right_are_bad_usage() {
    let folder = folders();
    fs::create_dir(folder.file("in/below")).expect("a folder");
    arrives(&folder, "good.wad", &good());
    let spool = |accepted: &str, refused: &str, held: &str, journal: &str| {
        let said = folder.run(&[
            "spool", "in", "--accepted", accepted, "--refused", refused, "--held", held, "--settle", "0", "--journal", journal,
        ]);
        assert_eq!(names(&folder, "in"), ["below", "good.wad"]);
        (said.status, said.err)
    };
    let three = "meshpigeon: --accepted, --refused and --held must be three folders\n".to_string();
    assert_eq!(spool("accepted", "accepted", "held", "j"), (3, three.clone()));
    assert_eq!(spool("accepted", "refused", "./refused", "j"), (3, three));
    let below = "meshpigeon: --accepted, --refused and --held must not be in the folder of arrivals\n".to_string();
    assert_eq!(spool("in", "refused", "held", "j"), (3, below.clone()));
    assert_eq!(spool("accepted", "refused", "in/below", "j"), (3, below));
    let journal = "meshpigeon: the journal must not be in the folder of arrivals or among the accepted files\n".to_string();
    assert_eq!(spool("accepted", "refused", "held", "in/j"), (3, journal.clone()));
    assert_eq!(spool("accepted", "refused", "held", "accepted/j"), (3, journal));
    let said = folder.run(&["spool", "none", "--accepted", "accepted", "--refused", "refused", "--held", "held"]);
    assert_eq!((said.status, said.err.as_str()), (2, "meshpigeon: none: No such file or directory\n"));
}

#[test]
fn bad_usage_is_told() {
    let folder = folders();
    let needs = "spool needs IN --accepted DIR --refused DIR --held DIR, or --summary FILE";
    let cases: [(&[&str], &str); 12] = [
        (&["spool"], needs),
        (&["spool", "in"], needs),
        (&["spool", "in", "--accepted", "a", "--refused", "r"], needs),
        (&["spool", "--accepted", "a", "--refused", "r", "--held", "h"], needs),
        (&["spool", "--summary"], "--summary needs a value"),
        (&["spool", "in", "--summary", "j"], "spool takes --summary FILE alone"),
        (&["spool", "--summary", "j", "--settle", "1"], "spool takes --summary FILE alone"),
        (&["judge", "a.wad", "--settle", "1"], "judge does not take --settle"),
        (&["list", "a.wad", "--journal=j"], "list does not take --journal"),
        (&["spool", "in", "--map", "MAP01", "--accepted=a", "--refused=r", "--held=h"], "spool does not take --map"),
        (&["spool", "in", "--accepted=a", "--refused=r", "--held=h", "--held=h"], "--held is given twice"),
        (&["spool", "in", "--accepted=a", "--refused=r", "--held=h", "--base=-"], "spool reads the base in every round"),
    ];
    for (arguments, words) in cases {
        let said = folder.run(arguments);
        assert!(said.err.starts_with(&format!("meshpigeon: {words}")), "{said:?}");
        assert_eq!(said.status, 3);
    }
    for strange in ["", "x", "-1", "1.5", "+1", "99999999999", "99999999999999999999999"] {
        let said = folder.run(&[&ROUND[..8], &[&format!("--settle={strange}")]].concat());
        assert!(said.err.starts_with(&format!("meshpigeon: '{strange}' is no number of seconds for --settle")), "{said:?}");
    }
    let said = folder.run(&[&ROUND[..], &["--every", "0"]].concat());
    assert_eq!((said.status, said.err.starts_with("meshpigeon: --every needs at least 1 second")), (3, true));
    let said = folder.run(&[&ROUND[..], &["out"]].concat());
    assert!(said.err.contains("and 'out' is one word too many"), "{said:?}");
}
