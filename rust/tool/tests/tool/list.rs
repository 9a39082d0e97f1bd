//! `list`.

use crate::json_reader::{object, Value};
use crate::support::{good, lumps, Folder};
use generator::{any_plan, Rng};

#[test]
fn each_entry_is_a_line() {
    let wad = lumps(&[(b"FIRST\0\0\0", vec![1, 2, 3]), (b"EMPTY\0\0\0", vec![]), (b"A\\B[C]-_", vec![4])]);
    let lines =
        ["   0  FIRST           12         3", "   1  EMPTY            0         0", "   2  A\\B[C]-_        15         1"];
    Folder::with("a.wad", &wad).run(&["list", "a.wad"]).is(0, &lines);
}

#[test]
fn a_name_is_shown_as_what_precedes_its_zero() {
    let wad = lumps(&[(b"FIRST\0\x1B[", vec![1, 2, 3]), (b"A\0B\0C\0D\n", vec![]), (b"EIGHTCHR", vec![4])]);
    let folder = Folder::with("a.wad", &wad);
    let lines =
        ["   0  FIRST           12         3", "   1  A                0         0", "   2  EIGHTCHR        15         1"];
    folder.run(&["list", "a.wad"]).is(0, &lines);
    let lines = [("FIRST", 12, 3), ("A", 0, 0), ("EIGHTCHR", 15, 1)];
    let lines = [0, 1, 2].map(|at| {
        let (name, offset, size) = lines[at];
        format!(r#"{{"format":1,"file":"a.wad","file_bytes":null,"entry":{at},"name":"{name}","offset":{offset},"size":{size}}}"#)
    });
    folder.run(&["list", "a.wad", "--json"]).is(0, &[&lines[0], &lines[1], &lines[2]]);
}

#[test]
fn an_empty_directory_lists_nothing() {
    Folder::with("a.wad", &lumps(&[])).run(&["list", "a.wad"]).is(0, &[]);
}

#[test]
fn a_bad_directory_is_refused() {
    let mut wad = good();
    wad[0] = b'X';
    let said = Folder::with("a.wad", &wad).run(&["list", "a.wad"]);
    assert!(said.out.starts_with("a.wad: refused 2: "), "{said:?}");
    assert_eq!(said.status, 1);
}

#[test]
fn the_largest_directory_is_listed() {
    let said = Folder::with("a.wad", &generator::directory_of(4096)).run(&["list", "a.wad"]);
    assert_eq!((said.status, said.out.lines().count()), (0, 4096));
    assert!(said.out.lines().last().is_some_and(|line| line.starts_with("4095  LUMP4095")), "{said:?}");
}

/// Entry number, offset and size of a listed row.
fn row(line: &str) -> [Value; 3] {
    let mut members = object(line);
    let mut take = |key: &str| members.swap_remove(members.iter().position(|it| it.0 == key).expect("the key")).1;
    ["entry", "offset", "size"].map(&mut take)
}

#[test]
fn each_row_is_what_the_library_answers_for_the_entry() {
    for seed in 0..40 {
        let wad = any_plan(&mut Rng::new(seed)).0.wad();
        let said = Folder::with("a.wad", &wad).run(&["list", "a.wad", "--json"]);
        let count = meshpigeon::directory(&wad).expect("a good directory").count;
        let answered = (0..count).map(|number| {
            let (offset, size) = meshpigeon::entry(&wad, number).expect("an entry");
            [number, offset, size].map(|it| Value::Number(it as i64))
        });
        assert_eq!((said.out.lines().map(row).collect::<Vec<_>>(), said.status), (answered.collect(), 0), "seed {seed}");
    }
}
