//! `spool`: arrivals with names that scripts stumble over.

use crate::spool::{arrives, folders, looping, names, round};
use crate::support::good;
use std::ffi::OsStr;
use std::fs;
use std::os::unix::ffi::OsStrExt;

#[test]
fn strange_names_are_names() {
    let long = [vec![b'n'; 251], b".wad".to_vec()].concat();
    let wide = "é".repeat(127).into_bytes();
    let strange: [&[u8]; 10] =
        [b"a\nb.wad", b"-rf", b"--accepted", b"a b\t.wad", b"\xff\xfe.wad", b"*.wad", b"$(id)", b"a\\nb.wad", &long, &wide];
    let folder = folders();
    for name in strange {
        arrives(&folder, OsStr::from_bytes(name), &good());
    }
    let said = round(&folder, &["--journal", "journal"]);
    assert_eq!((said.status, said.err.as_str(), said.out.lines().count()), (0, "", strange.len() + 1), "{said:?}");
    for name in strange {
        assert_eq!(fs::read(folder.file("accepted").join(OsStr::from_bytes(name))).expect("it is there"), good(), "{name:?}");
        arrives(&folder, OsStr::from_bytes(name), &looping());
    }
    let said = round(&folder, &["--journal", "journal"]);
    assert_eq!((said.status, said.err.as_str(), names(&folder, "in").len()), (1, "", 0), "{said:?}");
    for name in &strange[..8] {
        let name = folder.file("refused").join(OsStr::from_bytes(name));
        assert_eq!(fs::read(&name).expect("it is there"), looping(), "{name:?}");
        let beside = |ending: &str| [name.as_os_str().as_bytes(), ending.as_bytes()].concat();
        let text = fs::read(OsStr::from_bytes(&beside(".txt"))).expect("a text");
        assert!(text.starts_with(b"Your file ") && text.iter().filter(|byte| **byte == b'\n').count() == 7, "{name:?}");
        assert!(fs::read(OsStr::from_bytes(&beside(".json"))).expect("an object").ends_with(b"}\n"));
    }
    assert_eq!(names(&folder, "refused").len(), 3 * strange.len());
    let short = [vec![b'n'; 246], b".wad".to_vec()].concat();
    assert_eq!(fs::read(folder.file("refused").join(OsStr::from_bytes(&short))).expect("it is there"), looping());
    let journal = fs::read_to_string(folder.file("journal")).expect("it is UTF-8");
    assert_eq!(journal.lines().count(), 2 * strange.len());
    let summary = folder.run(&["spool", "--summary", "journal"]);
    assert_eq!(summary.out.lines().count(), 1 + strange.len(), "{summary:?}");
    assert!(summary.out.contains(": 20 files: 10 accepted, 10 refused, 0 held\n"), "{summary:?}");
}

#[test]
fn two_long_names_that_are_cut_alike_get_numbers() {
    let folder = folders();
    let name = |last: &str| format!("{}{last}", "n".repeat(254));
    arrives(&folder, name("a"), &looping());
    arrives(&folder, name("b"), &[looping(), vec![0]].concat());
    assert_eq!(round(&folder, &[]).status, 1);
    assert_eq!(names(&folder, "refused").len(), 6);
    assert!(names(&folder, "refused").contains(&format!("{}.2", "n".repeat(248))));
}
