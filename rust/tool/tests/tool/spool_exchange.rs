//! `spool` beside a writer that keeps exchanging good and bad bytes under the same names.

use crate::spool::{arrives, folders, looping, names, round};
use crate::support::{good, Folder};
use std::collections::HashSet;
use std::fs;
use std::ops::Range;
use std::sync::atomic::{AtomicBool, Ordering};
use std::thread;

/// So many names are written to again and again, some at a time: so each changes while it is looked at.
const FILES: usize = 500;
const AT_A_TIME: usize = 25;

/// Exchanges the bytes under some names in turn, until it is told to stop. No two files have the same bytes. What each name had last.
fn exchange(folder: &Folder, names: Range<usize>, stop: &AtomicBool) -> Vec<(usize, Vec<u8>)> {
    let (kinds, mut last, mut turn) = ([good(), looping()], Vec::new(), 0_usize);
    while !stop.load(Ordering::Relaxed) {
        last.clear();
        for number in names.clone() {
            let bytes = [&kinds[(turn + number) % 2][..], &turn.to_le_bytes(), &number.to_le_bytes()].concat();
            let name = format!("{number}.wad");
            if is_written_in_place(number) {
                arrives(folder, &name, &bytes);
            } else {
                arrives(folder, ".new", &bytes);
                fs::rename(folder.file("in/.new"), folder.file("in").join(&name)).expect("another name");
            }
            last.push((number, bytes));
        }
        turn += 1;
    }
    last
}

/// Whether a name's file is written anew again and again. Other names get another file each time.
fn is_written_in_place(number: usize) -> bool {
    number.is_multiple_of(3)
}

/// All files of a folder that are no texts.
fn files(folder: &Folder, name: &str) -> Vec<Vec<u8>> {
    let names = names(folder, name).into_iter().filter(|it| it.ends_with(".wad"));
    names.map(|it| fs::read(folder.file(name).join(it)).expect("a file")).collect()
}

#[test]
fn nothing_is_accepted_that_would_be_refused() {
    let (folder, stop) = (folders(), AtomicBool::new(false));
    let mut last = Vec::new();
    for first in (0..FILES).step_by(AT_A_TIME) {
        stop.store(false, Ordering::Relaxed);
        last.extend(thread::scope(|scope| {
            let writer = scope.spawn(|| exchange(&folder, first..first + AT_A_TIME, &stop));
            while names(&folder, "in").len() < AT_A_TIME {
                thread::yield_now();
            }
            let said = round(&folder, &["--quiet"]);
            stop.store(true, Ordering::Relaxed);
            assert!(said.status <= 1, "{said:?}");
            writer.join().expect("the writer ends")
        }));
    }
    let said = round(&folder, &["--quiet"]);
    assert!(said.status <= 1, "{said:?}");
    assert_eq!(names(&folder, "in"), [""; 0]);
    folder.run(&["judge", "--quiet", "--require-map", "accepted"]).is(0, &[]);
    let [accepted, refused, held] = ["accepted", "refused", "held"].map(|name| files(&folder, name));
    assert!(accepted.len() > 50 && refused.len() > 50, "{} accepted, {} refused", accepted.len(), refused.len());
    let judged = folder.run(&["judge", "--quiet", "refused"]);
    assert_eq!(judged.out.lines().count(), refused.len(), "each of them is refused");
    let kept: HashSet<Vec<u8>> = accepted.into_iter().chain(refused).chain(held).collect();
    assert_eq!(last.len(), FILES);
    for (number, bytes) in last.iter().filter(|(number, _)| !is_written_in_place(*number)) {
        assert!(kept.contains(bytes), "the last {number}.wad is lost");
    }
}
