//! `spool`, killed at random times.

use crate::spool::{arrives, empty, folders, looping, names, round, FOLDERS, ROUND};
use crate::support::{good, Folder};
use std::collections::{BTreeMap, HashSet};
use std::fs;
use std::path::Path;
use std::process::Stdio;
use std::thread;
use std::time::Duration;

/// So often it is killed.
const KILLS: usize = 200;

/// So many files arrive before each run, if fewer are there.
const ARRIVALS: usize = 12;

/// A run is killed after so many microseconds at first, and up to so many more. A file waits until its time is 20 ms old.
const FIRST: u64 = 18_000;
const SPREAD: u64 = 12_000;

/// Numbers that look random, the same in each run.
struct Dice(u64);

impl Dice {
    fn roll(&mut self, sides: u64) -> u64 {
        self.0 = self.0.wrapping_mul(6_364_136_223_846_793_005).wrapping_add(1_442_695_040_888_963_407);
        (self.0 >> 33) % sides
    }
}

/// A file of each kind in turn; each has a number behind its end, so that no two have the same bytes.
fn file(number: usize) -> (String, Vec<u8>) {
    let bytes = [good(), looping(), empty()][number % 3].clone();
    (format!("{number}.wad"), [bytes, number.to_le_bytes().to_vec()].concat())
}

/// All files in a folder and those in the folder through which arrivals leave.
fn files(folder: &Path) -> Vec<(String, Vec<u8>)> {
    let mut files = Vec::new();
    for entry in fs::read_dir(folder).expect("a folder") {
        let path = entry.expect("an entry").path();
        match path.is_dir() {
            true => files.extend(self::files(&path)),
            false => {
                files.push((path.file_name().expect("a name").to_string_lossy().into_owned(), fs::read(&path).expect("a file")))
            }
        }
    }
    files
}

/// Asserts that each arrival is whole in one place or two, and that what has a final name is whole.
fn holds(folder: &Folder, sent: &BTreeMap<String, Vec<u8>>) {
    let mut places: BTreeMap<String, usize> = BTreeMap::new();
    for it in FOLDERS {
        for (name, bytes) in files(&folder.file(it)) {
            let is_text = [".txt", ".json"].iter().any(|ending| name.ends_with(ending));
            if name.starts_with(".meshpigeon-spool-") {
                continue;
            }
            if is_text {
                assert!(bytes.ends_with(b"\n"), "{it}/{name} is not whole");
                continue;
            }
            assert!(sent.get(&name) == Some(&bytes), "{it}/{name} is not whole");
            *places.entry(name).or_default() += 1;
        }
    }
    assert!(sent.keys().all(|name| (1..=2).contains(places.get(name).unwrap_or(&0))), "{places:?}");
}

#[test]
fn nothing_is_lost_by_two_hundred_kills() {
    let (folder, mut dice, mut sent) = (folders(), Dice(39), BTreeMap::new());
    let (mut delay, mut cut) = (FIRST, 0);
    for kill in 0..KILLS {
        while names(&folder, "in").len() < ARRIVALS {
            let (name, bytes) = file(sent.len());
            arrives(&folder, &name, &bytes);
            sent.insert(name, bytes);
        }
        let mut command = folder.command(&[&ROUND[..], &["--quiet", "--journal", "journal"]].concat());
        let mut running = command.stdout(Stdio::null()).stderr(Stdio::null()).spawn().expect("it runs");
        let before = names(&folder, "in").len();
        thread::sleep(Duration::from_micros(delay + dice.roll(SPREAD)));
        running.kill().expect("it is killed");
        let is_finished = running.wait().expect("it ends").code().is_some();
        // A run that was done is killed sooner the next time, and one that had not begun later.
        match (is_finished, names(&folder, "in").len() < before) {
            (true, _) => delay -= delay / 10,
            (false, false) => delay += delay / 10 + 100,
            (false, true) => cut += 1,
        }
        if kill % 10 == 9 {
            holds(&folder, &sent);
        }
    }
    assert!(cut > 0, "no run was cut off in the midst of its work");
    // One file of each kind more, so that the last round has something to refuse, whatever the killed ones left.
    for _ in 0..3 {
        let (name, bytes) = file(sent.len());
        arrives(&folder, &name, &bytes);
        sent.insert(name, bytes);
    }
    let said = round(&folder, &["--quiet", "--journal", "journal"]);
    assert_eq!((said.status, said.err.as_str(), names(&folder, "in").len()), (1, "", 0));
    holds(&folder, &sent);
    let left: Vec<String> = FOLDERS.iter().flat_map(|it| names(&folder, it)).filter(|name| name.starts_with('.')).collect();
    assert_eq!(left, [""; 0]);
    let journal = fs::read_to_string(folder.file("journal")).expect("a journal");
    let noted: HashSet<&str> = journal.lines().filter_map(|line| line.split("\"file\":\"").nth(1)?.split('"').next()).collect();
    assert!(sent.keys().all(|name| noted.contains(name.as_str())));
}
