//! A fault at every step that the spool takes: it fails there, or its process ends. Then it runs again without one.
//!
//! The step is counted in a process of its own, which is this test program with one test and an order in its environment.

use super::disk::Disk;
use super::{rounds, Folders};
use crate::report::Report;
use std::cell::{Cell, RefCell};
use std::collections::BTreeMap;
use std::env;
use std::fs;
use std::io::{self, ErrorKind};
use std::path::{Path, PathBuf};
use std::process::{self, Command, Stdio};
use std::time::Duration;

/// The variable that holds the order: what happens, at which step, and in which folder.
const ORDER: &str = "MESHPIGEON_TEST_FAULT";

/// What the process ends with: in the midst of its work, at its end after a fault, or at its end without one.
const ENDED: i32 = 77;
const STRUCK: i32 = 78;
const UNHURT: i32 = 79;

/// The longest run has fewer steps than this.
const MOST_STEPS: usize = 1_000;

/// What happens, and from which step on.
#[derive(Default)]
pub struct Faults {
    kind: Kind,
    at: usize,
    count: Cell<usize>,
    /// The names of all steps so far.
    steps: RefCell<Vec<&'static str>>,
    /// What somebody else does before the first step of a name.
    meanwhile: RefCell<Option<Meanwhile>>,
}

type Meanwhile = (&'static str, Box<dyn FnOnce()>);

#[derive(Clone, Copy, Debug, Default, PartialEq, Eq)]
enum Kind {
    #[default]
    None,
    /// The process ends before the step.
    End,
    /// The step fails as on a full disk.
    Full,
    /// The step fails as without rights, and as on a file system without links.
    Denied,
    /// This step and all behind it fail as on a full disk.
    FullFrom,
}

const KINDS: [(&str, Kind); 5] =
    [("none", Kind::None), ("end", Kind::End), ("full", Kind::Full), ("denied", Kind::Denied), ("full-from", Kind::FullFrom)];

impl Faults {
    /// Counts a step, and strikes if it is the one.
    pub fn strike(&self, name: &'static str) -> io::Result<()> {
        self.steps.borrow_mut().push(name);
        if let Some((_, act)) = self.meanwhile.borrow_mut().take_if(|(step, _)| *step == name) {
            act();
        }
        self.count.set(self.count.get() + 1);
        let (is_here, is_behind) = (self.count.get() == self.at, self.count.get() >= self.at);
        match self.kind {
            Kind::End if is_here => process::exit(ENDED),
            Kind::Full if is_here => Err(ErrorKind::StorageFull.into()),
            Kind::Denied if is_here => Err(ErrorKind::PermissionDenied.into()),
            Kind::FullFrom if is_behind => Err(ErrorKind::StorageFull.into()),
            _ => Ok(()),
        }
    }
}

/// The folders of a test.
fn folders(root: &Path) -> Folders {
    let [arrivals, accepted, refused, held] = ["in", "accepted", "refused", "held"].map(|name| root.join(name));
    let (base, every, journal) = (None, None, Some(root.join("journal")));
    Folders { arrivals, accepted, refused, held, base, settle: Duration::ZERO, every, journal }
}

/// The run in a process of its own. Without an order it does nothing.
#[test]
fn a_run_by_order() {
    let Ok(order) = env::var(ORDER) else { return };
    let mut parts = order.splitn(3, ' ');
    let mut next = || parts.next().expect("a part of the order");
    let (name, at, root) = (next(), next().parse().expect("a number"), next());
    let kind = KINDS.iter().find(|(it, _)| *it == name).expect("a kind").1;
    let disk = Disk { faults: Faults { kind, at, ..Faults::default() } };
    rounds(&folders(Path::new(root)), &disk, &mut Report::new(false, true));
    process::exit(if disk.faults.count.get() >= at { STRUCK } else { UNHURT });
}

/// Runs the spool in a process of its own.
fn run(kind: Kind, at: usize, root: &Path) -> i32 {
    let name = KINDS.iter().find(|(_, it)| *it == kind).expect("a kind").0;
    let mut command = Command::new(env::current_exe().expect("this program"));
    command.args(["--exact", "spool::faults::a_run_by_order", "--test-threads=1"]);
    command.env(ORDER, format!("{name} {at} {}", root.display()));
    command.stdin(Stdio::null()).stdout(Stdio::null()).stderr(Stdio::null());
    command.status().expect("it runs").code().expect("no signal")
}

/// A folder that goes away with the test.
struct Root(PathBuf);

impl Drop for Root {
    fn drop(&mut self) {
        let _ = fs::remove_dir_all(&self.0);
    }
}

/// A sample's bytes.
fn sample(name: &str) -> Vec<u8> {
    generator::samples().into_iter().find(|(it, _)| *it == name).expect("a sample").1
}

/// What arrives: each has other bytes.
const ARRIVALS: [&str; 7] =
    ["accepted.wad", "hexen.wad", "leftover.wad", "loop.wad", "picture.wad", "reference.wad", "shared.wad"];

/// The folders before a run. `hexen.wad` and `shared.wad` find their names taken, `leftover.wad` was put into its folder by a run that
/// ended, and `reference.wad` was about to be removed by one. A temporary file is left of a third.
fn set_up(name: &str) -> Root {
    let root = Root(env::temp_dir().join(format!("meshpigeon-faults-{}-{name}", process::id())));
    let put = |path: &str, bytes: &[u8]| {
        let path = root.0.join(path);
        fs::create_dir_all(path.parent().expect("a folder")).expect("a new folder");
        fs::write(path, bytes).expect("a file");
    };
    for name in ARRIVALS.iter().filter(|name| **name != "reference.wad") {
        put(&format!("in/{name}"), &sample(name));
    }
    put("in/.meshpigeon-leaving/reference.wad", &sample("reference.wad"));
    put("accepted/hexen.wad", b"another accepted file");
    put("accepted/leftover.wad", &sample("leftover.wad"));
    put("accepted/.meshpigeon-spool-1-0.tmp", b"half");
    put("refused/shared.wad", b"another refused file");
    fs::create_dir(root.0.join("held")).expect("a new folder");
    root
}

/// All files below a folder, by their names in it.
fn files(root: &Path) -> BTreeMap<PathBuf, Vec<u8>> {
    let (mut open, mut files) = (vec![root.to_path_buf()], BTreeMap::new());
    while let Some(folder) = open.pop() {
        for entry in fs::read_dir(folder).expect("a folder") {
            let path = entry.expect("an entry").path();
            if path.is_dir() {
                open.push(path);
            } else {
                let name = path.strip_prefix(root).expect("it is below").to_path_buf();
                files.insert(name, fs::read(path).expect("a file"));
            }
        }
    }
    files
}

/// Whether a name is a temporary one.
fn is_temporary(path: &Path) -> bool {
    path.file_name().is_some_and(|name| name.to_string_lossy().starts_with(".meshpigeon-spool-"))
}

/// All but the journal, which has times in it.
fn without_journal(mut files: BTreeMap<PathBuf, Vec<u8>>) -> BTreeMap<PathBuf, Vec<u8>> {
    files.remove(Path::new("journal"));
    files
}

/// How many whole lines a journal has for a file.
fn lines(journal: &str, name: &str) -> usize {
    let is_whole = |line: &&str| line.starts_with('{') && line.ends_with('}');
    journal.lines().filter(is_whole).filter(|line| line.contains(&format!("\"file\":\"{name}\""))).count()
}

/// After a run with a fault: each arrival is whole in one place or two, and what has a final name is whole.
fn holds_after_the_fault(files: &BTreeMap<PathBuf, Vec<u8>>, expected: &BTreeMap<PathBuf, Vec<u8>>, fault: &str) {
    for name in ARRIVALS {
        let bytes = sample(name);
        let places = files.iter().filter(|(path, it)| **it == bytes && !is_temporary(path)).count();
        assert!((1..=2).contains(&places), "{fault}: {name} is in {places} places");
    }
    let is_final = |path: &Path| !path.starts_with("in") && path != Path::new("journal") && !is_temporary(path);
    for (path, bytes) in files.iter().filter(|(path, _)| is_final(path)) {
        assert!(expected.get(path) == Some(bytes), "{fault}: {} is not as it should be", path.display());
    }
}

/// After the next run: everything is where it belongs, nothing is left, and the journal has a line for each arrival.
fn holds_after_the_restart(files: BTreeMap<PathBuf, Vec<u8>>, expected: &BTreeMap<PathBuf, Vec<u8>>, fault: &str) {
    let journal = String::from_utf8(files[Path::new("journal")].clone()).expect("it is text");
    assert!(ARRIVALS.iter().all(|name| (1..=2).contains(&lines(&journal, name))), "{fault}: {journal}");
    let halves = journal.lines().filter(|line| !(line.starts_with('{') && line.ends_with('}'))).count();
    assert!(halves <= 1 && journal.ends_with('\n'), "{fault}: {journal}");
    let files = without_journal(files);
    assert!(files == *expected, "{fault}: {:?} and not {:?}", files.keys(), expected.keys());
}

/// What a run without a fault makes.
fn expected(name: &str) -> BTreeMap<PathBuf, Vec<u8>> {
    let root = set_up(name);
    assert_eq!(run(Kind::None, MOST_STEPS, &root.0), UNHURT);
    let expected = without_journal(files(&root.0));
    let names: Vec<&str> = expected.keys().filter_map(|path| path.to_str()).filter(|path| path.ends_with("wad")).collect();
    let placed = [
        "accepted/accepted.wad", "accepted/hexen.wad", "accepted/leftover.wad", "held/hexen.wad", "held/picture.wad",
        "refused/loop.wad", "refused/reference.wad", "refused/shared.2.wad", "refused/shared.wad",
    ];
    assert_eq!((names, expected.len()), (placed.to_vec(), placed.len() + 2 * 5));
    expected
}

/// A fault at every step in turn, until there are no more steps.
fn at_every_step(kind: Kind) {
    let expected = expected(&format!("{kind:?}-expected"));
    for at in 1..MOST_STEPS {
        let (root, fault) = (set_up(&format!("{kind:?}")), format!("{kind:?} at step {at}"));
        let status = run(kind, at, &root.0);
        holds_after_the_fault(&files(&root.0), &expected, &fault);
        assert_eq!(run(Kind::None, MOST_STEPS, &root.0), UNHURT);
        holds_after_the_restart(files(&root.0), &expected, &fault);
        if status == UNHURT {
            assert!(at > 150, "only {at} steps");
            return;
        }
        assert_eq!(status, if kind == Kind::End { ENDED } else { STRUCK }, "{fault}");
    }
    panic!("there is no end to the steps");
}

/// The folders with one arrival, `new.wad`, and nothing else that is to be done.
fn with_one(name: &str) -> Root {
    let root = set_up(name);
    fs::remove_dir_all(root.0.join("in")).expect("it is there");
    fs::create_dir(root.0.join("in")).expect("a new folder");
    fs::write(root.0.join("in/new.wad"), sample("accepted.wad")).expect("a file");
    root
}

/// Runs the spool over one arrival, while somebody else does something before the first step of a name.
fn run_while(root: &Root, step: &'static str, act: impl FnOnce() + 'static) {
    let disk = Disk::default();
    disk.faults.meanwhile.replace(Some((step, Box::new(act))));
    rounds(&folders(&root.0), &disk, &mut Report::new(false, true));
    assert!(disk.faults.meanwhile.take().is_none(), "there was no {step}");
}

#[test]
fn an_arrival_that_is_exchanged_before_it_goes_stays() {
    for (name, step) in [("exchange", "append_to"), ("exchange-late", "rename")] {
        let root = with_one(name);
        let path = root.0.join("in/new.wad");
        run_while(&root, step, move || {
            fs::write(path.with_extension("other"), sample("hexen.wad")).expect("another file");
            fs::rename(path.with_extension("other"), path).expect("its name");
        });
        assert_eq!(fs::read(root.0.join("accepted/new.wad")).expect("it is there"), sample("accepted.wad"));
        assert_eq!(files(&root.0.join("in")).into_iter().collect::<Vec<_>>(), [(PathBuf::from("new.wad"), sample("hexen.wad"))]);
    }
}

#[test]
fn an_arrival_that_changes_while_it_is_read_waits() {
    let root = with_one("grows");
    let path = root.0.join("in/new.wad");
    run_while(&root, "read", move || fs::write(path, sample("loop.wad")).expect("it changes"));
    assert_eq!(files(&root.0.join("in")).into_values().collect::<Vec<_>>(), [sample("loop.wad")]);
    assert!(!root.0.join("accepted/new.wad").exists() && !root.0.join("refused/new.wad").exists());
}

#[test]
fn a_file_that_takes_the_name_meanwhile_stays() {
    let root = with_one("takes");
    let path = root.0.join("accepted/new.wad");
    run_while(&root, "link", move || fs::write(path, b"somebody else's").expect("a file"));
    assert_eq!(fs::read(root.0.join("accepted/new.wad")).expect("it stays"), b"somebody else's");
    assert_eq!(fs::read(root.0.join("held/new.wad")).expect("it is held"), sample("accepted.wad"));
}

#[test]
fn a_link_in_the_place_of_the_spools_folder_is_not_followed() {
    let root = with_one("link");
    std::os::unix::fs::symlink("../accepted", root.0.join("in/.meshpigeon-leaving")).expect("a link");
    rounds(&folders(&root.0), &Disk::default(), &mut Report::new(false, true));
    fs::remove_file(root.0.join("in/.meshpigeon-leaving")).expect("it is there");
    assert_eq!(files(&root.0.join("in")).into_values().collect::<Vec<_>>(), [sample("accepted.wad")]);
    assert!(root.0.join("accepted/leftover.wad").exists());
}

/// A power cut loses what is not flushed. So the bytes are flushed before they have their name, and the name is flushed before the arrival
/// goes.
#[test]
fn what_is_on_the_disk_comes_before_what_goes() {
    let (root, disk) = (with_one("order"), Disk::default());
    rounds(&folders(&root.0), &disk, &mut Report::new(false, true));
    let mut steps = disk.faults.steps.take();
    steps.retain(|step| *step != "next");
    let from = steps.iter().position(|step| *step == "read").expect("it is read");
    let read = ["read", "about"];
    let placed = ["look", "create", "lock", "write", "write", "flush", "link", "remove", "flush_folder"];
    let noted = ["append_to", "about", "write", "flush", "flush_folder"];
    let removed = ["look", "make_folder", "look", "look", "rename", "look", "remove", "flush_folder"];
    let expected = [&read[..], &placed, &noted, &removed].concat();
    assert_eq!(steps[from..], expected);
}

#[test]
fn the_process_may_end_at_every_step() {
    at_every_step(Kind::End);
}

#[test]
fn every_step_may_fail_on_a_full_disk() {
    at_every_step(Kind::Full);
}

#[test]
fn every_step_may_fail_without_rights_or_links() {
    at_every_step(Kind::Denied);
}

#[test]
fn the_disk_may_stay_full_from_any_step_on() {
    at_every_step(Kind::FullFrom);
}
