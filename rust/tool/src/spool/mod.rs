//! `spool`: judges every file that arrives in a folder, and puts it where it belongs, with nobody to watch it.
//!
//! At every moment each arrival is whole in one place or in two. It is read once, and the bytes that were judged are the bytes that are
//! put into the folder: to a temporary file, to the disk, under the final name. Then comes the line of the journal, and then the arrival
//! goes, unless it changed meanwhile. Whatever fails or ends in between, the next round begins again with the arrival.

mod arrival;
mod disk;
#[cfg(test)]
mod faults;
mod journal;
pub mod options;
mod outcome;
mod place;
mod signals;
mod summary;

use crate::input::{self, Fault, MOST_BYTES};
use crate::name;
use crate::pair::{Base, Lent};
use crate::report::{self, Report};
use arrival::{Arrival, Arrivals, Read};
use disk::{Disk, Seen};
use outcome::{Kind, Outcome};
use place::{Content, Place, Placed};
use std::collections::{HashMap, HashSet};
use std::ffi::{OsStr, OsString};
use std::fs::{self, File, ReadDir};
use std::io;
use std::os::unix::ffi::OsStrExt;
use std::path::{Path, PathBuf};
use std::thread;
use std::time::{Duration, Instant};

/// What is to be done.
#[derive(Debug, PartialEq, Eq)]
pub enum Task {
    /// Say what a journal holds of the last night.
    Summary(PathBuf),
    /// Judge what arrives.
    Rounds(Folders),
}

/// The folders, and how they are worked on.
#[derive(Debug, PartialEq, Eq)]
pub struct Folders {
    /// Where files arrive.
    pub arrivals: PathBuf,
    /// Where accepted files go.
    pub accepted: PathBuf,
    /// Where refused files go.
    pub refused: PathBuf,
    /// Where files go about which a person decides.
    pub held: PathBuf,
    /// The file that each arrival is a patch over, if they are.
    pub base: Option<OsString>,
    /// So long a file must have been left alone.
    pub settle: Duration,
    /// So long after the beginning of a round comes the next, if there is one.
    pub every: Option<Duration>,
    /// Where each outcome is noted, if anywhere.
    pub journal: Option<PathBuf>,
}

/// So many names are read and sorted at a time, whatever arrives.
const MOST_NAMES: usize = 1_024;

/// So many complaints and arrivals are remembered.
const MOST_SAID: usize = 10_000;

/// So often a waiting program looks for a signal.
const GLANCE: Duration = Duration::from_millis(200);

/// Does what is asked for.
pub fn run(task: &Task, report: &mut Report) {
    match task {
        Task::Summary(journal) => summary::run(journal, report),
        Task::Rounds(folders) => rounds(folders, &Disk::default(), report),
    }
}

/// One round, or a round every so many seconds until a signal comes.
fn rounds(folders: &Folders, disk: &Disk, report: &mut Report) {
    if folders.every.is_some() {
        signals::block();
    }
    if let Some(words) = misplaced(folders) {
        return report.misused(&words);
    }
    let lock = match lock(disk, &folders.arrivals) {
        Ok(lock) => lock,
        Err(words) => return report.trouble(folders.arrivals.as_os_str(), &words),
    };
    let mut spool = Spool::new(folders, disk);
    let Some(every) = folders.every else {
        spool.round(report, || false);
        drop(lock);
        return;
    };
    while !signals::is_pending() {
        let began = Instant::now();
        spool.round(report, signals::is_pending);
        while began.elapsed() < every && !signals::is_pending() {
            thread::sleep(GLANCE.min(every.saturating_sub(began.elapsed())));
        }
    }
    report.pardon();
}

/// Why these folders cannot be worked with: two of them are one, or one is among the arrivals.
fn misplaced(folders: &Folders) -> Option<String> {
    let real = |path: &Path| fs::canonicalize(path).ok();
    let arrivals = real(&folders.arrivals)?;
    let targets = [&folders.accepted, &folders.refused, &folders.held].map(|folder| real(folder));
    let journal = folders.journal.as_ref().and_then(|journal| {
        let folder = journal.parent().filter(|folder| *folder != Path::new("")).unwrap_or(Path::new("."));
        real(journal).and_then(|journal| journal.parent().map(Path::to_path_buf)).or_else(|| real(folder))
    });
    let is_below = |folder: &Option<PathBuf>| folder.as_ref().is_some_and(|folder| folder.starts_with(&arrivals));
    let [accepted, refused, held] = &targets;
    let is_twice =
        [(accepted, refused), (accepted, held), (refused, held)].iter().any(|(one, other)| one.is_some() && one == other);
    if is_twice {
        Some("--accepted, --refused and --held must be three folders".to_string())
    } else if targets.iter().any(is_below) {
        Some("--accepted, --refused and --held must not be in the folder of arrivals".to_string())
    } else if journal.is_some() && (is_below(&journal) || journal == *accepted) {
        Some("the journal must not be in the folder of arrivals or among the accepted files".to_string())
    } else {
        None
    }
}

/// Locks the folder of arrivals. The system releases the lock when the process ends, however it ends.
fn lock(disk: &Disk, folder: &Path) -> Result<File, String> {
    let opened = File::open(folder).map_err(|error| input::words(&error))?;
    match disk.lock(&opened) {
        Ok(true) => Ok(opened),
        Ok(false) => Err("another spool is at work on this folder".to_string()),
        Err(error) => Err(format!("it cannot be locked: {}", input::words(&error))),
    }
}

/// How many of each.
#[derive(Default)]
struct Tally {
    accepted: usize,
    refused: usize,
    held: usize,
    waiting: usize,
}

impl Tally {
    fn words(&self) -> String {
        let Self { accepted, refused, held, waiting } = self;
        format!("{accepted} accepted, {refused} refused, {held} held, {waiting} waiting")
    }
}

/// What could not be done for an arrival: what it is about, and why.
struct Trouble(PathBuf, String);

impl Trouble {
    fn of(path: &Path, doing: &str, error: &io::Error) -> Self {
        Self(path.to_path_buf(), format!("{doing}: {}", input::words(error)))
    }
}

/// The work over several rounds.
struct Spool<'a> {
    folders: &'a Folders,
    disk: &'a Disk,
    arrivals: Arrivals<'a>,
    place: Place<'a>,
    lent: Lent,
    /// What was complained about in the last round and in this one: it is said once as long as it lasts.
    said: [HashSet<(PathBuf, String)>; 2],
    /// Whether the arrivals that an earlier run was about to remove are back.
    recovered: bool,
    /// Whether the journal has a line of this run.
    noted: bool,
    /// Arrivals that are where they belong and could not be removed. They are not judged again unless they change.
    stuck: HashMap<OsString, Seen>,
}

impl<'a> Spool<'a> {
    fn new(folders: &'a Folders, disk: &'a Disk) -> Self {
        let arrivals = Arrivals::new(disk, &folders.arrivals, folders.settle);
        let (place, lent) = (Place::new(disk), Lent::new());
        Self {
            folders,
            disk,
            arrivals,
            place,
            lent,
            said: Default::default(),
            recovered: false,
            noted: false,
            stuck: HashMap::new(),
        }
    }

    /// Looks at every arrival once, until it is told to stop.
    fn round(&mut self, report: &mut Report, stop: impl Fn() -> bool) {
        self.said.swap(0, 1);
        self.said[1].clear();
        let mut tally = Tally::default();
        if let Err(Trouble(path, words)) = self.work(&mut tally, report, stop) {
            self.complain(&path, &words, report);
        }
        let is_dull = self.folders.every.is_some() && tally.accepted + tally.refused + tally.held == 0;
        if !is_dull && !report.is_json() {
            report.answer(|| tally.words(), String::new);
        }
    }

    fn work(&mut self, tally: &mut Tally, report: &mut Report, stop: impl Fn() -> bool) -> Result<(), Trouble> {
        let Folders { arrivals, accepted, refused, held, .. } = self.folders;
        for (folder, error) in self.place.sweep([accepted, refused, held]) {
            self.complain(&folder, &format!("it cannot be looked through: {}", input::words(&error)), report);
        }
        let unread = |error: &io::Error| Trouble::of(arrivals, "it cannot be looked through", error);
        if !self.recovered {
            self.arrivals.recover(&self.place).map_err(|error| unread(&error))?;
            self.recovered = true;
        }
        let base = self.base()?;
        let mut entries = self.disk.entries(arrivals).map_err(|error| unread(&error))?;
        loop {
            let names = self.some_names(&mut entries).map_err(|error| unread(&error))?;
            if names.is_empty() {
                break;
            }
            for name in names.iter().filter(|name| !Arrivals::is_own(name)) {
                if stop() {
                    return Ok(());
                }
                if let Err(Trouble(path, words)) = self.one(name, &base, tally, report) {
                    self.complain(&path, &words, report);
                }
            }
        }
        if tally.accepted + tally.refused + tally.held > 0 {
            self.disk.flush_folder(arrivals).map_err(|error| Trouble::of(arrivals, "it is not flushed to the disk", &error))?;
        }
        Ok(())
    }

    /// The next names of a folder, sorted. None are left behind the last.
    fn some_names(&self, entries: &mut ReadDir) -> io::Result<Vec<OsString>> {
        let mut names = Vec::new();
        while names.len() < MOST_NAMES {
            match self.disk.next(entries)? {
                Some(name) => names.push(name),
                None => break,
            }
        }
        names.sort();
        Ok(names)
    }

    /// Reads the base. One that is refused is no fault of those who send files: nothing is judged until it is good.
    fn base(&self) -> Result<Base, Trouble> {
        let Some(given) = &self.folders.base else { return Ok(Base::None) };
        let path = Path::new(given);
        match Base::open(Some(given)) {
            Ok(Base::Refused(refusal, ..)) => {
                Err(Trouble(path.to_path_buf(), format!("the base is refused {}: {refusal}. Nothing is judged.", refusal.number)))
            }
            Ok(base) => Ok(base),
            Err(Fault::Unread(error)) => Err(Trouble::of(path, "the base cannot be read, and nothing is judged", &error)),
            Err(Fault::Refused(refusal, ..)) => Err(Trouble(path.to_path_buf(), format!("the base is refused: {refusal}"))),
        }
    }

    /// Judges one arrival and puts it where it belongs.
    fn one(&mut self, name: &OsStr, base: &Base, tally: &mut Tally, report: &mut Report) -> Result<(), Trouble> {
        let path = self.folders.arrivals.join(name);
        if name.as_bytes().starts_with(b".") {
            self.note(&path, "it is left: its name begins with a dot, as an unfinished upload's does");
            tally.waiting += 1;
            return Ok(());
        }
        if let Some(seen) = self.stuck.remove(name) {
            if self.remove(name, &seen)? {
                return Ok(());
            }
        }
        let Read { file, seen, bytes } = match self.arrivals.read(name) {
            Ok(Arrival::Read(read)) => read,
            Ok(Arrival::Gone) => return Ok(()),
            Ok(Arrival::Left(why)) => return Err(Trouble(path, why.to_string())),
            Ok(Arrival::Waits) => {
                tally.waiting += 1;
                return Ok(());
            }
            Err(error) => return Err(Trouble::of(&path, "it is left: it cannot be read", &error)),
        };
        let (outcome, bytes) = Outcome::of(name, bytes, seen.length(), base, &mut self.lent);
        let content = match seen.length() > MOST_BYTES {
            true => Content::with_rest(&bytes, &file, seen.length()),
            false => Content::of(&bytes),
        };
        let (outcome, folder, placed) = self.put(name, outcome, content)?;
        let time = journal::moment(journal::now());
        let line = outcome.line(&time, &name::file(&placed.name), placed.again);
        if let Some(journal) = &self.folders.journal {
            let unwritten = |error: &io::Error| Trouble::of(journal, "it cannot be written, and what arrives stays", error);
            journal::append(self.disk, journal, &line, !self.noted).map_err(|error| unwritten(&error))?;
            self.noted = true;
        }
        tell(&outcome, &folder.join(&placed.name), name, &line, report);
        match outcome.kind {
            Kind::Accepted => tally.accepted += 1,
            Kind::Refused => tally.refused += 1,
            Kind::Held => tally.held += 1,
        }
        self.remove(name, &seen).map(|_| ())
    }

    /// Removes an arrival that is where it belongs. False if it changed, and stays.
    fn remove(&mut self, name: &OsStr, seen: &Seen) -> Result<bool, Trouble> {
        self.arrivals.remove(name, seen, &self.place).map_err(|error| {
            self.recovered = false;
            if self.stuck.len() < MOST_SAID {
                self.stuck.insert(name.to_os_string(), *seen);
            }
            Trouble::of(&self.folders.arrivals.join(name), "it was dealt with, and cannot be removed", &error)
        })
    }

    /// Puts an arrival into the folder of its outcome. An accepted one whose name is taken is held.
    fn put(&self, name: &OsStr, outcome: Outcome, content: Content) -> Result<(Outcome, &'a Path, Placed), Trouble> {
        let folders = self.folders;
        let unwritten = |folder: &Path, error: &io::Error| {
            Trouble::of(folder, "it cannot be written, and what belongs there stays where it is", error)
        };
        let mut outcome = outcome;
        if outcome.kind == Kind::Accepted {
            let placed = self.place.alone(&folders.accepted, name, content);
            match placed.map_err(|error| unwritten(&folders.accepted, &error))? {
                Some(placed) => return Ok((outcome, &folders.accepted, placed)),
                None => outcome = outcome.taken(),
            }
        }
        let folder = if outcome.kind == Kind::Refused { &folders.refused } else { &folders.held };
        let placed = self.place.explained(folder, name, content, &outcome.text(), &outcome.json());
        let placed = placed.map_err(|error| unwritten(folder, &error))?;
        Ok((outcome, folder, placed))
    }

    /// Says what could not be done, unless it was said before.
    fn complain(&mut self, path: &Path, words: &str, report: &mut Report) {
        report.unfinished();
        if self.is_new(path, words) {
            report.trouble(path.as_os_str(), words);
        }
    }

    /// Says what is left where it is for good reason, unless it was said before.
    fn note(&mut self, path: &Path, words: &str) {
        if self.is_new(path, words) {
            report::complain(&format!("{}: {words}", name::file(path.as_os_str())));
        }
    }

    fn is_new(&mut self, path: &Path, words: &str) -> bool {
        let key = (path.to_path_buf(), words.to_string());
        let is_new = !self.said.iter().any(|said| said.contains(&key));
        if self.said[1].len() < MOST_SAID {
            self.said[1].insert(key);
        }
        is_new
    }
}

/// Tells of an outcome. A quiet report leaves out what was accepted.
fn tell(outcome: &Outcome, stored: &Path, name: &OsStr, line: &str, report: &mut Report) {
    let text = || {
        let stored = name::file(stored.as_os_str());
        format!("{}: {}, in {stored}: {}", name::file(name), outcome.kind.name(), outcome.sentence())
    };
    if outcome.kind == Kind::Accepted {
        return report.answer(text, || line.to_string());
    }
    report.unjudged();
    let line = if report.is_json() { line.to_string() } else { text() };
    report.text(&line);
}
