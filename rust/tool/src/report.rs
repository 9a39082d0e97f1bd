//! What the program says, and its exit status.

use crate::about::About;
use crate::count::counted;
use crate::finding::Finding;
use crate::input::{self, Digest, Fault};
use crate::name;
use crate::progress::Progress;
use crate::verdict::{Outcome, Source, Subject, Verdict, NOT_THERE};
use meshpigeon::PairFile;
use std::ffi::OsStr;
use std::io::{self, IsTerminal, Write};

/// Something was refused; in a comparison, something differs.
const REFUSED: u8 = 1;
const DIFFERS: u8 = 1;
/// Something could not be read or written.
const UNREAD: u8 = 2;
/// The command line was not understood.
pub const BAD_USAGE: u8 = 3;

/// Says something on standard error, if it is open.
pub fn complain(words: &str) {
    let _ = writeln!(io::stderr(), "meshpigeon: {words}");
}

/// Standard output, and what is known so far.
pub struct Report {
    json: bool,
    quiet: bool,
    colour: bool,
    output: io::Stdout,
    /// Whether standard output is a terminal.
    is_terminal: bool,
    broken: Option<io::Error>,
    status: u8,
    /// The status of a refusal.
    refused: u8,
    /// Whether a file without a map counts as a refusal.
    requires_map: bool,
    tally: Tally,
    progress: Progress,
}

/// How many of each outcome.
#[derive(Default)]
struct Tally {
    maps_accepted: usize,
    maps_refused: usize,
    maps_absent: usize,
    maps_unnamed: usize,
    texts_good: usize,
    files_refused: usize,
    files_without: usize,
    files_unread: usize,
}

impl Report {
    /// A report with nothing said. Colour is for terminals, and never with NO_COLOR, whatever it holds.
    pub fn new(json: bool, quiet: bool) -> Self {
        let output = io::stdout();
        let is_terminal = output.is_terminal();
        let colour = is_terminal && std::env::var_os("NO_COLOR").is_none();
        let (tally, progress) = (Tally::default(), Progress::new());
        let (broken, status, refused, requires_map) = (None, 0, REFUSED, false);
        Self { json, quiet, colour, output, is_terminal, broken, status, refused, requires_map, tally, progress }
    }

    /// Whether the answers are objects.
    pub fn is_json(&self) -> bool {
        self.json
    }

    /// From now on a refusal has the status of what cannot be read, as `diff` has it.
    pub fn compare(&mut self) {
        self.refused = UNREAD;
    }

    /// From now on a file without a map has the status of a refusal.
    pub fn require_map(&mut self) {
        self.requires_map = true;
    }

    /// Two maps are not the same, or one of them is not there.
    pub fn differs(&mut self) {
        self.worsen(DIFFERS);
    }

    /// A map whose geometry nobody judged: it may not pass for an accepted one.
    pub fn unjudged(&mut self) {
        self.worsen(self.refused);
    }

    /// Something could not be done, and was told before.
    pub fn unfinished(&mut self) {
        self.worsen(UNREAD);
    }

    /// Forgets what happened: a run that was told to end did so in good order.
    pub fn pardon(&mut self) {
        self.status = 0;
    }

    /// How many of how many files are done.
    pub fn progress(&mut self, done: usize, all: usize) {
        self.progress.show(done, all);
    }

    /// A verdict. A quiet report leaves out what was accepted, and what is no map where none is required.
    pub fn verdict(&mut self, verdict: &Verdict) {
        self.count(verdict);
        let is_dull = match verdict.outcome {
            Outcome::Accepted(..) => true,
            Outcome::NoMap(_) => !self.requires_map,
            _ => false,
        };
        if self.quiet && is_dull {
            return;
        }
        let line = if self.json { verdict.json() } else { verdict.line(self.colour) };
        self.text(&line);
    }

    /// A folder or a list without a file in it: there is nothing to judge.
    pub fn without(&mut self, file: &OsStr, words: &str) {
        let outcome = Outcome::NoMap(words.to_string());
        self.verdict(&Verdict::plain(About::unread(file), Subject::File, Source::File, outcome));
    }

    /// A file that there is nothing to ask about.
    pub fn fault(&mut self, file: &OsStr, fault: Fault) {
        self.fault_of(About::unread(file), Source::File, fault);
    }

    /// The same of a file that may be a patch, for its own sake or its base's.
    pub fn fault_of(&mut self, about: About, source: Source, fault: Fault) {
        match fault {
            Fault::Unread(error) => self.unread(about.file(), &input::words(&error)),
            Fault::Refused(refusal, found, digest) => {
                let about = about_refused(about, source, digest);
                self.verdict(&Verdict::plain(about, Subject::File, source, Outcome::Refused(refusal, found.map(Finding::File))));
            }
        }
    }

    /// Something that could not be read, told on standard error; among objects it is one too.
    pub fn unread(&mut self, file: &OsStr, words: &str) {
        self.tally.files_unread += 1;
        self.trouble(file, words);
        if self.json {
            let outcome = Outcome::Unread(words.to_string());
            let line = Verdict::plain(About::unread(file), Subject::File, Source::File, outcome).json();
            self.text(&line);
        }
    }

    /// Something that could not be done, told on standard error.
    pub fn trouble(&mut self, file: &OsStr, words: &str) {
        self.worsen(UNREAD);
        self.progress.hide();
        let name = if file.is_empty() { "a file without a name".to_string() } else { name::file(file) };
        complain(&format!("{name}: {words}"));
    }

    /// A command that was understood and must not be done.
    pub fn misused(&mut self, words: &str) {
        self.worsen(BAD_USAGE);
        complain(words);
    }

    /// An answer that is no refusal, as text or as an object.
    pub fn answer(&mut self, text: impl FnOnce() -> String, json: impl FnOnce() -> String) {
        if !self.quiet {
            let line = if self.json { json() } else { text() };
            self.text(&line);
        }
    }

    /// A line of standard output.
    pub fn text(&mut self, line: &str) {
        self.bytes(format!("{line}\n").as_bytes());
    }

    /// Bytes of standard output. After the first that cannot be written nothing more is tried, but judging goes on: the exit
    /// status speaks of everything that was asked.
    pub fn bytes(&mut self, bytes: &[u8]) {
        if self.is_terminal {
            self.progress.hide();
        }
        if self.broken.is_none() {
            self.broken = self.output.write_all(bytes).and_then(|()| self.output.flush()).err();
        }
    }

    /// One line over all, where there were several files or maps.
    pub fn summary(&mut self, files: usize) {
        self.progress.hide();
        let maps = self.tally.maps_accepted + self.tally.maps_refused + self.tally.maps_absent + self.tally.texts_good;
        if !self.json && !self.quiet && (files > 1 || maps + self.tally.maps_unnamed > 1) {
            self.text(&format!("{}: {}", counted(files, "file"), self.tally.words()));
        }
    }

    /// The exit status. A reader that has gone away is no fault; output that cannot be written otherwise is.
    pub fn finish(mut self) -> u8 {
        if let Some(error) = self.broken.take().filter(|it| it.kind() != io::ErrorKind::BrokenPipe) {
            self.trouble(OsStr::new("standard output"), &input::words(&error));
        }
        self.status
    }

    fn worsen(&mut self, status: u8) {
        self.status = self.status.max(status);
    }

    fn count(&mut self, verdict: &Verdict) {
        match (&verdict.outcome, &verdict.subject) {
            (Outcome::Accepted(..), _) => self.tally.maps_accepted += 1,
            (Outcome::Refused(..), Subject::File) => self.tally.files_refused += 1,
            (Outcome::Refused(refusal, _), _) if refusal.number == NOT_THERE => self.tally.maps_absent += 1,
            (Outcome::Refused(..), _) => self.tally.maps_refused += 1,
            (Outcome::Text(_), _) => self.tally.texts_good += 1,
            (Outcome::NoMap(_), _) => self.tally.files_without += 1,
            (Outcome::Unnamed(_), _) => self.tally.maps_unnamed += 1,
            (Outcome::Unread(_), _) => self.tally.files_unread += 1,
        }
        let is_bad = match verdict.outcome {
            Outcome::Refused(..) | Outcome::Unnamed(_) => true,
            Outcome::NoMap(_) => self.requires_map,
            _ => false,
        };
        if is_bad {
            self.worsen(self.refused);
        }
    }
}

/// A refused file's bytes are its own, or its base's.
fn about_refused(about: About, source: Source, digest: Digest) -> About {
    match source {
        Source::Pair(Some(PairFile::Base)) => about.over(digest),
        _ => About::of(about.file(), digest),
    }
}

impl Tally {
    fn words(&self) -> String {
        let parts = [
            (self.maps_accepted, "map", "accepted"),
            (self.maps_refused, "map", "refused"),
            (self.maps_absent, "map", "not there"),
            (self.maps_unnamed, "map", "not judged"),
            (self.texts_good, "text map", "of good grammar"),
            (self.files_refused, "file", "refused"),
            (self.files_without, "file", "without a map"),
            (self.files_unread, "file", "not read"),
        ];
        let said = parts.iter().filter(|(count, ..)| *count > 0);
        said.map(|(count, thing, what)| format!("{} {what}", counted(*count, thing))).collect::<Vec<_>>().join(", ")
    }
}
