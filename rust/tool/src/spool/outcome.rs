//! What becomes of an arrival, and the words for it. The sentences are those of `judge`.

use crate::about::About;
use crate::count::{counted, grouped};
use crate::finding::Finding;
use crate::further::Further;
use crate::input::{self, Digest, Fault, MOST_BYTES};
use crate::json::Object;
use crate::judge;
use crate::pair::{Base, Lent, Opened};
use crate::verdict::{self, Source, Subject, Verdict};
use crate::wad::Wad;
use meshpigeon::PairFile;
use std::ffi::OsStr;

/// Where an arrival belongs.
#[derive(Clone, Copy, Debug, PartialEq, Eq)]
pub enum Kind {
    /// Every map is accepted, and there is at least one.
    Accepted,
    /// A map or the file is refused.
    Refused,
    /// A person decides.
    Held,
}

impl Kind {
    /// What scripts know it by.
    pub fn name(self) -> &'static str {
        match self {
            Self::Accepted => "accepted",
            Self::Refused => "refused",
            Self::Held => "held",
        }
    }
}

/// What is said of an accepted file whose name is taken.
const TAKEN: &str = "every map is accepted, but another file of this name was accepted before";

/// What is said of a patch that has no map of its own.
const NO_OWN_MAP: &str = "no map of its own: every map is the base's";

/// What becomes of an arrival, and why.
pub struct Outcome {
    /// Where it belongs.
    pub kind: Kind,
    about: About,
    digest: Digest,
    verdicts: Vec<Verdict>,
    /// Why it is held, where no verdict says so.
    note: Option<&'static str>,
}

impl Outcome {
    /// Judges the bytes of an arrival, and gives them back. Of a file that is too long its length alone counts.
    pub fn of(name: &OsStr, bytes: Vec<u8>, length: u64, base: &Base, lent: &mut Lent) -> (Self, Vec<u8>) {
        if length > MOST_BYTES {
            return (Self::refused(name, base, input::too_long(length)), bytes);
        }
        match Wad::of(bytes) {
            Err((bytes, fault)) => (Self::refused(name, base, fault), bytes),
            Ok(wad) => {
                let digest = wad.digest();
                let opened = Opened::over(wad, base);
                let about = opened.digests(name);
                let verdicts = verdicts(&about, &opened, lent);
                let is_own = |verdict: &Verdict| verdict.source != Source::Pair(Some(PairFile::Base));
                let kind = kind_of(&verdicts);
                let lacks_own = kind == Kind::Accepted && !verdicts.iter().any(is_own);
                let (kind, note) = if lacks_own { (Kind::Held, Some(NO_OWN_MAP)) } else { (kind, None) };
                (Self { kind, about, digest, verdicts, note }, opened.into_bytes())
            }
        }
    }

    /// A file that is refused as a whole.
    fn refused(name: &OsStr, base: &Base, fault: Fault) -> Self {
        let source = if matches!(base, Base::None) { Source::File } else { Source::Pair(Some(PairFile::Patch)) };
        let (outcome, digest) = match fault {
            Fault::Refused(refusal, found, digest) => (verdict::Outcome::Refused(refusal, found.map(Finding::File)), digest),
            Fault::Unread(error) => (verdict::Outcome::Unread(input::words(&error)), Digest::default()),
        };
        let about = About::of(name, digest);
        let verdicts = vec![Verdict::plain(about.clone(), Subject::File, source, outcome)];
        Self { kind: Kind::Refused, about, digest, verdicts, note: None }
    }

    /// The same of an accepted file whose name another accepted file has.
    pub fn taken(self) -> Self {
        Self { kind: Kind::Held, note: Some(TAKEN), ..self }
    }

    /// The verdict that decides.
    fn first(&self) -> Option<&Verdict> {
        let decides = |verdict: &&Verdict| match self.kind {
            Kind::Accepted => true,
            Kind::Refused => verdict.outcome.refusal().is_some(),
            Kind::Held => !matches!(verdict.outcome, verdict::Outcome::Accepted(..)),
        };
        self.verdicts.iter().find(decides)
    }

    /// The one sentence for a line.
    pub fn sentence(&self) -> String {
        let count = self.verdicts.len();
        match (self.note, self.kind) {
            (Some(note), _) => note.to_string(),
            (None, Kind::Accepted) => format!("{} accepted", counted(count, "map")),
            _ => self.first().map_or(String::new(), |verdict| bare(verdict, &self.about)),
        }
    }

    /// The outcome as an object, without what depends on the moment.
    fn object(&self) -> Object {
        let first = if self.note.is_some() { None } else { self.first() };
        let number = match self.kind {
            Kind::Accepted => Some(0),
            _ => first.and_then(|verdict| verdict.outcome.refusal()).map(|refusal| i64::from(refusal.number)),
        };
        let map = match first.map(|verdict| &verdict.subject) {
            Some(Subject::Map(map)) if self.kind != Kind::Accepted => Some(map.as_str()),
            _ => None,
        };
        let object = self.about.json().text("outcome", self.kind.name()).number("number", number).text("map", map);
        let said = self.sentence();
        object.text("text", said.as_str())
    }

    /// The line of the journal: when, where to, and whether the file was there before.
    pub fn line(&self, time: &str, stored: &str, again: bool) -> String {
        self.object().text("time", time).text("stored", stored).flag("again", again).close()
    }

    /// All verdicts, for a program.
    pub fn json(&self) -> String {
        let object = self.object().close();
        let verdicts: Vec<String> = self.verdicts.iter().map(Verdict::json).collect();
        let open = object.strip_suffix('}').unwrap_or(&object);
        format!("{open},\"verdicts\":[{}]}}\n", verdicts.join(","))
    }

    /// The text for a member: what happened, why, and what to do. It has no time in it, so that it is the same after a restart.
    pub fn text(&self) -> String {
        let name = self.about.shown();
        let what = match self.kind {
            Kind::Accepted => format!("Your file {name} was accepted."),
            Kind::Refused => format!("Your file {name} was refused. It was not sent."),
            Kind::Held => format!("Your file {name} is held. It was not sent. A person decides what becomes of it."),
        };
        let line = |verdict: &Verdict| match &verdict.outcome {
            verdict::Outcome::NoMap(said) => format!("The file has {said}."),
            _ => bare(verdict, &self.about),
        };
        let lines: Vec<String> = self.verdicts.iter().map(line).collect();
        let note = self.note.map_or(String::new(), |note| format!("{}.\n", capital(note)));
        let (bytes, check) = match self.digest {
            Digest { length: Some(length), crc32: Some(check) } => (length, format!(" Its CRC-32 is {check:08x}.")),
            digest => (digest.length.unwrap_or_default(), String::new()),
        };
        let bytes = grouped(i128::from(bytes));
        format!("{what}\n\n{note}{}\n\n{}\n\nThe file has {bytes} bytes.{check}\n", lines.join("\n"), self.to_do())
    }

    /// What to do.
    fn to_do(&self) -> &'static str {
        match (self.kind, self.note, self.first().map(|verdict| &verdict.outcome)) {
            (Kind::Accepted, ..) => "There is nothing to do.",
            (Kind::Refused, ..) => {
                "What to do: mend what is refused above, save the file, and send it again. The same name will do."
            }
            (_, Some(TAKEN), _) => {
                "What to do: if this is a new version, tell us so. If it is another map, send it again under another name."
            }
            (_, _, Some(verdict::Outcome::Text(_))) => {
                "What to do: save the map in the binary format (Doom or Hexen) with its nodes, and send it again. The geometry of a \
                 text map cannot be judged."
            }
            (_, _, Some(verdict::Outcome::Unnamed(_))) => "What to do: give the map one of these names, and send the file again.",
            _ => "What to do: if the file should have a map, save it again with the map in it. If it should not, tell us so.",
        }
    }
}

/// The verdicts on all maps of a file, with what else is wrong.
fn verdicts(about: &About, opened: &Opened, lent: &mut Lent) -> Vec<Verdict> {
    let (maps, unnamed) = (opened.maps(), opened.unnamed());
    if maps.is_empty() && unnamed.is_empty() {
        let outcome = verdict::Outcome::NoMap(judge::no_map(opened, false));
        return vec![Verdict::plain(about.clone(), Subject::File, Source::File, outcome)];
    }
    let mut verdicts = Vec::new();
    for map in maps {
        let mut verdict = judge::verdict(about, opened, &map, lent);
        if let (Some(refusal), Some(why)) = (verdict.outcome.refusal(), &verdict.why) {
            verdict.further = Further::of(opened.wad(verdict.source), &map, *refusal, why, lent);
        }
        verdicts.push(verdict);
    }
    let unnamed = unnamed.into_iter();
    verdicts
        .extend(unnamed.map(|(source, it)| Verdict::plain(about.clone(), Subject::File, source, verdict::Outcome::Unnamed(it))));
    verdicts
}

/// Refused if anything is refused, accepted if everything is accepted, else held.
fn kind_of(verdicts: &[Verdict]) -> Kind {
    let is_accepted = |verdict: &Verdict| matches!(verdict.outcome, verdict::Outcome::Accepted(..));
    if verdicts.iter().any(|verdict| verdict.outcome.refusal().is_some()) {
        Kind::Refused
    } else if !verdicts.is_empty() && verdicts.iter().all(is_accepted) {
        Kind::Accepted
    } else {
        Kind::Held
    }
}

/// A verdict as `judge` prints it, without the file's name at the beginning of each line.
fn bare(verdict: &Verdict, about: &About) -> String {
    let name = about.shown();
    let bare = |line: &str| {
        let rest = line.strip_prefix(&name).map(|rest| rest.strip_prefix(": ").or(rest.strip_prefix(':')).unwrap_or(rest));
        rest.unwrap_or(line).to_string()
    };
    verdict.line(false).lines().map(bare).collect::<Vec<_>>().join("\n")
}

/// A sentence with a capital at its beginning.
fn capital(text: &str) -> String {
    let mut letters = text.chars();
    letters.next().map_or(String::new(), |first| first.to_uppercase().chain(letters).collect())
}
