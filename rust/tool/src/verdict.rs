//! A verdict on a map, a picture or a whole file, as a line of text and as a JSON object.

use crate::about::About;
use crate::advice::build_again;
use crate::count::{counted, grouped};
use crate::finding::Finding;
use crate::further::Further;
use crate::json::Object;
use crate::name::shown;
use crate::text::Summary;
use crate::unnamed::Unnamed;
use crate::why::Why;
use meshpigeon::{Accepted, PairFile, PairRefusal, Refusal};

/// What was judged, and what came of it.
pub struct Verdict {
    /// The file.
    pub about: About,
    /// What in the file.
    pub subject: Subject,
    /// Which file it comes from.
    pub source: Source,
    /// The game of a map whose ten lumps are there.
    pub game: Option<Game>,
    /// What came of it.
    pub outcome: Outcome,
    /// The reason that the library told of a map, and what was found by it.
    pub why: Option<Why>,
    /// What is wrong besides, where that was asked for.
    pub further: Option<Further>,
}

/// Whose records a map has.
#[derive(Clone, Copy, Debug, PartialEq, Eq)]
pub enum Game {
    /// Doom's.
    Doom,
    /// Hexen's.
    Hexen,
}

impl Game {
    /// Its name.
    fn name(self) -> &'static str {
        match self {
            Self::Doom => "Doom",
            Self::Hexen => "Hexen",
        }
    }
}

/// Which file something comes from.
#[derive(Clone, Copy, Debug, PartialEq, Eq)]
pub enum Source {
    /// The only one.
    File,
    /// One of a pair, or neither.
    Pair(Option<PairFile>),
}

impl Source {
    /// Of a pair, neither file.
    pub fn of_neither(self) -> Self {
        match self {
            Self::File => Self::File,
            Self::Pair(_) => Self::Pair(None),
        }
    }

    /// `base` or `patch`, of a pair.
    pub fn name(self) -> Option<&'static str> {
        match self {
            Self::Pair(Some(PairFile::Base)) => Some("base"),
            Self::Pair(Some(PairFile::Patch)) => Some("patch"),
            _ => None,
        }
    }
}

/// What in a file was judged.
pub enum Subject {
    /// The file itself: header and directory.
    File,
    /// A map of this name.
    Map(String),
    /// A lump of this name.
    Lump(String),
}

/// What came of it.
pub enum Outcome {
    /// A good map, with its counts of nodes and subsectors.
    Accepted(Accepted, usize, usize),
    /// A refusal, and what was found where it is about a number or a name.
    Refused(Refusal, Option<Finding>),
    /// A text map of good grammar, whose geometry nobody judged.
    Text(Summary),
    /// The file is good and has no map, or there is no file at all: what is said of it.
    NoMap(String),
    /// Lumps of a map behind a name that no map has: nobody judged them.
    Unnamed(Unnamed),
    /// The file could not be read: why.
    Unread(String),
}

/// The refusal of a name that no entry has: it counts as a refusal, but nothing was judged.
pub const NOT_THERE: u32 = 11;

/// The first refusal that leaves a map's ten lumps where they should be.
pub const LUMPS_ARE_THERE: u32 = 20;

/// The refusals of a walk down the nodes that are the nodes' own fault.
const BAD_NODES: [u32; 5] = [40, 41, 42, 43, 46];

impl Outcome {
    /// Whether the map's ten lumps are there.
    pub fn has_lumps(&self) -> bool {
        match self {
            Self::Accepted(..) => true,
            Self::Refused(refusal, _) => refusal.number >= LUMPS_ARE_THERE,
            _ => false,
        }
    }

    /// What scripts know it by.
    fn name(&self) -> &'static str {
        match self {
            Self::Accepted(..) => "accepted",
            Self::Refused(..) => "refused",
            Self::Text(_) => "text",
            Self::NoMap(_) | Self::Unnamed(_) => "no-map",
            Self::Unread(_) => "unreadable",
        }
    }

    /// The refusal, if it is one.
    pub fn refusal(&self) -> Option<&Refusal> {
        match self {
            Self::Refused(refusal, _) => Some(refusal),
            _ => None,
        }
    }

    fn accepted(&self) -> Option<&Accepted> {
        match self {
            Self::Accepted(accepted, ..) => Some(accepted),
            _ => None,
        }
    }

    fn found(&self) -> Option<Object> {
        match self {
            Self::Refused(_, found) => found.as_ref().map(Finding::json),
            Self::Text(summary) => Some(summary.json()),
            Self::Unnamed(unnamed) => Some(unnamed.json()),
            _ => None,
        }
    }
}

impl Verdict {
    /// A verdict without a game or a reason.
    pub fn plain(about: About, subject: Subject, source: Source, outcome: Outcome) -> Self {
        Self { about, subject, source, game: None, outcome, why: None, further: None }
    }

    /// The refusal of a walk down a map's nodes, or of the search for the map.
    pub fn of_walk(about: About, map: String, refusal: Refusal, found: Option<Finding>) -> Self {
        Self::plain(about, Subject::Map(map), Source::File, Outcome::Refused(refusal, found))
    }

    /// Whether it is on a text map of good grammar.
    pub fn is_text(&self) -> bool {
        matches!(self.outcome, Outcome::Text(_))
    }

    /// The verdict on one line, coloured for a terminal if wished; below it the line of a text, and what else is wrong.
    pub fn line(&self, colour: bool) -> String {
        let heading = self.heading();
        let outcome = match &self.outcome {
            Outcome::Accepted(..) => self.text().replacen("accepted", &painted("accepted", 32, colour), 1),
            Outcome::Refused(refusal, _) => {
                let refused = painted(&format!("refused {}", refusal.number), 31, colour);
                let below = self.why.as_ref().map(Why::below).unwrap_or_default();
                format!("{refused}{}{}: {}{below}", at(*refusal, self.why.as_ref()), self.notes(), self.text())
            }
            _ => self.text(),
        };
        let further = self.further.as_ref().map_or(String::new(), |further| further.lines(&heading));
        format!("{heading}: {outcome}{further}")
    }

    /// The verdict as an object; what has no meaning for it is null.
    pub fn json(&self) -> String {
        let (map, lump) = match &self.subject {
            Subject::File => (None, None),
            Subject::Map(name) => (Some(name.as_str()), None),
            Subject::Lump(name) => (None, Some(name.as_str())),
        };
        let (refusal, accepted) = (self.outcome.refusal(), self.outcome.accepted());
        let named = refusal.and_then(Refusal::lump);
        let text_lump = self.why.as_ref().filter(|why| why.is_of_text()).map(|_| "TEXTMAP");
        let object = self
            .about
            .json()
            .text("map", map)
            .text("verdict", self.outcome.name())
            .number("number", refusal.map(|it| i64::from(it.number)).or(accepted.map(|_| 0)))
            .count("place", refusal.filter(|_| named.is_some()).map(|it| it.place))
            .text("lump", named.or(lump).or(text_lump))
            .count("record", refusal.filter(|it| it.names_record()).map(|it| it.record))
            .object("found", self.outcome.found())
            .object("reason", self.why.as_ref().map(Why::json))
            .count("depth", accepted.map(|it| it.depth))
            .count("marker", accepted.map(|it| it.marker))
            .text("game", self.game.map(Game::name))
            .text("from", self.source.name())
            .text("text", self.text().as_str());
        Further::json(self.further.as_ref(), object).close()
    }

    /// What was judged: `FILE`, `FILE:MAP01`.
    fn heading(&self) -> String {
        match &self.subject {
            Subject::File => self.about.shown(),
            Subject::Map(name) | Subject::Lump(name) => format!("{}:{}", self.about.shown(), shown(name)),
        }
    }

    /// That a map is Hexen's, and of which file of a pair it is, where either is so: ` (Hexen, of the base)`.
    fn notes(&self) -> String {
        let hexen = self.game.filter(|game| *game == Game::Hexen).map(|game| game.name().to_string());
        let file = self.source.name().map(|name| format!("of the {name}"));
        let notes: Vec<String> = hexen.into_iter().chain(file).collect();
        if notes.is_empty() {
            String::new()
        } else {
            format!(" ({})", notes.join(", "))
        }
    }

    /// A refusal's own sentence; that a pair lacks a name is said of both files, and of a name that was looked up that the index does
    /// not have it.
    fn rule(&self, refusal: Refusal) -> String {
        match (self.source, &self.subject) {
            (Source::Pair(None), _) => PairRefusal { file: None, refusal }.to_string(),
            (_, Subject::Lump(_)) if refusal.number == NOT_THERE => "the index leads to no entry of that name".to_string(),
            _ => refusal.to_string(),
        }
    }

    /// What came of it, without number and place.
    pub fn text(&self) -> String {
        match &self.outcome {
            Outcome::Accepted(accepted, nodes, subsectors) => {
                let (nodes, subsectors) = (counted(*nodes, "node"), counted(*subsectors, "subsector"));
                let depth = grouped(accepted.depth as i128);
                format!("accepted{}, depth {depth}, {nodes}, {subsectors}", self.notes())
            }
            Outcome::Refused(refusal, found) => match (self.why.as_ref().and_then(Why::words), found) {
                (Some(said), _) => said,
                (None, Some(found)) => found.words(*refusal, &self.rule(*refusal)),
                (None, None) if BAD_NODES.contains(&refusal.number) => {
                    format!("{}. {}", self.rule(*refusal), build_again("NODES"))
                }
                (None, None) => self.rule(*refusal),
            },
            Outcome::Text(summary) => format!("{}{}", summary.words(), self.notes()),
            Outcome::NoMap(said) => format!("{said}{}", self.notes()),
            Outcome::Unnamed(unnamed) => unnamed.words(self.source.name()),
            Outcome::Unread(said) => said.clone(),
        }
    }
}

/// ` at NODES`, ` at LINEDEFS 17`, ` at BLOCKMAP header`: where a refusal is, if it names a place.
pub fn at(refusal: Refusal, why: Option<&Why>) -> String {
    let place = why.and_then(|why| why.whereabouts(refusal)).or_else(|| refusal.whereabouts());
    place.map_or(String::new(), |place| format!(" at {place}"))
}

fn painted(text: &str, code: u8, colour: bool) -> String {
    if colour {
        format!("\x1b[{code}m{text}\x1b[0m")
    } else {
        text.to_string()
    }
}

#[cfg(test)]
mod tests {
    use super::*;
    use std::ffi::OsStr;

    fn refused(number: u32, place: usize, record: usize, subject: Subject) -> Verdict {
        let refusal = Refusal { number, place, record };
        Verdict::plain(About::unread(OsStr::new("a.wad")), subject, Source::File, Outcome::Refused(refusal, None))
    }

    #[test]
    fn colour_is_around_the_verdict_only() {
        let map = || Subject::Map("MAP01".into());
        let outcome = Outcome::Accepted(Accepted { depth: 1, marker: 0 }, 1, 2);
        let mut good = Verdict::plain(About::unread(OsStr::new("accepted.wad")), map(), Source::File, outcome);
        good.game = Some(Game::Doom);
        assert_eq!(good.line(true), "accepted.wad:MAP01: \x1b[32maccepted\x1b[0m, depth 1, 1 node, 2 subsectors");
        good.game = Some(Game::Hexen);
        assert_eq!(good.line(true), "accepted.wad:MAP01: \x1b[32maccepted\x1b[0m (Hexen), depth 1, 1 node, 2 subsectors");
        good.source = Source::Pair(Some(PairFile::Base));
        assert!(good.line(true).starts_with("accepted.wad:MAP01: \x1b[32maccepted\x1b[0m (Hexen, of the base), depth 1"));
        good.game = Some(Game::Doom);
        assert!(good.line(true).starts_with("accepted.wad:MAP01: \x1b[32maccepted\x1b[0m (of the base), depth 1"));
        assert!(refused(31, 7, 0, map()).line(true).starts_with("a.wad:MAP01: \x1b[31mrefused 31\x1b[0m at NODES: "));
    }

    #[test]
    fn places_and_records_stand_where_they_mean_something() {
        assert!(refused(5, 0, 3, Subject::File).line(false).starts_with("a.wad: refused 5 at entry 3: "));
        assert!(refused(1, 0, 0, Subject::File).line(false).starts_with("a.wad: refused 1: "));
        assert!(refused(53, 0, 4, Subject::Lump("P".into())).line(false).starts_with("a.wad:P: refused 53 at column 4: "));
        assert!(refused(23, 2, 17, Subject::Map("E1M1".into())).json().contains(r#""place":2,"lump":"LINEDEFS","record":17"#));
        assert!(refused(11, 0, 0, Subject::Map("E1M1".into())).json().contains(r#""place":null,"lump":null,"record":null"#));
    }
}
