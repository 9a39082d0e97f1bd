//! What a case is: the bytes, the question asked of them, and what is known of the answer.

use crate::{Explained, Kind, Record};
use reader::{
    Accepted, DifferenceRefusal, Found, IndexRecord, IndexSearch, PairEntry, PairMap, PairRefusal, Picture, Refusal, Search,
    TextMap,
};

/// One input with one question.
#[derive(Clone, Debug)]
pub struct Case {
    /// What the case is about, for reports.
    pub label: String,
    /// The file, of a pair the patch, of two maps the new one's; NODES lump, SIDEDEFS lump, picture lump, record lump or text map; of a picture to be written its cover.
    pub bytes: Vec<u8>,
    /// What is asked of the bytes.
    pub question: Question,
    /// What the generator knows of the answer.
    pub expected: Expected,
}

/// A question, with all its parameters and the first contents of whatever is lent.
#[derive(Clone, Debug, PartialEq, Eq)]
pub enum Question {
    /// Judge a file's directory.
    Directory,
    /// Place and part of an entry.
    Entry {
        /// The entry's number.
        number: usize,
    },
    /// The marker of a map.
    FindMap {
        /// The asked name, eight bytes if it is good.
        name: Vec<u8>,
    },
    /// The game of a map.
    MapGame {
        /// The marker's entry number.
        marker: usize,
    },
    /// Judge a map.
    JudgeMap {
        /// The asked name.
        name: Vec<u8>,
        /// The work words as lent.
        words: Vec<u16>,
    },
    /// Judge a map and say why.
    Why {
        /// The asked name.
        name: Vec<u8>,
        /// The work words as lent.
        words: Vec<u16>,
        /// The output as lent.
        out: Vec<u8>,
    },
    /// Number a map's nodes anew.
    Renumber {
        /// The asked name.
        name: Vec<u8>,
        /// The work words as lent.
        words: Vec<u16>,
        /// The old numbers in their new places, good or not.
        order: Vec<u16>,
        /// The output as lent.
        out: Vec<u8>,
    },
    /// What changed between two maps, the bytes being the new one's file.
    Differences {
        /// The old map's file.
        old: Vec<u8>,
        /// The old map's name.
        old_name: Vec<u8>,
        /// The new map's name.
        new_name: Vec<u8>,
        /// The work words as lent.
        words: Vec<u16>,
        /// The list as lent.
        list: Vec<u16>,
    },
    /// Build a file's index.
    IndexBuild {
        /// The records as lent.
        records: Vec<IndexRecord>,
        /// The output as lent.
        out: Vec<u8>,
    },
    /// Check an index of a file.
    IndexCheck {
        /// The index.
        index: Vec<u8>,
    },
    /// Look a name up through an index of a file.
    IndexFind {
        /// The index.
        index: Vec<u8>,
        /// The asked name.
        name: Vec<u8>,
    },
    /// A lump of a pair, the bytes being the patch.
    PairFind {
        /// The file below it.
        base: Vec<u8>,
        /// The asked name.
        name: Vec<u8>,
    },
    /// Judge a map of a pair, the bytes being the patch.
    PairJudgeMap {
        /// The file below it.
        base: Vec<u8>,
        /// The asked name.
        name: Vec<u8>,
        /// The work words as lent.
        words: Vec<u16>,
    },
    /// Descend in a NODES lump.
    Descend {
        /// The count of subsectors.
        subsectors: usize,
        /// The point.
        x: i16,
        /// The point.
        y: i16,
    },
    /// List the subsectors of a NODES lump, front first.
    DrawOrder {
        /// The count of subsectors.
        subsectors: usize,
        /// The point.
        x: i16,
        /// The point.
        y: i16,
        /// The words as lent.
        words: Vec<u16>,
    },
    /// Judge SIDEDEFS as it arrives.
    Sidedefs {
        /// The count of sectors.
        sectors: usize,
        /// Lengths of the scraps, in turn: see [`scraps`](crate::scraps).
        lengths: Vec<usize>,
        /// How often all the bytes come, one time after the other.
        times: usize,
    },
    /// Everything of a text map: its summary, its blocks by number, and from these places on.
    Text {
        /// Some places, in the text or not.
        places: Vec<usize>,
        /// Start and end of the namespace that linedefs are read by, in the text or not.
        namespace: (usize, usize),
    },
    /// Judge a picture.
    JudgePicture,
    /// Paint a picture.
    PaintPicture {
        /// The colour buffer as lent.
        colour: Vec<u8>,
        /// The cover buffer as lent.
        cover: Vec<u8>,
    },
    /// Write a picture, the bytes being its cover.
    WritePicture {
        /// Its sizes and offsets.
        picture: Picture,
        /// Its colours.
        colour: Vec<u8>,
        /// The output as lent.
        out: Vec<u8>,
    },
    /// Read a record.
    ReadRecord {
        /// Its kind.
        kind: Kind,
        /// Its number.
        index: usize,
    },
    /// Write a record over the bytes.
    WriteRecord {
        /// Its fields.
        record: Record,
        /// Its number.
        index: usize,
    },
}

/// What the generator knows of an answer, by construction.
#[derive(Clone, Copy, Debug, PartialEq, Eq)]
pub enum Expected {
    /// Nothing.
    Unknown,
    /// This refusal.
    Refused(Refusal),
    /// No refusal.
    Accepted,
    /// A map with this depth and marker.
    Map(Accepted),
    /// A map's verdict with its reason.
    Explained(Explained),
    /// A descent that ends so.
    Found(Found),
    /// A search that ends so, found or not.
    Search(Search),
    /// A map of Hexen, or not.
    Hexen(bool),
    /// A lookup through an index that ends so, found or not.
    Lookup(IndexSearch),
    /// A draw order of so many subsectors, or a written lump or index of so many bytes.
    Count(usize),
    /// So many records that are listed of each lump, or this refusal with its file.
    Differences(Result<[usize; 8], DifferenceRefusal>),
    /// A text map of this summary.
    Text(TextMap),
    /// This lump of a pair, or this refusal with its file.
    PairEntry(Result<PairEntry, PairRefusal>),
    /// This map of a pair, or this refusal with its file.
    PairMap(Result<PairMap, PairRefusal>),
}

impl Case {
    /// A case of these parts.
    pub fn new(label: impl Into<String>, bytes: Vec<u8>, question: Question, expected: Expected) -> Self {
        Self { label: label.into(), bytes, question, expected }
    }
}
