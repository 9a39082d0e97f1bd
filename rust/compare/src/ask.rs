//! One case asked of the library, and of the reader.

use crate::text;
use generator::{scraps, Case, Kind, Question, Record};

/// A refusal's number, place and record.
pub(crate) type Refused = (u32, usize, usize);

/// An answer with all its effects.
#[derive(Clone, Debug, PartialEq, Eq)]
pub struct Outcome {
    /// The answer's numbers, or the refusal's number, place and record.
    pub numbers: Result<Vec<i64>, Refused>,
    /// The file of a pair that the answer notes, with a refusal too: 0 none, 1 the base, 2 the patch; of two maps 1 the old, 2 the new.
    pub file: u32,
    /// How many names were compared, with a refusal too.
    pub compared: usize,
    /// How many bytes of a reason were printed, with a refusal too.
    pub printed: usize,
    /// The bytes of the entry or lump that was asked for.
    pub part: Vec<u8>,
    /// The work words, or those of a draw order, afterwards.
    pub words: Vec<u16>,
    /// The list of differing records afterwards.
    pub list: Vec<u16>,
    /// The records of an index afterwards.
    pub records: Vec<([u8; 8], u16)>,
    /// The answers on a text's blocks, by number and from places on.
    pub blocks: Vec<Result<Vec<i64>, Refused>>,
    /// The colour buffer afterwards, or what was written to: a lump, or the output of a picture, a reason, new NODES or an index.
    pub first: Vec<u8>,
    /// The cover buffer afterwards.
    pub second: Vec<u8>,
}

impl Outcome {
    pub(crate) fn new(numbers: Result<Vec<i64>, Refused>) -> Self {
        let (part, words, list, records, blocks, first, second) = Default::default();
        Self { numbers, file: 0, compared: 0, printed: 0, part, words, list, records, blocks, first, second }
    }
}

macro_rules! asker {
    ($(#[$about:meta])* $name:ident, $side:ident, $texts:ident, $judge_map:ident, $why:ident, $renumber:ident, $differences:ident, $index_build:ident,
     $draw_order:ident, $pair_judge_map:ident, $write_picture:ident, $part:expr, $pair_part:expr) => {
        $(#[$about])*
        pub fn $name(case: &Case) -> Outcome {
            let refused = |it: $side::Refusal| (it.number, it.place, it.record);
            let number_of = |file| match file {
                None => 0,
                Some($side::PairFile::Base) => 1,
                Some($side::PairFile::Patch) => 2,
            };
            let bytes = &case.bytes;
            match &case.question {
                Question::Directory => {
                    Outcome::new($side::directory(bytes).map(|it| vec![it.count as i64, it.start as i64]).map_err(refused))
                }
                Question::Entry { number } => {
                    let place = $side::entry(bytes, *number);
                    let mut outcome = Outcome::new(place.map(|it| vec![it.0 as i64, it.1 as i64]).map_err(refused));
                    outcome.part = $part(bytes, *number);
                    outcome
                }
                Question::FindMap { name } => {
                    let search = $side::find_map(bytes, name);
                    let mut outcome = Outcome::new(search.marker.map(|it| vec![it as i64]).map_err(refused));
                    outcome.compared = search.compared;
                    outcome
                }
                Question::MapGame { marker } => {
                    Outcome::new($side::map_game(bytes, *marker).map(|hexen| vec![i64::from(hexen)]).map_err(refused))
                }
                Question::JudgeMap { name, words } => {
                    let mut words = words.clone();
                    let judged = $side::$judge_map(bytes, name, &mut words);
                    let mut outcome = Outcome::new(judged.map(|it| vec![it.depth as i64, it.marker as i64]).map_err(refused));
                    outcome.words = words;
                    outcome
                }
                Question::Why { name, words, out } => {
                    let (mut words, mut out) = (words.clone(), out.clone());
                    let (verdict, printed) = $side::$why(bytes, name, &mut words, &mut out);
                    let numbers = verdict.map(|it| vec![it.depth as i64, it.marker as i64]).map_err(refused);
                    Outcome { printed, words, first: out, ..Outcome::new(numbers) }
                }
                Question::Renumber { name, words, order, out } => {
                    let (mut words, mut out) = (words.clone(), out.clone());
                    let written = $side::$renumber(bytes, name, &mut words, order, &mut out);
                    let numbers = written.map(|length| vec![length as i64]).map_err(refused);
                    Outcome { words, first: out, ..Outcome::new(numbers) }
                }
                Question::Differences { old, old_name, new_name, words, list } => {
                    let (mut words, mut list) = (words.clone(), list.clone());
                    let counts = $side::$differences(old, old_name, bytes, new_name, &mut words, &mut list);
                    let file = match counts.err().and_then(|it| it.file) {
                        None => 0,
                        Some($side::DifferenceFile::Old) => 1,
                        Some($side::DifferenceFile::New) => 2,
                    };
                    let numbers = counts.map(|counts| counts.map(|count| count as i64).to_vec());
                    Outcome { file, words, list, ..Outcome::new(numbers.map_err(|it| refused(it.refusal))) }
                }
                Question::IndexBuild { records, out } => {
                    let given = records.iter().map(|it| same!($side, IndexRecord, it; name number));
                    let (mut records, mut out) = (given.collect::<Vec<_>>(), out.clone());
                    let written = $side::$index_build(bytes, &mut records, &mut out);
                    let numbers = written.map(|length| vec![length as i64]).map_err(refused);
                    let records = records.iter().map(|it| (it.name, it.number)).collect();
                    Outcome { records, first: out, ..Outcome::new(numbers) }
                }
                Question::IndexCheck { index } => {
                    Outcome::new($side::index_check(bytes, index).map(|()| Vec::new()).map_err(refused))
                }
                Question::IndexFind { index, name } => {
                    let search = $side::index_find(bytes, index, name);
                    let numbers = search.entry.map(|entry| vec![entry as i64]).map_err(refused);
                    Outcome { compared: search.compared, ..Outcome::new(numbers) }
                }
                Question::PairFind { base, name } => {
                    let found = $side::pair_find(base, bytes, name);
                    let file = number_of(found.map_or_else(|it| it.file, |it| Some(it.file)));
                    let numbers = found.map(|it| vec![it.offset as i64, it.size as i64]).map_err(|it| refused(it.refusal));
                    Outcome { file, part: $pair_part(base, bytes, name), ..Outcome::new(numbers) }
                }
                Question::PairJudgeMap { base, name, words } => {
                    let mut words = words.clone();
                    let judged = $side::$pair_judge_map(base, bytes, name, &mut words);
                    let file = number_of(judged.map_or_else(|it| it.file, |it| Some(it.file)));
                    let numbers = judged.map(|it| vec![it.map.depth as i64, it.map.marker as i64]);
                    Outcome { file, words, ..Outcome::new(numbers.map_err(|it| refused(it.refusal))) }
                }
                Question::Descend { subsectors, x, y } => {
                    let found = $side::descend(bytes, *subsectors, *x, *y);
                    Outcome::new(found.map(|it| vec![it.subsector as i64, it.count as i64]).map_err(refused))
                }
                Question::DrawOrder { subsectors, x, y, words } => {
                    let mut words = words.clone();
                    let drawn = $side::$draw_order(bytes, *subsectors, *x, *y, &mut words);
                    let mut outcome = Outcome::new(drawn.map(|count| vec![count as i64]).map_err(refused));
                    outcome.words = words;
                    outcome
                }
                Question::Sidedefs { sectors, lengths, times } => {
                    let mut sidedefs = $side::Sidedefs::start(*sectors);
                    (0..*times).for_each(|_| scraps(bytes, lengths).for_each(|scrap| sidedefs.feed(scrap)));
                    Outcome::new(sidedefs.verdict().map(|()| Vec::new()).map_err(refused))
                }
                Question::Text { places, namespace } => text::asked::<text::$texts>(bytes, places, *namespace),
                Question::JudgePicture => Outcome::new($side::judge_picture(bytes).map(|it| picture!(it)).map_err(refused)),
                Question::PaintPicture { colour, cover } => {
                    let (mut colour, mut cover) = (colour.clone(), cover.clone());
                    let painted = $side::paint_picture(bytes, &mut colour, &mut cover);
                    let mut outcome = Outcome::new(painted.map(|it| picture!(it)).map_err(refused));
                    (outcome.first, outcome.second) = (colour, cover);
                    outcome
                }
                Question::WritePicture { picture: it, colour, out } => {
                    let mut out = out.clone();
                    let written = $side::$write_picture(same!($side, Picture, it; width height left top), colour, bytes, &mut out);
                    let mut outcome = Outcome::new(written.map(|length| vec![length as i64]).map_err(refused));
                    outcome.first = out;
                    outcome
                }
                Question::ReadRecord { kind, index } => Outcome::new(read!($side, *kind, bytes, *index).map_err(refused)),
                Question::WriteRecord { record, index } => {
                    let mut lump = bytes.clone();
                    let written = write!($side, *record, &mut lump, *index).map_err(refused);
                    let mut outcome = Outcome::new(written.map(|()| Vec::new()));
                    outcome.first = lump;
                    outcome
                }
            }
        }
    };
}

macro_rules! picture {
    ($it:expr) => {
        vec![$it.width as i64, $it.height as i64, $it.left.into(), $it.top.into()]
    };
}

/// A record's fields in order, as numbers.
macro_rules! fields {
    ($it:expr; $($field:ident)*; $($list:ident)*) => {{
        let numbers: Vec<i64> = vec![$($it.$field.into()),*];
        let lists: Vec<Vec<i64>> = vec![$($it.$list.iter().map(|&part| i64::from(part)).collect()),*];
        [numbers, lists.concat()].concat()
    }};
}

macro_rules! thing {
    ($it:expr) => {
        fields!($it; hexen id x y height angle kind flags action; args)
    };
}

macro_rules! linedef {
    ($it:expr) => {
        fields!($it; hexen start end flags special tag right left; args)
    };
}

macro_rules! read {
    ($side:ident, $kind:expr, $lump:expr, $index:expr) => {
        match $kind {
            Kind::Thing => $side::Thing::read($lump, $index, false).map(|it| thing!(it)),
            Kind::HexenThing => $side::Thing::read($lump, $index, true).map(|it| thing!(it)),
            Kind::Linedef => $side::Linedef::read($lump, $index, false).map(|it| linedef!(it)),
            Kind::HexenLinedef => $side::Linedef::read($lump, $index, true).map(|it| linedef!(it)),
            Kind::Sidedef => {
                $side::Sidedef::read($lump, $index).map(|it| fields!(it; x_offset y_offset sector; upper lower middle))
            }
            Kind::Vertex => $side::Vertex::read($lump, $index).map(|it| fields!(it; x y;)),
            Kind::Seg => $side::Seg::read($lump, $index).map(|it| fields!(it; start end angle linedef direction offset;)),
            Kind::Subsector => $side::Subsector::read($lump, $index).map(|it| fields!(it; number first;)),
            Kind::Node => $side::Node::read($lump, $index).map(|it| fields!(it; x y dx dy right left; right_box left_box)),
            Kind::Sector => {
                $side::Sector::read($lump, $index)
                    .map(|it| fields!(it; floor ceiling light special tag; floor_flat ceiling_flat))
            }
        }
    };
}

/// The same record, as the other side's type.
macro_rules! same {
    ($side:ident, $kind:ident, $it:expr; $($field:ident)*) => {
        $side::$kind { $($field: $it.$field),* }
    };
}

macro_rules! write {
    ($side:ident, $record:expr, $lump:expr, $index:expr) => {
        match $record {
            Record::Thing(it) => {
                same!($side, Thing, it; hexen id x y height angle kind flags action args).write($lump, $index)
            }
            Record::Linedef(it) => {
                same!($side, Linedef, it; hexen start end flags special tag args right left).write($lump, $index)
            }
            Record::Sidedef(it) => same!($side, Sidedef, it; x_offset y_offset upper lower middle sector).write($lump, $index),
            Record::Vertex(it) => same!($side, Vertex, it; x y).write($lump, $index),
            Record::Seg(it) => same!($side, Seg, it; start end angle linedef direction offset).write($lump, $index),
            Record::Subsector(it) => same!($side, Subsector, it; number first).write($lump, $index),
            Record::Node(it) => same!($side, Node, it; x y dx dy right_box left_box right left).write($lump, $index),
            Record::Sector(it) => {
                same!($side, Sector, it; floor ceiling floor_flat ceiling_flat light special tag).write($lump, $index)
            }
        }
    };
}

asker! {
    /// Asks the proved library.
    ask_library, meshpigeon, Library, judge_map_with, why_with, renumber_with, differences_with, index_build_with, draw_order_with, pair_judge_map_with,
    write_picture_with,
    |bytes, number| meshpigeon::lump(bytes, number).unwrap_or_default().to_vec(),
    |base, patch, name| meshpigeon::pair_lump(base, patch, name).map_or_else(|_| Vec::new(), |lump| lump.bytes.to_vec())
}

asker! {
    /// Asks the independent reader.
    ask_reader, reader, Reader, judge_map, why, renumber, differences, index_build, draw_order, pair_judge_map, write_picture,
    |bytes, number| reader::lump(bytes, number).to_vec(),
    |base, patch, name| reader::pair_lump(base, patch, name).to_vec()
}
