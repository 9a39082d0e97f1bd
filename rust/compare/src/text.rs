//! Text maps: the answers of both sides as numbers, and the library's blocks by number held to those of one pass.

use crate::ask::Refused;
use crate::Outcome;
use generator::{Case, Question};

/// Some numbers, or a refusal.
type Answer = Result<Vec<i64>, Refused>;

/// The kinds of block.
const KINDS: usize = 5;

/// So many blocks of a kind are asked for by number; of more the last.
const MOST_ASKED: usize = 40;

/// What a field of a block may hold, as numbers; a decimal as its bits.
trait Bits {
    fn bits(&self) -> Vec<i64>;
}

impl Bits for i32 {
    fn bits(&self) -> Vec<i64> {
        vec![i64::from(*self)]
    }
}

impl Bits for f64 {
    fn bits(&self) -> Vec<i64> {
        vec![self.to_bits() as i64]
    }
}

impl Bits for bool {
    fn bits(&self) -> Vec<i64> {
        vec![i64::from(*self)]
    }
}

impl Bits for reader::Quoted {
    fn bits(&self) -> Vec<i64> {
        vec![self.start as i64, self.end as i64]
    }
}

impl Bits for meshpigeon::text::Quoted {
    fn bits(&self) -> Vec<i64> {
        vec![self.start as i64, self.end as i64]
    }
}

/// The place behind a block, and its fields in order.
macro_rules! fields {
    ($answer:expr; $($field:ident)*) => {
        $answer.map(|(it, next)| [vec![next as i64], $(it.$field.bits()),*].concat()).map_err(|it| (it.number, it.place, it.record))
    };
}

macro_rules! vertex {
    ($answer:expr) => {
        fields!($answer; x y)
    };
}

macro_rules! linedef {
    ($answer:expr) => {
        fields!($answer; id v1 v2 blocking blockmonsters twosided dontpegtop dontpegbottom secret blocksound dontdraw mapped passuse translucent jumpover blockfloaters playercross playeruse monstercross monsteruse impact playerpush monsterpush missilecross repeatspecial special arg0 arg1 arg2 arg3 arg4 sidefront sideback comment)
    };
}

macro_rules! sidedef {
    ($answer:expr) => {
        fields!($answer; offsetx offsety texturetop texturebottom texturemiddle sector comment)
    };
}

macro_rules! sector {
    ($answer:expr) => {
        fields!($answer; heightfloor heightceiling texturefloor textureceiling lightlevel special id comment)
    };
}

macro_rules! thing {
    ($answer:expr) => {
        fields!($answer; id x y height angle r#type skill1 skill2 skill3 skill4 skill5 ambush single dm coop friendly dormant class1 class2 class3 standing strifeally translucent invisible special arg0 arg1 arg2 arg3 arg4 comment)
    };
}

/// One side's functions on texts.
pub(crate) trait Side {
    /// The namespace's places and the counts.
    fn map(text: &[u8]) -> Answer;
    /// Kind and start.
    fn block(text: &[u8], place: usize) -> Answer;
    /// The place behind a block of a kind, from 0 on, and its fields.
    fn by_number(kind: usize, text: &[u8], number: usize) -> Answer;
    /// The same of the first from a place on.
    fn at(kind: usize, text: &[u8], place: usize, namespace: (usize, usize)) -> Answer;
}

/// The proved library.
pub(crate) struct Library;

impl Side for Library {
    fn map(text: &[u8]) -> Answer {
        let map = meshpigeon::text::map(text).map_err(|it| (it.number, it.place, it.record))?;
        let counts = [map.vertices, map.linedefs, map.sidedefs, map.sectors, map.things];
        Ok([map.namespace.bits(), counts.map(|count| count as i64).to_vec()].concat())
    }

    fn block(text: &[u8], place: usize) -> Answer {
        let it = meshpigeon::text::block(text, place).map_err(|it| (it.number, it.place, it.record))?;
        Ok(vec![it.kind as i64 + 1, it.start as i64])
    }

    fn by_number(kind: usize, text: &[u8], number: usize) -> Answer {
        use meshpigeon::text::{Linedef, Sector, Sidedef, Thing, Vertex};
        match kind {
            0 => vertex!(Vertex::read(text, number)),
            1 => linedef!(Linedef::read(text, number)),
            2 => sidedef!(Sidedef::read(text, number)),
            3 => sector!(Sector::read(text, number)),
            _ => thing!(Thing::read(text, number)),
        }
    }

    fn at(kind: usize, text: &[u8], place: usize, (start, end): (usize, usize)) -> Answer {
        use meshpigeon::text::{Linedef, Quoted, Sector, Sidedef, Thing, Vertex};
        match kind {
            0 => vertex!(Vertex::read_at(text, place)),
            1 => linedef!(Linedef::read_at(text, place, Quoted { start, end })),
            2 => sidedef!(Sidedef::read_at(text, place)),
            3 => sector!(Sector::read_at(text, place)),
            _ => thing!(Thing::read_at(text, place)),
        }
    }
}

/// The independent reader.
pub(crate) struct Reader;

impl Side for Reader {
    fn map(text: &[u8]) -> Answer {
        let map = reader::text_map(text).map_err(|it| (it.number, it.place, it.record))?;
        Ok([map.namespace.bits(), map.counts.map(|count| count as i64).to_vec()].concat())
    }

    fn block(text: &[u8], place: usize) -> Answer {
        let it = reader::text_block(text, place).map_err(|it| (it.number, it.place, it.record))?;
        Ok(vec![i64::from(it.kind), it.start as i64])
    }

    fn by_number(kind: usize, text: &[u8], number: usize) -> Answer {
        match kind {
            0 => vertex!(reader::text_vertex(text, number)),
            1 => linedef!(reader::text_linedef(text, number)),
            2 => sidedef!(reader::text_sidedef(text, number)),
            3 => sector!(reader::text_sector(text, number)),
            _ => thing!(reader::text_thing(text, number)),
        }
    }

    fn at(kind: usize, text: &[u8], place: usize, (start, end): (usize, usize)) -> Answer {
        match kind {
            0 => vertex!(reader::text_vertex_at(text, place)),
            1 => linedef!(reader::text_linedef_at(text, place, reader::Quoted { start, end })),
            2 => sidedef!(reader::text_sidedef_at(text, place)),
            3 => sector!(reader::text_sector_at(text, place)),
            _ => thing!(reader::text_thing_at(text, place)),
        }
    }
}

/// Everything that is asked of a text: its summary; each block by number, and numbers past the last; and what is read from the places on.
pub(crate) fn asked<S: Side>(text: &[u8], places: &[usize], namespace: (usize, usize)) -> Outcome {
    let numbers = S::map(text);
    let mut blocks = Vec::new();
    for kind in 0..KINDS {
        let count = numbers.as_ref().map_or(0, |numbers| numbers[2 + kind] as usize);
        let first = if count <= MOST_ASKED { 0 } else { count - 1 };
        blocks.extend((first..=count).chain([usize::MAX]).map(|number| S::by_number(kind, text, number)));
    }
    for &place in places {
        blocks.push(S::block(text, place));
        blocks.extend((0..KINDS).map(|kind| S::at(kind, text, place, namespace)));
    }
    Outcome { blocks, ..Outcome::new(numbers) }
}

/// What is wrong with the library's blocks in one pass, if anything: each is found by its opening brace; they are those by number; and the pass
/// ends with 94 where the text is good, and otherwise with the text's own refusal, but for 93, which counts from each place anew.
pub(crate) fn fault(case: &Case, told: &Outcome) -> Option<String> {
    let Question::Text { .. } = case.question else { return None };
    let text = &case.bytes;
    let summary = told.numbers.as_ref().ok();
    let namespace = summary.map_or((0, 0), |numbers| (numbers[0] as usize, numbers[1] as usize));
    let (mut place, mut counts) = (0, [0; KINDS]);
    let end = loop {
        let (kind, start) = match Library::block(text, place) {
            Ok(block) => (block[0] as usize - 1, block[1] as usize),
            Err((number @ (92 | 93), ..)) => return Some(format!("{number} from {place} on, where no block is read")),
            Err(refused) => break refused,
        };
        if counts[kind] < MOST_ASKED && !is_found_by_its_brace(text, place, kind, start) {
            return Some(format!("the block at {start} is found from {place} on by more or less than its opening brace"));
        }
        let here = Library::at(kind, text, start, namespace);
        let next = match &here {
            Ok(block) if block[0] as usize > start => block[0] as usize,
            Err(refused @ (90..=92, 0, record)) if *record > start => break *refused,
            _ => return Some(format!("the block at {start} does not begin there: {here:?}")),
        };
        let is_asked = summary.is_some_and(|numbers| numbers[2 + kind] as usize <= MOST_ASKED);
        if is_asked && here != Library::by_number(kind, text, counts[kind]) {
            return Some(format!("number {} of kind {kind} is another than the one at {start}: {here:?}", counts[kind]));
        }
        counts[kind] += 1;
        place = next;
    };
    let is_right = match &told.numbers {
        Ok(numbers) => end == (94, 0, 0) && numbers[2..].iter().map(|&count| count as usize).eq(counts),
        Err((93, ..)) => true,
        Err(refused) => end == *refused,
    };
    (!is_right).then(|| format!("one pass ends with {end:?} after {counts:?}, summed up {:?}", told.numbers))
}

/// Whether the text may end behind the block's opening brace, and not before, for the library to find the block from a place on.
fn is_found_by_its_brace(text: &[u8], place: usize, kind: usize, start: usize) -> bool {
    let mut parts = (start..=text.len()).map(|end| &text[..end]);
    let found = parts.find_map(|part| Library::block(part, place).ok().map(|block| (block, part)));
    found.is_some_and(|(block, part)| block == [kind as i64 + 1, start as i64] && part.ends_with(b"{"))
}

/// All that the library says of a text but its places: the counts, and each block with the bytes of its strings in place of where they lie; or the
/// refusal's number.
pub fn without_places(text: &[u8]) -> Result<Vec<Vec<u8>>, u32> {
    use meshpigeon::text::{blocks, map, Block};
    let whole = map(text).map_err(|it| it.number)?;
    let counts = format!("{} {} {} {} {}", whole.vertices, whole.linedefs, whole.sidedefs, whole.sectors, whole.things);
    let mut all = vec![counts.into_bytes(), format!("{:?}", whole.namespace.of(text)).into_bytes()];
    for block in blocks(text).map_err(|it| it.number)? {
        let strings: Vec<meshpigeon::text::Quoted> = match block {
            Block::Vertex(_) => Vec::new(),
            Block::Linedef(it) => vec![it.comment],
            Block::Sidedef(it) => vec![it.texturetop, it.texturebottom, it.texturemiddle, it.comment],
            Block::Sector(it) => vec![it.texturefloor, it.textureceiling, it.comment],
            Block::Thing(it) => vec![it.comment],
        };
        all.push(format!("{:?}", nowhere(block)).into_bytes());
        all.extend(strings.iter().map(|string| format!("{:?}", string.of(text)).into_bytes()));
    }
    Ok(all)
}

/// The block with no places in it.
fn nowhere(mut block: meshpigeon::text::Block) -> meshpigeon::text::Block {
    use meshpigeon::text::Block;
    match &mut block {
        Block::Vertex(_) => {}
        Block::Linedef(it) => it.comment = Default::default(),
        Block::Sidedef(it) => {
            (it.texturetop, it.texturebottom) = Default::default();
            (it.texturemiddle, it.comment) = Default::default();
        }
        Block::Sector(it) => (it.texturefloor, it.textureceiling, it.comment) = Default::default(),
        Block::Thing(it) => it.comment = Default::default(),
    }
    block
}
