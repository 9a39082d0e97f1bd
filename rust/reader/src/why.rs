//! The map check with its reason (W-211): the field that a record's refusal comes from, the way into a loop, the longest route.

use crate::map::{judge_lumps, lumps_of, Accepted, Lumps};
use crate::{why_blockmap, why_graph, Linedef, Node, Refusal, Seg, Sidedef, Subsector};
use crate::{NO_SIDEDEF, SUBSECTOR_BIT, TWO_SIDED};

/// A field, or a lump's size: where it stands, what it holds, and the range that 01 allows there, which may be empty.
#[derive(Clone, Copy)]
pub(crate) struct Field {
    pub(crate) offset: usize,
    pub(crate) number: usize,
    pub(crate) least: usize,
    pub(crate) most: usize,
}

/// Judges a map as [`judge_map`](crate::judge_map) does, and prints the reason into `out`: the verdict, and how many bytes were printed.
///
/// For 23 to 28 these are four 32-bit numbers: the offset of the first field that offends, what it holds, the least and the most that
/// it may. For 31 they are the choices `R` and `L` from the root until a node comes a second time, for an accepted map those of a
/// longest route. Other refusals print nothing. Where `out` is too short nothing is written, and 85 takes the verdict's place.
pub fn why(wad: &[u8], name: &[u8], words: &mut [u16], out: &mut [u8]) -> (Result<Accepted, Refusal>, usize) {
    let (verdict, reason) = match lumps_of(wad, name) {
        Ok((lumps, marker)) => {
            let verdict = judge_lumps(&lumps, words).map(|depth| Accepted { depth, marker });
            (verdict, reason_of(&lumps, verdict))
        }
        Err(refusal) => (Err(refusal), Vec::new()),
    };
    match out.get_mut(..reason.len()) {
        Some(place) => place.copy_from_slice(&reason),
        None => return (Err(Refusal::plain(85)), 0),
    }
    (verdict, reason.len())
}

fn reason_of(lumps: &Lumps, verdict: Result<Accepted, Refusal>) -> Vec<u8> {
    let fields = match verdict {
        Ok(_) => return why_graph::longest_route(lumps.at(7)),
        Err(Refusal { number: 31, .. }) => return why_graph::way_into_loop(lumps.at(7)),
        Err(Refusal { number: 28, record, .. }) => why_blockmap::fields(lumps.at(10), lumps.count(2), record),
        Err(Refusal { number, record, .. }) => fields_of(lumps, number, record),
    };
    let offends = |field: &&Field| !(field.least..=field.most).contains(&field.number);
    fields.iter().find(offends).map_or_else(Vec::new, Field::printed)
}

impl Field {
    /// A reference at `offset` into so many.
    fn reference(offset: usize, number: u16, count: usize) -> Self {
        Self { offset, number: usize::from(number), least: 0, most: count - 1 }
    }

    fn printed(&self) -> Vec<u8> {
        [self.offset, self.number, self.least, self.most].map(|part| (part as u32).to_le_bytes()).concat()
    }
}

/// The judged fields of a record, in byte order, with their ranges; none for numbers that are no record's.
fn fields_of(lumps: &Lumps, number: u32, record: usize) -> Vec<Field> {
    let fields = match number {
        23 => Linedef::read(lumps.at(2), record, lumps.hexen).map(|it| linedef(&it, lumps)),
        24 => Sidedef::read(lumps.at(3), record).map(|it| vec![Field::reference(28, it.sector, lumps.count(8))]),
        25 => Seg::read(lumps.at(5), record).map(|it| seg(&it, lumps)),
        26 => Subsector::read(lumps.at(6), record).map(|it| subsector(&it, lumps.count(5))),
        27 => Node::read(lumps.at(7), record).map(|it| vec![child(24, it.right, lumps), child(26, it.left, lumps)]),
        _ => Ok(Vec::new()),
    };
    fields.expect("a refused record is there")
}

/// A left side that is missing is allowed where the line is not two-sided; the sides are the last fields in both games.
fn linedef(linedef: &Linedef, lumps: &Lumps) -> Vec<Field> {
    let (end, vertices, sidedefs) = (Linedef::size(lumps.hexen), lumps.count(4), lumps.count(3));
    let mut fields = vec![
        Field::reference(0, linedef.start, vertices),
        Field::reference(2, linedef.end, vertices),
        Field::reference(end - 4, linedef.right, sidedefs),
    ];
    if linedef.left != NO_SIDEDEF || linedef.flags & TWO_SIDED != 0 {
        fields.push(Field::reference(end - 2, linedef.left, sidedefs));
    }
    fields
}

/// The direction goes by the linedef, if that is there; if it is not, it offends first.
fn seg(seg: &Seg, lumps: &Lumps) -> Vec<Field> {
    let line = Linedef::read(lumps.at(2), usize::from(seg.linedef), lumps.hexen);
    let sides = if line.is_ok_and(|line| line.left == NO_SIDEDEF) { 1 } else { 2 };
    vec![
        Field::reference(0, seg.start, lumps.count(4)),
        Field::reference(2, seg.end, lumps.count(4)),
        Field::reference(6, seg.linedef, lumps.count(2)),
        Field::reference(8, seg.direction, sides),
    ]
}

/// The first has what the number leaves, if the number leaves any; if it does not, it offends first.
fn subsector(run: &Subsector, segs: usize) -> Vec<Field> {
    let (number, first) = (usize::from(run.number), usize::from(run.first));
    vec![
        Field { offset: 0, number, least: 1, most: segs },
        Field { offset: 2, number: first, least: 0, most: segs.saturating_sub(number) },
    ]
}

/// A child as it is stored: subsectors have their bit.
fn child(offset: usize, child: u16, lumps: &Lumps) -> Field {
    let bit = child & SUBSECTOR_BIT;
    let least = usize::from(bit);
    let count = lumps.count(if bit == 0 { 7 } else { 6 });
    Field { offset, number: usize::from(child), least, most: least + count - 1 }
}
