//! The cross references of a map: refusals 23 to 27.

use crate::map::Lumps;
use crate::{Linedef, Node, Refusal, Seg, Sidedef, Subsector};
use crate::{NO_SIDEDEF, SUBSECTOR_BIT, TWO_SIDED};

/// How many of each kind there are to refer to.
struct Counts {
    linedefs: usize,
    sidedefs: usize,
    vertices: usize,
    segs: usize,
    subsectors: usize,
    nodes: usize,
    sectors: usize,
}

/// Judges linedefs, sidedefs, segs, subsectors and nodes, each kind from its first record on.
pub(crate) fn judge(lumps: &Lumps) -> Result<(), Refusal> {
    let counts = Counts {
        linedefs: lumps.count(2),
        sidedefs: lumps.count(3),
        vertices: lumps.count(4),
        segs: lumps.count(5),
        subsectors: lumps.count(6),
        nodes: lumps.count(7),
        sectors: lumps.count(8),
    };
    let linedefs: Vec<Linedef> = Linedef::all(lumps.at(2), lumps.hexen).collect();
    each(23, 2, linedefs.iter(), |linedef| linedef_is_good(linedef, &counts))?;
    judge_sidedefs(lumps.at(3), counts.sectors)?;
    each(25, 5, Seg::all(lumps.at(5)), |seg| seg_is_good(&seg, &linedefs, &counts))?;
    each(26, 6, Subsector::all(lumps.at(6)), |run| subsector_is_good(&run, &counts))?;
    each(27, 7, Node::all(lumps.at(7)), |node| child_is_good(node.right, &counts) && child_is_good(node.left, &counts))
}

/// Judges sidedefs over a count of sectors.
pub(crate) fn judge_sidedefs(lump: &[u8], sectors: usize) -> Result<(), Refusal> {
    each(24, 3, Sidedef::all(lump), |sidedef| below(sidedef.sector, sectors))
}

/// The first record that is not good is refused.
fn each<R>(
    number: u32,
    place: usize,
    mut records: impl Iterator<Item = R>,
    mut good: impl FnMut(R) -> bool,
) -> Result<(), Refusal> {
    match records.position(|record| !good(record)) {
        Some(record) => Err(Refusal::new(number, place, record)),
        None => Ok(()),
    }
}

fn below(number: u16, count: usize) -> bool {
    usize::from(number) < count
}

fn linedef_is_good(linedef: &Linedef, counts: &Counts) -> bool {
    let left_is_good =
        if linedef.left == NO_SIDEDEF { linedef.flags & TWO_SIDED == 0 } else { below(linedef.left, counts.sidedefs) };
    below(linedef.start, counts.vertices)
        && below(linedef.end, counts.vertices)
        && linedef.right != NO_SIDEDEF
        && below(linedef.right, counts.sidedefs)
        && left_is_good
}

fn seg_is_good(seg: &Seg, linedefs: &[Linedef], counts: &Counts) -> bool {
    let side_is_there = match seg.direction {
        0 => below(seg.linedef, counts.linedefs),
        1 => linedefs.get(usize::from(seg.linedef)).is_some_and(|l| l.left != NO_SIDEDEF),
        _ => false,
    };
    below(seg.start, counts.vertices) && below(seg.end, counts.vertices) && side_is_there
}

fn subsector_is_good(run: &Subsector, counts: &Counts) -> bool {
    run.number > 0 && usize::from(run.first) + usize::from(run.number) <= counts.segs
}

fn child_is_good(child: u16, counts: &Counts) -> bool {
    if child & SUBSECTOR_BIT != 0 {
        below(child & !SUBSECTOR_BIT, counts.subsectors)
    } else {
        below(child, counts.nodes)
    }
}
