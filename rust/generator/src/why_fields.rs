//! One record of a map with some of its fields out of their ranges: the first of them in byte order is its reason.

use crate::{Explained, MapSpec, Rng};
use reader::{Linedef, Refusal, NO_SIDEDEF, SUBSECTOR_BIT, TWO_SIDED};

/// The first bad field of a record: offset, number, least and most.
type First = Option<[u32; 4]>;

/// Spoils one record and answers its first bad field.
type Spoil = fn(&mut MapSpec, usize, &mut Rng) -> First;

/// Spoils any kind of record, and now and then a later one of its kind.
pub(crate) fn spoil_record(map: &mut MapSpec, rng: &mut Rng) -> Explained {
    let (number, place, count, spoil): (_, _, _, Spoil) = match rng.below(5) {
        0 => (23, 2, map.linedefs.len(), linedef),
        1 => (24, 3, map.sidedefs.len(), sidedef),
        2 => (25, 5, map.segs.len(), seg),
        3 => (26, 6, map.subsectors.len(), subsector),
        _ => (27, 7, map.nodes.len(), node),
    };
    let record = rng.below(count);
    if record + 1 < count && rng.once_in(3) {
        spoil(map, rng.between(record + 1, count - 1), rng);
    }
    let field = spoil(map, record, rng).expect("a spoiled field");
    Explained::field(Refusal::new(number, place, record), field)
}

/// Which of some fields are to be bad: at least one.
fn some_of<const COUNT: usize>(rng: &mut Rng) -> [bool; COUNT] {
    let bits = rng.between(1, (1 << COUNT) - 1);
    std::array::from_fn(|at| bits >> at & 1 == 1)
}

/// A number that is not below `count`.
fn outside(count: usize, rng: &mut Rng) -> u16 {
    let any = rng.between(count, 0xFFFF);
    rng.pick(&[count, count, count + 1, any, 0xFFFE, 0xFFFF]) as u16
}

/// Makes a field bad, or good, where `bad` says so; and notes it if it is the first bad one.
fn refer(first: &mut First, field: &mut u16, offset: usize, count: usize, bad: bool, rng: &mut Rng) {
    *field = if bad { outside(count, rng) } else { rng.below(count) as u16 };
    if bad {
        first.get_or_insert([offset as u32, u32::from(*field), 0, count as u32 - 1]);
    }
}

/// The left side is bad where it is not there, and where it is missing on a line with two.
fn linedef(map: &mut MapSpec, record: usize, rng: &mut Rng) -> First {
    let (vertices, sidedefs) = (map.vertices.len(), map.sidedefs.len());
    let (end, line, mut first) = (Linedef::size(map.hexen), &mut map.linedefs[record], None);
    let bad: [bool; 4] = some_of(rng);
    refer(&mut first, &mut line.start, 0, vertices, bad[0], rng);
    refer(&mut first, &mut line.end, 2, vertices, bad[1], rng);
    refer(&mut first, &mut line.right, end - 4, sidedefs, bad[2], rng);
    refer(&mut first, &mut line.left, end - 2, sidedefs, bad[3], rng);
    if line.left == NO_SIDEDEF {
        line.flags |= TWO_SIDED;
    }
    first
}

fn sidedef(map: &mut MapSpec, record: usize, rng: &mut Rng) -> First {
    let mut first = None;
    refer(&mut first, &mut map.sidedefs[record].sector, 28, map.sectors.len(), true, rng);
    first
}

/// The direction is 0 on a line without a left side, and 0 or 1 on any other.
fn seg(map: &mut MapSpec, record: usize, rng: &mut Rng) -> First {
    let (vertices, linedefs) = (map.vertices.len(), map.linedefs.len());
    let (seg, mut first) = (&mut map.segs[record], None);
    let bad: [bool; 4] = some_of(rng);
    refer(&mut first, &mut seg.start, 0, vertices, bad[0], rng);
    refer(&mut first, &mut seg.end, 2, vertices, bad[1], rng);
    refer(&mut first, &mut seg.linedef, 6, linedefs, bad[2], rng);
    let line = map.linedefs.get(usize::from(seg.linedef));
    let sides = if line.is_some_and(|line| line.left == NO_SIDEDEF) { 1 } else { 2 };
    refer(&mut first, &mut seg.direction, 8, sides, bad[3], rng);
    first
}

/// The number is bad by itself, or the first by what the number leaves.
fn subsector(map: &mut MapSpec, record: usize, rng: &mut Rng) -> First {
    let segs = map.segs.len();
    let run = &mut map.subsectors[record];
    run.first = rng.u16();
    if rng.once_in(2) {
        run.number = if rng.once_in(3) { 0 } else { outside(segs + 1, rng) };
        return Some([0, u32::from(run.number), 1, segs as u32]);
    }
    let (mut first, left) = (None, rng.below(segs));
    run.number = (segs - left) as u16;
    refer(&mut first, &mut run.first, 2, left + 1, true, rng);
    first
}

/// Each child is bad as a node or as a subsector.
fn node(map: &mut MapSpec, record: usize, rng: &mut Rng) -> First {
    let (nodes, subsectors) = (map.nodes.len(), map.subsectors.len());
    let (node, mut first) = (&mut map.nodes[record], None);
    let bad: [bool; 2] = some_of(rng);
    for (field, offset, _) in [(&mut node.right, 24, bad[0]), (&mut node.left, 26, bad[1])].into_iter().filter(|it| it.2) {
        let (bit, count) = if rng.once_in(2) { (0, nodes) } else { (SUBSECTOR_BIT, subsectors) };
        let any = rng.between(count, 0x7FFF);
        *field = bit | rng.pick(&[count, count, count + 1, any, 0x7FFF]) as u16;
        let least = u32::from(bit);
        first.get_or_insert([offset, u32::from(*field), least, least + count as u32 - 1]);
    }
    first
}
