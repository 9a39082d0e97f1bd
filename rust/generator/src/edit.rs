//! Edits of a good map that leave it good: a record changed, and records behind the last.

use crate::map::reject_size;
use crate::record::{any_node, any_sector, any_sidedef, any_thing, any_vertex};
use crate::{MapSpec, Rng};
use reader::{Linedef, Node, Seg, Sidedef, Subsector, Thing, SUBSECTOR_BIT, TWO_SIDED};

/// How many records the lump at `place`, 1 to 8, has.
pub(crate) fn count(map: &MapSpec, place: usize) -> usize {
    match place {
        1 => map.things.len(),
        2 => map.linedefs.len(),
        3 => map.sidedefs.len(),
        4 => map.vertices.len(),
        5 => map.segs.len(),
        6 => map.subsectors.len(),
        7 => map.nodes.len(),
        _ => map.sectors.len(),
    }
}

/// Changes one byte of a record, in a field that no check looks at. A subsector, which has none, gets another seg; where there is but one,
/// nothing changes, and the answer is false.
pub(crate) fn touch(map: &mut MapSpec, place: usize, index: usize, rng: &mut Rng) -> bool {
    let (bit, wide) = (1 << rng.below(8), 1 << rng.below(16));
    match place {
        1 => touch_thing(&mut map.things[index], rng),
        2 => touch_linedef(&mut map.linedefs[index], rng),
        3 => match (rng.below(3), &mut map.sidedefs[index]) {
            (0, sidedef) => sidedef.x_offset ^= wide as i16,
            (1, sidedef) => sidedef.upper[rng.below(8)] ^= bit,
            (_, sidedef) => sidedef.middle[rng.below(8)] ^= bit,
        },
        4 => *pick(rng, &mut map.vertices[index], |it| &mut it.x, |it| &mut it.y) ^= wide as i16,
        5 if rng.once_in(2) => map.segs[index].angle ^= wide,
        5 => map.segs[index].offset ^= wide as i16,
        6 => return touch_subsector(&mut map.subsectors[index], map.segs.len()),
        7 => match (rng.below(3), &mut map.nodes[index]) {
            (0, node) => *pick(rng, node, |it| &mut it.x, |it| &mut it.dy) ^= wide as i16,
            (1, node) => node.right_box[rng.below(4)] ^= wide as i16,
            (_, node) => node.left_box[rng.below(4)] ^= wide as i16,
        },
        _ => match (rng.below(3), &mut map.sectors[index]) {
            (0, sector) => sector.floor ^= wide as i16,
            (1, sector) => sector.ceiling_flat[rng.below(8)] ^= bit,
            (_, sector) => sector.tag ^= wide,
        },
    }
    true
}

/// One of two fields.
fn pick<'a, R>(rng: &mut Rng, record: &'a mut R, one: fn(&mut R) -> &mut i16, other: fn(&mut R) -> &mut i16) -> &'a mut i16 {
    if rng.once_in(2) {
        one(record)
    } else {
        other(record)
    }
}

fn touch_thing(thing: &mut Thing, rng: &mut Rng) {
    let wide = 1 << rng.below(16);
    match rng.below(if thing.hexen { 6 } else { 3 }) {
        0 => thing.x ^= wide as i16,
        1 => thing.angle ^= wide,
        2 => thing.flags ^= wide,
        3 => thing.id ^= wide as i16,
        4 => thing.height ^= wide as i16,
        _ => thing.args[rng.below(5)] ^= 1 << rng.below(8),
    }
}

fn touch_linedef(linedef: &mut Linedef, rng: &mut Rng) {
    match (rng.below(3), linedef.hexen) {
        (0, _) => linedef.flags ^= TWO_SIDED << rng.between(1, 12),
        (1, _) => linedef.special ^= 1 << rng.below(8),
        (_, false) => linedef.tag ^= 1 << rng.below(16),
        (_, true) => linedef.args[rng.below(5)] ^= 1 << rng.below(8),
    }
}

fn touch_subsector(subsector: &mut Subsector, segs: usize) -> bool {
    let first = Subsector { number: 1, first: 0 };
    if segs == 1 {
        return false;
    }
    *subsector = if *subsector == first { Subsector { number: 1, first: 1 } } else { first };
    true
}

/// Places whose lumps grow together, at each place the group that has it last: a new node needs a new subsector.
pub(crate) const GROUPS: [&[usize]; 8] = [&[1], &[2], &[3], &[4], &[5], &[6], &[6, 7], &[8]];

/// One record more behind the last of each lump of a group. A new node becomes the root, over the old one and a new subsector.
pub(crate) fn grow(map: &mut MapSpec, group: &[usize], rng: &mut Rng) {
    match group {
        [1] => map.things.push(any_thing(map.hexen, rng)),
        [2] => map.linedefs.push(Linedef { special: rng.byte().into(), ..map.linedefs[0] }),
        [3] => map.sidedefs.push(Sidedef { sector: map.sidedefs[0].sector, ..any_sidedef(rng) }),
        [4] => map.vertices.push(any_vertex(rng)),
        [5] => map.segs.push(Seg { angle: rng.u16(), offset: rng.i16(), ..map.segs[0] }),
        [8] => {
            map.sectors.push(any_sector(rng));
            map.reject.resize(reject_size(map.sectors.len()), 0);
        }
        _ => {
            let (subsector, nodes) = (map.subsectors.len() as u16, map.nodes.len() as u16);
            map.subsectors.push(Subsector { number: 1, first: rng.below(map.segs.len()) as u16 });
            if group.contains(&7) {
                let right = nodes.checked_sub(1).unwrap_or(SUBSECTOR_BIT);
                map.nodes.push(Node { right, left: SUBSECTOR_BIT | subsector, ..any_node(rng) });
            }
        }
    }
}
