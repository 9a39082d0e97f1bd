//! Both sides of every field of a record that a map's reason can name (W-211), in both games, into outputs that are long enough and not.

use crate::limit::Build;
use crate::limit_map::unreached_child;
use crate::why::explained_case;
use crate::{Explained, MapSpec, Plan, Rng, Sizes, MAP_NAME};
use reader::{Linedef, Refusal, Seg, Subsector, NO_SIDEDEF, SUBSECTOR_BIT, TWO_SIDED};

/// The record that is bad.
const RECORD: usize = 1;

/// All of them.
pub(crate) fn why_limits() -> Vec<Build> {
    let mut all = Vec::new();
    for hexen in [false, true] {
        let sizes = Sizes { linedefs: 3, sidedefs: 3, segs: 3, ..Sizes::tree(3) }.of(hexen);
        all.extend(reference_limits(sizes));
        all.extend(linedef_faults(sizes));
        all.extend(seg_faults(sizes));
        all.extend(direction_limits(sizes));
        all.extend(subsector_limits(sizes));
        all.extend(child_limits(sizes));
    }
    all
}

/// A balanced map of these sizes, all of whose segs are on the right side of linedef 0, with one edit. Outputs have one byte too few, just enough,
/// one more and none; those of large maps one too few and enough.
pub(crate) fn explained(
    label: &'static str,
    sizes: Sizes,
    edit: impl Fn(&mut MapSpec) + Clone + 'static,
    due: Explained,
) -> Vec<Build> {
    let length = due.printed.length().unwrap_or(0);
    let is_large = [sizes.linedefs, sizes.sidedefs, sizes.vertices, sizes.segs, sizes.nodes].iter().any(|count| *count > 1_000);
    let mut rooms = vec![length.saturating_sub(1), length, length + 1, 0];
    rooms.truncate(if is_large { 2 } else { 4 });
    let build = |room| -> Build {
        let edit = edit.clone();
        Box::new(move || {
            let mut map = MapSpec::plain(sizes, &mut Rng::new(16));
            map.segs.fill(Seg::default());
            edit(&mut map);
            let mut plan = Plan::new(map, MAP_NAME);
            (plan.spare_words, plan.fill) = (1, 0xA5A5);
            explained_case(label, &plan, due, room)
        })
    };
    rooms.into_iter().map(build).collect()
}

/// Refused for this field, or accepted with the route of a balanced tree of three nodes.
pub(crate) fn due(refused: Option<(Refusal, [u32; 4])>) -> Explained {
    refused.map_or(Explained::route("RR"), |(refusal, field)| Explained::field(refusal, field))
}

/// A field that refers to records of one kind: the refusal's number and place, its offset, and how the count and the field are set.
type Reference = (&'static str, u32, usize, usize, fn(&mut Sizes, usize), fn(&mut MapSpec, u16));

const REFERENCES: [Reference; 7] = [
    ("linedef's start", 23, 2, 0, |sizes, count| sizes.vertices = count, |map, number| map.linedefs[RECORD].start = number),
    ("linedef's end", 23, 2, 2, |sizes, count| sizes.vertices = count, |map, number| map.linedefs[RECORD].end = number),
    ("linedef's right side", 23, 2, 10, |sizes, count| sizes.sidedefs = count, |map, number| map.linedefs[RECORD].right = number),
    (
        "linedef's left side",
        23,
        2,
        12,
        |sizes, count| sizes.sidedefs = count,
        |map, number| {
            (map.linedefs[RECORD].left, map.linedefs[RECORD].flags) = (number, TWO_SIDED);
        },
    ),
    ("seg's start", 25, 5, 0, |sizes, count| sizes.vertices = count, |map, number| map.segs[RECORD].start = number),
    ("seg's end", 25, 5, 2, |sizes, count| sizes.vertices = count, |map, number| map.segs[RECORD].end = number),
    ("seg's linedef", 25, 5, 6, |sizes, count| sizes.linedefs = count, |map, number| map.segs[RECORD].linedef = number),
];

/// The first number, the last, one more and the largest that a field holds, over few records and the most. Hexen's sides stand two bytes later.
fn reference_limits(sizes: Sizes) -> Vec<Build> {
    let mut all = Vec::new();
    for (label, number, place, offset, set, put) in REFERENCES {
        let offset = if sizes.hexen && offset >= 10 { offset + 2 } else { offset };
        for count in [2, 3, 255, 256, 257, 65_535] {
            let mut sizes = sizes;
            set(&mut sizes, count);
            for value in [0, count - 1, count, 65_535] {
                let field = [offset as u32, value as u32, 0, count as u32 - 1];
                let refused = (value >= count).then_some((Refusal::new(number, place, RECORD), field));
                all.extend(explained(label, sizes, move |map| put(map, value as u16), due(refused)));
            }
        }
    }
    for count in [1, 2, 256, 257, 2_000] {
        for value in [0, count - 1, count, 65_535] {
            let refused = (value >= count).then_some((Refusal::new(24, 3, RECORD), [28, value as u32, 0, count as u32 - 1]));
            let edit = move |map: &mut MapSpec| map.sidedefs[RECORD].sector = value as u16;
            all.extend(explained("sidedef's sector", Sizes { sectors: count, ..sizes }, edit, due(refused)));
        }
    }
    all
}

/// Every choice of bad fields of a linedef, a left side that is missing among them; and later linedefs that are bad.
fn linedef_faults(sizes: Sizes) -> Vec<Build> {
    let end = Linedef::size(sizes.hexen) as u32;
    let mut all = Vec::new();
    for bad in 0..16_u16 {
        for left in [3, NO_SIDEDEF - 1, NO_SIDEDEF] {
            let is_bad = move |field: u16| bad >> field & 1 == 1;
            let edit = move |map: &mut MapSpec| {
                map.linedefs[RECORD + 1].start = u16::from(bad > 0);
                let line = &mut map.linedefs[RECORD];
                (line.start, line.end) = (7 * u16::from(is_bad(0)), 8 * u16::from(is_bad(1)));
                line.right = if is_bad(2) { NO_SIDEDEF } else { 0 };
                (line.left, line.flags) = if is_bad(3) { (left, !0) } else { (NO_SIDEDEF, !TWO_SIDED) };
            };
            let fields = [[0, 7, 0, 0], [2, 8, 0, 0], [end - 4, 65_535, 0, 2], [end - 2, left.into(), 0, 2]];
            let first = (0..4).find(|field| is_bad(*field));
            let refused = first.map(|field| (Refusal::new(23, 2, RECORD), fields[usize::from(field)]));
            all.extend(explained("bad fields of a linedef", sizes, edit, due(refused)));
        }
    }
    let lonely = |map: &mut MapSpec| (map.linedefs[0].left, map.linedefs[0].flags) = (NO_SIDEDEF, TWO_SIDED);
    let missing = Explained::field(Refusal::new(23, 2, 0), [end - 2, 65_535, 0, 2]);
    all.extend(explained("left side missing", sizes, lonely, missing));
    all
}

/// Every choice of bad fields of a seg, on lines with a left side and without.
fn seg_faults(sizes: Sizes) -> Vec<Build> {
    let mut all = Vec::new();
    for bad in 0..16_u16 {
        for linedef in [0, 1] {
            let is_bad = move |field: u16| bad >> field & 1 == 1;
            let edit = move |map: &mut MapSpec| {
                map.segs[RECORD + 1].start = u16::from(bad > 0);
                let seg = &mut map.segs[RECORD];
                (seg.start, seg.end) = (7 * u16::from(is_bad(0)), 8 * u16::from(is_bad(1)));
                (seg.linedef, seg.direction) = (if is_bad(2) { 3 } else { linedef }, 2 * u16::from(is_bad(3)));
            };
            let fields = [[0, 7, 0, 0], [2, 8, 0, 0], [6, 3, 0, 2], [8, 2, 0, u32::from(linedef)]];
            let first = (0..4).find(|field| is_bad(*field));
            let refused = first.map(|field| (Refusal::new(25, 5, RECORD), fields[usize::from(field)]));
            all.extend(explained("bad fields of a seg", sizes, edit, due(refused)));
        }
    }
    all
}

/// Directions on linedef 0, which has one side, and on linedef 1, which has two.
fn direction_limits(sizes: Sizes) -> Vec<Build> {
    let mut all = Vec::new();
    for linedef in [0, 1] {
        for direction in [0, 1, 2, 0x00FF, 0x0100, 0x0101, 0xFFFE, 0xFFFF] {
            let edit = move |map: &mut MapSpec| (map.segs[RECORD].linedef, map.segs[RECORD].direction) = (linedef, direction);
            let field = [8, direction.into(), 0, linedef.into()];
            let refused = (direction > linedef).then_some((Refusal::new(25, 5, RECORD), field));
            all.extend(explained("direction", sizes, edit, due(refused)));
        }
    }
    all
}

/// Numbers at both ends of the segs, each with firsts at both ends of what it leaves.
fn subsector_limits(sizes: Sizes) -> Vec<Build> {
    let mut all = Vec::new();
    for segs in [2, 3, 256, 65_535_u32] {
        for number in [0, 1, segs - 1, segs, segs + 1, 65_535] {
            for first in [0, segs.saturating_sub(number), segs.saturating_sub(number) + 1, segs, 65_535] {
                let [Ok(stored), Ok(start)] = [number, first].map(u16::try_from) else { continue };
                let field = match number {
                    _ if number < 1 || number > segs => Some([0, number, 1, segs]),
                    _ if first + number > segs => Some([2, first, 0, segs - number]),
                    _ => None,
                };
                let edit = move |map: &mut MapSpec| map.subsectors[RECORD] = Subsector { number: stored, first: start };
                let refused = field.map(|field| (Refusal::new(26, 6, RECORD), field));
                all.extend(explained("subsector", Sizes { segs: segs as usize, ..sizes }, edit, due(refused)));
            }
        }
    }
    all
}

/// Children of both kinds at both ends of their ranges, of a node that no route reaches; the other child is good, or bad.
fn child_limits(sizes: Sizes) -> Vec<Build> {
    let mut all = Vec::new();
    for (nodes, subsectors) in [(2, 2), (2, 300), (300, 2), (256, 257), (32_767, 32_767)] {
        let sizes = Sizes { nodes, subsectors, ..sizes };
        for child in [0, nodes - 1, nodes, 0x7FFF, 0x8000, 0x7FFF + subsectors, 0x8000 + subsectors, 0xFFFF] {
            for right in [false, true] {
                let (least, count) = if child < 0x8000 { (0, nodes) } else { (0x8000, subsectors) };
                let field = [if right { 24 } else { 26 }, child as u32, least as u32, (least + count) as u32 - 1];
                let bad = Explained::field(Refusal::new(27, 7, 0), field);
                let is_bad = child >= least + count;
                let edit = move |map: &mut MapSpec| unreached_child(map, child as u16, right);
                all.extend(explained("child", sizes, edit, if is_bad { bad } else { Explained::route("R") }));
                let both = move |map: &mut MapSpec| {
                    unreached_child(map, child as u16, true);
                    map.nodes[0].left = SUBSECTOR_BIT | subsectors as u16;
                };
                let left = [26, 0x8000 + subsectors as u32, 0x8000, 0x7FFF + subsectors as u32];
                let left = Explained::field(Refusal::new(27, 7, 0), left);
                all.extend(
                    right.then(|| explained("two children", sizes, both, if is_bad { bad } else { left })).into_iter().flatten(),
                );
            }
        }
    }
    all
}
