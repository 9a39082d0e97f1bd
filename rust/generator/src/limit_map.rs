//! Both sides of the limits inside a map of either game: counts, references and REJECT. The graph and its work words are in `limit_graph`.

use crate::damage::clear;
use crate::limit::Build;
use crate::MAP_NAME;
use crate::{map_case, Expected, MapSpec, Plan, Rng, Sizes};
use reader::{Linedef, Node, Refusal, Sector, Seg, Subsector, NO_SIDEDEF, SUBSECTOR_BIT, TWO_SIDED};

/// All of them.
pub(crate) fn map_limits() -> Vec<Build> {
    let mut all = limits_of(false);
    all.extend(limits_of(true));
    all
}

fn limits_of(hexen: bool) -> Vec<Build> {
    let least = Sizes::LEAST.of(hexen);
    let mut all = count_limits(Sizes::tree(1).of(hexen));
    all.extend(reject_limits(least));
    all.extend(linedef_limits(least));
    all.extend(seg_limits(least));
    all.extend(subsector_limits(least));
    all.extend(child_limits(least));
    all
}

/// A case on `sizes` with one edit of the map.
pub(crate) fn edited(
    label: &'static str,
    sizes: Sizes,
    edit: impl Fn(&mut MapSpec) + 'static,
    refusal: Option<Refusal>,
) -> Build {
    Box::new(move || {
        let mut map = MapSpec::plain(sizes, &mut Rng::new(11));
        edit(&mut map);
        let expected = refusal.map_or(Expected::Accepted, Expected::Refused);
        map_case(label, &Plan::new(map, MAP_NAME), expected)
    })
}

/// Counts at both ends of the table's ranges.
fn count_limits(least: Sizes) -> Vec<Build> {
    let mut all = Vec::new();
    for (place, set) in (1..).zip(SETTERS) {
        for (count, refusal) in [(1, None), (65_535, None), (65_536, Some(Refusal::new(21, place, 0)))] {
            let mut sizes = least;
            set(&mut sizes, count);
            all.push(edited("count", sizes, |_| (), refusal));
        }
    }
    for (subsectors, refusal) in [(2, None), (32_767, None), (32_768, Some(Refusal::new(21, 6, 0)))] {
        all.push(edited("count of subsectors", Sizes { subsectors, ..least }, |_| (), refusal));
    }
    for (nodes, refusal) in [(32_766, None), (32_768, Some(Refusal::new(21, 7, 0)))] {
        all.push(edited("count of nodes", Sizes { nodes, subsectors: 32_767, ..least }, |_| (), refusal));
    }
    for (count, number, place) in [(65_535, 22, 9), (65_536, 21, 8)] {
        let edit = move |map: &mut MapSpec| map.sectors.resize(count, Sector::default());
        all.push(edited("count of sectors", least, edit, Some(Refusal::new(number, place, 0))));
    }
    for place in 1..=8 {
        let refusal = (place != 1).then_some(Refusal::new(21, place, 0));
        all.push(edited("count of 0", least, move |map| clear(map, place), refusal));
    }
    all
}

/// How to set the count of a kind, by place from 1 on. SECTORS is left out: no file holds the REJECT of 65,535 sectors.
const SETTERS: [fn(&mut Sizes, usize); 5] = [
    |sizes, count| sizes.things = count,
    |sizes, count| sizes.linedefs = count,
    |sizes, count| sizes.sidedefs = count,
    |sizes, count| sizes.vertices = count,
    |sizes, count| sizes.segs = count,
];

/// REJECT a byte short, right, and a byte long.
fn reject_limits(least: Sizes) -> Vec<Build> {
    let mut all: Vec<Build> = Vec::new();
    for sectors in [1, 2, 3, 4, 5, 8, 9, 10, 16, 17, 255, 256, 257, 1000, 5000] {
        for change in [-1, 0, 1] {
            let sizes = Sizes { sectors, ..least };
            let edit = move |map: &mut MapSpec| {
                let size = map.reject.len() as isize + change;
                map.reject.resize(size as usize, 0);
            };
            let refusal = (change != 0).then_some(Refusal::new(22, 9, 0));
            all.push(edited("REJECT", sizes, edit, refusal));
        }
    }
    all
}

fn linedef_limits(least: Sizes) -> Vec<Build> {
    let sizes = Sizes { linedefs: 3, vertices: 300, sidedefs: 400, ..least };
    let good = Linedef { hexen: least.hexen, left: NO_SIDEDEF, ..Linedef::default() };
    let cases = [
        (Linedef { start: 299, end: 299, right: 399, left: 399, flags: 0xFFFF, ..good }, true),
        (Linedef { left: 0, flags: !TWO_SIDED, ..good }, true),
        (Linedef { flags: !TWO_SIDED, ..good }, true),
        (Linedef { flags: TWO_SIDED, ..good }, false),
        (Linedef { start: 300, ..good }, false),
        (Linedef { end: 300, ..good }, false),
        (Linedef { right: 400, ..good }, false),
        (Linedef { right: NO_SIDEDEF, ..good }, false),
        (Linedef { left: 400, ..good }, false),
        (Linedef { left: NO_SIDEDEF - 1, ..good }, false),
    ];
    let build = |(linedef, fine): (Linedef, bool)| {
        let refusal = (!fine).then_some(Refusal::new(23, 2, 2));
        edited("linedef", sizes, move |map| map.linedefs[2] = linedef, refusal)
    };
    let mut all: Vec<Build> = cases.into_iter().map(build).collect();
    for (sector, fine) in [(299, true), (300, false), (0xFFFF, false)] {
        let sizes = Sizes { sectors: 300, sidedefs: 3, ..least };
        let refusal = (!fine).then_some(Refusal::new(24, 3, 1));
        all.push(edited("sidedef", sizes, move |map| map.sidedefs[1].sector = sector, refusal));
    }
    all
}

/// Linedef 0 has one side, linedef 1 has two.
fn seg_limits(least: Sizes) -> Vec<Build> {
    let sizes = Sizes { linedefs: 2, vertices: 300, segs: 5, ..least };
    let cases = [
        (Seg { start: 299, end: 299, linedef: 1, direction: 1, ..Seg::default() }, true),
        (Seg { linedef: 0, direction: 0, ..Seg::default() }, true),
        (Seg { linedef: 0, direction: 1, ..Seg::default() }, false),
        (Seg { linedef: 1, direction: 2, ..Seg::default() }, false),
        (Seg { linedef: 1, direction: 0x0100, ..Seg::default() }, false),
        (Seg { linedef: 2, direction: 0, ..Seg::default() }, false),
        (Seg { linedef: 2, direction: 1, ..Seg::default() }, false),
        (Seg { start: 300, ..Seg::default() }, false),
        (Seg { end: 300, ..Seg::default() }, false),
    ];
    let build = |(seg, fine): (Seg, bool)| {
        let refusal = (!fine).then_some(Refusal::new(25, 5, 4));
        edited("seg", sizes, move |map| map.segs[4] = seg, refusal)
    };
    cases.into_iter().map(build).collect()
}

fn subsector_limits(least: Sizes) -> Vec<Build> {
    let mut all: Vec<Build> = Vec::new();
    for segs in [1, 2, 300, 65_535] {
        let last = segs as u16;
        let sums = [
            (0, last, true),
            (last - 1, 1, true),
            (last, 1, false),
            (0, 0, false),
            (last, 0, false),
            (1, last, false),
            (0xFFFF, 0xFFFF, false),
            (0xFFFF, 1, false),
        ];
        for (first, number, fine) in sums {
            let sizes = Sizes { segs, subsectors: 3, nodes: 1, ..least };
            let refusal = (!fine).then_some(Refusal::new(26, 6, 1));
            let edit = move |map: &mut MapSpec| map.subsectors[1] = Subsector { number, first };
            all.push(edited("subsector", sizes, edit, refusal));
        }
    }
    all
}

/// Children of node 0, which no route reaches, so that it may share its children with the root.
fn child_limits(least: Sizes) -> Vec<Build> {
    let mut all: Vec<Build> = Vec::new();
    for count in [2u16, 300, 32_767] {
        let children = [
            (0, true),
            (count - 1, true),
            (count, false),
            (SUBSECTOR_BIT, true),
            (SUBSECTOR_BIT | (count - 1), true),
            (SUBSECTOR_BIT | count, false),
            (0xFFFF, false),
        ];
        for (child, fine) in children {
            for right in [false, true] {
                let size = usize::from(count);
                let sizes = Sizes { nodes: size, subsectors: size, ..least };
                let refusal = (!fine).then_some(Refusal::new(27, 7, 0));
                let edit = move |map: &mut MapSpec| unreached_child(map, child, right);
                all.push(edited("child", sizes, edit, refusal));
            }
        }
    }
    all
}

pub(crate) fn unreached_child(map: &mut MapSpec, child: u16, right: bool) {
    let (first, root) = (0, map.nodes.len() - 1);
    map.nodes[first] = Node { right: SUBSECTOR_BIT, left: SUBSECTOR_BIT, ..Node::default() };
    map.nodes[root] = Node { right: SUBSECTOR_BIT, left: SUBSECTOR_BIT | 1, ..Node::default() };
    *if right { &mut map.nodes[first].right } else { &mut map.nodes[first].left } = child;
}
