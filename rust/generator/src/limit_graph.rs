//! Both sides of the rules on the node graph: work words, loops, shared children, and as many subsectors as a tree needs.

use crate::limit::Build;
use crate::{map_case, verdict, Case, Expected, Layout, MapSpec, Plan, Rng, Shape, Sizes, Truth, MAP_NAME};
use reader::{Node, Refusal, SUBSECTOR_BIT};
use Truth::{Depth, Loop, Shared};

/// The most subsectors that a map may have.
const MOST_SUBSECTORS: usize = 32_767;

/// All of them.
pub(crate) fn graph_limits() -> Vec<Build> {
    let mut all = shape_limits();
    all.extend(subsector_count_limits());
    let drawings = [TREES, SHARED, UNREACHED, LOOPS, FAR].concat();
    all.extend(drawings.into_iter().flat_map(|drawing| [drawn(drawing, false), drawn(drawing, true)]));
    all.push(Box::new(one_unreached_case));
    all
}

/// Shapes at small and at the largest counts, with work words just enough and one too few. At 32,767 nodes no tree reaches them
/// all: it would have 32,768 subsectors.
fn shape_limits() -> Vec<Build> {
    let mut all: Vec<Build> = Vec::new();
    for shape in Shape::loopless().into_iter().chain([Shape::Ring]) {
        for nodes in [1, 2, 3, 30, 32_766, 32_767] {
            for spare in [-1, 0, 1] {
                let subsectors = MOST_SUBSECTORS.min(nodes + 1);
                all.push(Box::new(move || shape_case(shape, Sizes { nodes, subsectors, ..Sizes::LEAST }, spare)));
                let hexen = Sizes { hexen: true, nodes, subsectors, ..Sizes::LEAST };
                all.extend((spare < 1).then(|| -> Build { Box::new(move || shape_case(shape, hexen, spare)) }));
            }
        }
    }
    all
}

/// As many subsectors as a tree of so many nodes needs, one more, and one too few. Without a node there is one and no other.
fn subsector_count_limits() -> Vec<Build> {
    let mut all: Vec<Build> = Vec::new();
    for shape in [Shape::Chain, Shape::Rising, Shape::Balanced, Shape::Falling, Shape::Shuffled] {
        for nodes in [1, 2, 3, 30, 32_765] {
            for subsectors in [nodes, nodes + 1, nodes + 2] {
                all.push(Box::new(move || shape_case(shape, Sizes { nodes, subsectors, ..Sizes::LEAST }, 0)));
            }
        }
    }
    for hexen in [false, true] {
        all.push(drawn(("no node, one subsector", 1, &[], Depth(0)), hexen));
        all.push(Box::new(move || {
            let refused = Expected::Refused(Refusal::new(21, 7, 0));
            map_case("no node, two subsectors", &plan_of(2, &[], hexen), refused)
        }));
    }
    all
}

fn shape_case(shape: Shape, sizes: Sizes, spare: isize) -> Case {
    let Sizes { nodes, subsectors, .. } = sizes;
    let (map, truth) = MapSpec::new(sizes, shape, Layout::Empty, &mut Rng::new(nodes as u64));
    let mut plan = Plan::new(map, MAP_NAME);
    (plan.spare_words, plan.fill) = (spare, 0xA5A5);
    let few = Expected::Refused(Refusal::new(30, 7, 0));
    let expected = if spare < 0 { few } else { verdict(truth, 0) };
    map_case(format!("{shape:?} of {nodes} nodes over {subsectors} subsectors, {spare} spare words"), &plan, expected)
}

/// The largest count of nodes that is accepted: all but node 0 are a chain over all subsectors.
fn one_unreached_case() -> Case {
    let chain = |node: u16| [node - 1, SUBSECTOR_BIT | (node - 1)];
    let mut children: Vec<[u16; 2]> = vec![[0, 0], [SUBSECTOR_BIT, SUBSECTOR_BIT | 32_766]];
    children.extend((2..=32_766).map(chain));
    let plan = plan_of(MOST_SUBSECTORS, &children, false);
    map_case("32,767 nodes, one of them unreached", &plan, verdict(Depth(32_766), 0))
}

/// A graph by hand: what it shows, how many subsectors there are, the children (right, left) of each node, and what is due.
type Drawing = (&'static str, usize, &'static [[u16; 2]], Truth);

/// The word of a subsector.
const fn s(number: u16) -> u16 {
    SUBSECTOR_BIT | number
}

const TREES: &[Drawing] = &[
    ("(g) with subsectors 0 and 1", 2, &[[s(0), s(1)]], Depth(1)),
    ("(j) with different subsectors", 4, &[[1, s(0)], [s(1), s(2)], [s(3), 0]], Depth(3)),
    ("node and subsector of one number", 3, &[[s(0), s(2)], [0, s(1)]], Depth(2)),
    ("right child a node", 3, &[[s(0), s(1)], [0, s(2)]], Depth(2)),
    ("left child a node", 3, &[[s(0), s(1)], [s(2), 0]], Depth(2)),
    ("two nodes side by side", 4, &[[s(0), s(1)], [s(2), s(3)], [0, 1]], Depth(2)),
    ("subsectors that no place names", 9, &[[s(8), s(4)]], Depth(1)),
];

const SHARED: &[Drawing] = &[
    ("(g): root's children the same subsector", 1, &[[s(0), s(0)]], Shared),
    ("root's children the same subsector of two", 2, &[[s(1), s(1)]], Shared),
    ("root's children the same node", 3, &[[s(0), s(1)], [0, 0]], Shared),
    ("children of a lower node the same subsector", 3, &[[s(0), s(0)], [0, s(1)]], Shared),
    ("children of a lower node the same node", 4, &[[s(0), s(1)], [0, 0], [1, s(2)]], Shared),
    ("(j) with one subsector twice", 4, &[[1, s(0)], [s(1), s(2)], [s(0), 0]], Shared),
    ("subsector of a node and its parent", 3, &[[s(0), s(1)], [0, s(1)]], Shared),
    ("subsector of two nodes side by side", 4, &[[s(0), s(1)], [s(2), s(0)], [0, 1]], Shared),
    ("node of a parent and its parent", 4, &[[s(0), s(1)], [0, s(2)], [1, 0]], Shared),
    ("node of two nodes side by side", 4, &[[s(0), s(1)], [0, s(2)], [0, s(3)], [1, 2]], Shared),
    ("node of two nodes below it in number", 4, &[[2, s(0)], [2, s(1)], [s(2), s(3)], [0, 1]], Shared),
    ("node and subsector of one number, the subsector twice", 3, &[[s(0), s(2)], [0, s(0)]], Shared),
];

/// What no route reaches may share as it likes, with its like and with what is reached.
const UNREACHED: &[Drawing] = &[
    ("(i) with different subsectors", 2, &[[0, s(0)], [s(0), s(1)]], Depth(1)),
    ("(i) with one subsector twice", 2, &[[0, s(0)], [s(0), s(0)]], Shared),
    ("unreached node with a subsector twice", 3, &[[s(2), s(2)], [s(0), s(1)]], Depth(1)),
    ("unreached nodes that share a node", 2, &[[s(0), s(1)], [0, 0], [0, 1], [s(0), s(1)]], Depth(1)),
    ("unreached node with a reached child", 3, &[[1, 1], [s(0), s(1)], [1, s(2)]], Depth(2)),
    ("unreached node with the root as a child", 3, &[[1, 1], [s(0), s(1)]], Depth(1)),
    ("unreached loop beside a shared child", 2, &[[1, 1], [0, 0], [s(1), s(1)]], Shared),
];

/// 31 comes before 32 for the whole graph.
const LOOPS: &[Drawing] = &[
    ("(h): node that is its own left child", 1, &[[s(0), 0]], Loop),
    ("node that is both its own children", 1, &[[0, 0]], Loop),
    ("loop and subsector twice", 2, &[[0, s(0)], [0, s(0)]], Loop),
    ("shared on the right, loop on the left", 2, &[[s(0), s(0)], [1, s(1)], [0, 1]], Loop),
    ("loop on the right, shared on the left", 2, &[[s(0), s(0)], [1, s(1)], [1, 0]], Loop),
    ("shared at the root, loop below", 2, &[[0, s(0)], [0, 0]], Loop),
    ("two nodes that have each other twice", 1, &[[1, 1], [0, 0]], Loop),
    ("loop below doublings", 2, &[[1, s(0)], [0, s(0)], [0, 0], [2, 2], [3, 3], [4, 4]], Loop),
];

/// Words that are alike in their low or their high bits, and the largest ones.
const FAR: &[Drawing] = &[
    (
        "words a bit or a byte apart",
        32_767,
        &[[s(0), s(1)], [s(256), 0], [1, s(16_384)], [2, s(16_385)], [s(32_512), 3]],
        Depth(5),
    ),
    ("the two highest subsectors", 32_767, &[[s(32_766), s(32_765)]], Depth(1)),
    ("the highest subsector and its low byte", 32_767, &[[s(32_766), s(254)]], Depth(1)),
    ("the highest subsector twice at one node", 32_767, &[[s(32_766), s(32_766)]], Shared),
    ("the highest subsector at the first node and the root", 32_767, &[[s(32_766), s(0)], [0, s(1)], [1, s(32_766)]], Shared),
    ("a high subsector twice", 32_767, &[[s(0), s(32_512)], [0, s(1)], [s(32_512), 1]], Shared),
    ("subsector 16,384 twice", 32_767, &[[s(16_384), s(0)], [0, s(16_384)]], Shared),
];

fn drawn((label, subsectors, children, truth): Drawing, hexen: bool) -> Build {
    Box::new(move || {
        let mut plan = plan_of(subsectors, children, hexen);
        (plan.spare_words, plan.fill) = (1, 0xA5A5);
        map_case(label, &plan, verdict(truth, 0))
    })
}

/// A small map of a game with these nodes.
fn plan_of(subsectors: usize, children: &[[u16; 2]], hexen: bool) -> Plan {
    let mut map = MapSpec::plain(Sizes { hexen, subsectors, ..Sizes::LEAST }, &mut Rng::new(15));
    map.nodes = children.iter().map(|&[right, left]| Node { right, left, ..Node::default() }).collect();
    Plan::new(map, MAP_NAME)
}
