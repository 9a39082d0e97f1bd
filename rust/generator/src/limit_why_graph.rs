//! Ways into loops of all shapes, and longest routes, drawn by hand (W-211); and the longest of both.

use crate::limit::Build;
use crate::limit_why::explained;
use crate::{Explained, MapSpec, Printed, Sizes};
use reader::{Accepted, Node, Refusal, SUBSECTOR_BIT};

/// The word of a subsector.
const fn s(number: u16) -> u16 {
    SUBSECTOR_BIT | number
}

/// What a graph shows, the children (right, left) of each node, and the choices due.
type Drawing = (&'static str, &'static [[u16; 2]], &'static str);

const LOOPS: &[Drawing] = &[
    ("own right child", &[[0, s(0)]], "R"),
    ("own left child", &[[s(0), 0]], "L"),
    ("both own children", &[[0, 0]], "R"),
    ("two nodes by their rights", &[[1, s(0)], [0, s(1)]], "RR"),
    ("two nodes by their lefts", &[[s(0), 1], [s(1), 0]], "LL"),
    ("two nodes by right and left", &[[s(0), 1], [0, s(1)]], "RL"),
    ("self loop below", &[[0, s(0)], [s(1), 0]], "LR"),
    ("self loop at the end of a chain", &[[s(0), 0], [0, s(1)], [s(2), 1], [2, s(3)]], "RLRL"),
    ("loop into the middle", &[[2, s(0)], [0, s(1)], [s(2), 1], [2, s(3)]], "RLRR"),
    ("right is a subsector, loop on the left", &[[s(0), s(1)], [s(2), 1]], "L"),
    ("right is fine, loop on the left", &[[s(0), s(1)], [0, 1]], "L"),
    ("right is fine and deep, loop on the left", &[[s(0), s(1)], [0, s(2)], [s(3), 1], [2, 3]], "L"),
    ("right leads to a loop below, left to the root", &[[s(0), 0], [s(1), 0], [1, 2]], "RLL"),
    ("right leads to a loop on its left", &[[s(0), s(1)], [0, 2], [1, 2]], "RL"),
    ("both lead to loops", &[[0, s(0)], [1, s(1)], [1, 0]], "RR"),
    ("left leads to a loop that right does not", &[[s(0), s(1)], [1, s(2)], [0, 1]], "LR"),
    ("shared node that is fine", &[[s(0), s(1)], [0, 0], [1, 2]], "L"),
    ("shared node that leads to a loop", &[[0, s(0)], [0, 0], [1, 1]], "RRR"),
    ("node met on another way", &[[s(0), s(1)], [0, 3], [0, 1], [2, s(2)]], "RLL"),
    ("loop below doublings", &[[1, s(0)], [0, s(1)], [0, 0], [2, 2], [3, 3]], "RRRRR"),
    ("fine doublings right, loop left", &[[s(0), s(0)], [0, 0], [1, 1], [2, 3]], "L"),
    ("children above their parents", &[[1, s(0)], [s(1), 2], [0, s(2)], [s(3), 0]], "LRLR"),
    ("loop of all", &[[s(0), 3], [0, s(1)], [s(2), 1], [2, s(3)]], "RLRL"),
    ("unreached loop beside it", &[[0, 0], [1, 0], [s(0), 2]], "L"),
    ("unreached node into it", &[[2, 1], [0, 0], [s(0), 2]], "L"),
];

const ROUTES: &[Drawing] = &[
    ("no node", &[], ""),
    ("one node", &[[s(0), s(1)]], "R"),
    ("right child a node", &[[s(0), s(1)], [0, s(2)]], "RR"),
    ("left child a node", &[[s(0), s(1)], [s(2), 0]], "LR"),
    ("both as deep", &[[s(0), s(1)], [s(2), s(3)], [0, 1]], "RR"),
    ("both as deep, right above left", &[[s(0), s(1)], [s(2), s(3)], [1, 0]], "RR"),
    ("left is deeper", &[[s(0), s(1)], [s(2), s(3)], [s(4), 1], [0, 2]], "LLR"),
    ("right is deeper", &[[s(0), s(1)], [s(2), s(3)], [s(4), 1], [2, 0]], "RLR"),
    ("as deep by left and by right", &[[s(0), s(1)], [s(2), 0], [s(3), s(4)], [2, s(5)], [1, 3]], "RLR"),
    ("as deep by right and by left", &[[s(0), s(1)], [s(2), 0], [s(3), s(4)], [2, s(5)], [3, 1]], "RRR"),
    ("as deep below the left", &[[s(0), s(1)], [s(2), s(3)], [0, 1], [s(4), 2]], "LRR"),
    ("(j) with different subsectors", &[[1, s(0)], [s(1), s(2)], [s(3), 0]], "LRR"),
    ("unreached and deep", &[[s(0), s(1)], [0, s(2)], [1, 1], [s(3), s(4)]], "R"),
    ("unreached loop", &[[0, 0], [s(0), s(1)]], "R"),
    ("unreached node above the root", &[[2, 2], [s(0), s(1)], [s(2), 1]], "LR"),
];

/// Refused without a reason.
const SHARED: &[Drawing] = &[
    ("shared subsector", &[[s(0), s(0)]], ""),
    ("shared node", &[[s(0), s(1)], [0, 0]], ""),
    ("shared node beside an unreached loop", &[[0, 0], [s(0), s(1)], [1, 1]], ""),
];

/// All of them.
pub(crate) fn why_graph_limits() -> Vec<Build> {
    let mut all = Vec::new();
    for hexen in [false, true] {
        all.extend(LOOPS.iter().flat_map(|&(label, children, way)| drawn(label, children, hexen, Explained::way(way))));
        all.extend(ROUTES.iter().flat_map(|&(label, children, route)| drawn(label, children, hexen, Explained::route(route))));
    }
    let shared = Explained::of(Err(Refusal::new(32, 7, 0)));
    all.extend(SHARED.iter().flat_map(|&(label, children, _)| drawn(label, children, false, shared)));
    all.extend(longest());
    all
}

fn drawn(label: &'static str, children: &'static [[u16; 2]], hexen: bool, due: Explained) -> Vec<Build> {
    explained(label, Sizes::tree(children.len()).of(hexen), |map| with_nodes(map, children.iter().copied()), due)
}

fn with_nodes(map: &mut MapSpec, children: impl Iterator<Item = [u16; 2]>) {
    map.nodes = children.map(|[right, left]| Node { right, left, ..Node::default() }).collect();
}

/// Unreached nodes up to `first`, whose children are these, and from there on a chain down to it on one side.
fn chain(nodes: usize, first: usize, right: bool, end: [u16; 2]) -> impl Iterator<Item = [u16; 2]> {
    (0..nodes).map(move |at| match (at as u16).checked_sub(first as u16) {
        None => [0, 0],
        Some(0) => end,
        Some(height) if right => [at as u16 - 1, s((height + 1) % 32_767)],
        Some(height) => [s((height + 1) % 32_767), at as u16 - 1],
    })
}

/// Chains of the most nodes that go right or left: loops from the first node to itself, to the middle and to the root; and the longest route, beside
/// which the most nodes leave one unreached.
fn longest() -> Vec<Build> {
    let mut all = Vec::new();
    for (nodes, right) in [(32_767, true), (32_767, false), (256, true), (257, false)] {
        let sizes = Sizes { nodes, subsectors: 32_767.min(nodes + 1), ..Sizes::LEAST };
        for back in [0, nodes as u16 / 2, nodes as u16 - 1] {
            let end = if right { [s(0), back] } else { [back, s(0)] };
            let edit = move |map: &mut MapSpec| with_nodes(map, chain(nodes, 0, right, end));
            let due = Explained { verdict: Err(Refusal::new(31, 7, 0)), printed: Printed::Count(nodes) };
            all.extend(explained("longest way into a loop", sizes, edit, due));
        }
        let depth = nodes.min(32_766);
        let edit = move |map: &mut MapSpec| with_nodes(map, chain(nodes, nodes - depth, right, [s(0), s(1)]));
        all.extend(explained("longest route", sizes, edit, Explained::of(Ok(Accepted { depth, marker: 0 }))));
    }
    all
}
