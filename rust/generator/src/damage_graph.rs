//! Minimal damages of a map's tree of nodes: loops (31) and shared children (32).

use crate::damage::{damage, Damage};
use crate::{Plan, Rng};
use reader::{Node, Refusal, SUBSECTOR_BIT};

/// The damages, numbers rising. Each finds a graph without a loop, and shares a child in it whether or not one is shared already.
pub(crate) const GRAPH_DAMAGES: &[Damage] = &[
    damage(31, "root that is its own child", |plan, rng| {
        let root = plan.map.nodes.len() - 1;
        *either_child(plan, root, rng) = root as u16;
        Refusal::new(31, 7, 0)
    }),
    damage(31, "loop through another node", |plan, rng| {
        let root = plan.map.nodes.len() - 1;
        let other = rng.below(root);
        *either_child(plan, root, rng) = other as u16;
        *either_child(plan, other, rng) = root as u16;
        Refusal::new(31, 7, 0)
    }),
    damage(32, "both children of a node the same", |plan, rng| {
        let node = rng.pick(&reached(&plan.map.nodes));
        let node = &mut plan.map.nodes[node];
        let child = rng.pick(&[node.right, node.left]);
        (node.right, node.left) = (child, child);
        Refusal::new(32, 7, 0)
    }),
    damage(32, "subsector that two places name", |plan, rng| {
        let mut ends = ends(&plan.map.nodes);
        let (node, right) = ends.swap_remove(rng.below(ends.len()));
        let (other, its_right) = rng.pick(&ends);
        let subsector = *child(&mut plan.map.nodes[other], its_right);
        *child(&mut plan.map.nodes[node], right) = subsector;
        Refusal::new(32, 7, 0)
    }),
    damage(32, "node that two places name", |plan, rng| {
        let root = plan.map.nodes.len() - 1;
        let right = below(&plan.map.nodes, plan.map.nodes[root].right).is_empty();
        let kept = *child(&mut plan.map.nodes[root], !right);
        let nodes = below(&plan.map.nodes, kept);
        let twice = if nodes.is_empty() { kept } else { rng.pick(&nodes) as u16 };
        *child(&mut plan.map.nodes[root], right) = twice;
        Refusal::new(32, 7, 0)
    }),
];

/// The place of a node's right child, or of its left one.
fn child(node: &mut Node, right: bool) -> &mut u16 {
    if right {
        &mut node.right
    } else {
        &mut node.left
    }
}

fn either_child<'a>(plan: &'a mut Plan, node: usize, rng: &mut Rng) -> &'a mut u16 {
    child(&mut plan.map.nodes[node], rng.once_in(2))
}

/// The nodes that a child word leads to, its own among them.
fn below(nodes: &[Node], word: u16) -> Vec<usize> {
    let (mut met, mut open) = (Vec::new(), vec![word]);
    while let Some(word) = open.pop() {
        let node = usize::from(word);
        if word & SUBSECTOR_BIT == 0 && !met.contains(&node) {
            met.push(node);
            open.extend([nodes[node].right, nodes[node].left]);
        }
    }
    met
}

/// The nodes that the root reaches.
fn reached(nodes: &[Node]) -> Vec<usize> {
    below(nodes, nodes.len() as u16 - 1)
}

/// The places of reached nodes, right or not, that name a subsector: two at least, since some node is the lowest.
fn ends(nodes: &[Node]) -> Vec<(usize, bool)> {
    let places = reached(nodes).into_iter().flat_map(|node| [(node, true), (node, false)]);
    let word = |(node, right): (usize, bool)| if right { nodes[node].right } else { nodes[node].left };
    places.filter(|&place| word(place) & SUBSECTOR_BIT != 0).collect()
}
