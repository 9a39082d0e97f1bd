//! Choices from the root: into a loop, and along a longest route (W-211).

use crate::graph::Graph;
use crate::SUBSECTOR_BIT;

/// The choices from the root that lead to a node for the second time: right where a loop can be reached through the right child, otherwise
/// left. There must be a loop.
pub(crate) fn way_into_loop(nodes: &[u8]) -> Vec<u8> {
    let graph = Graph::read(nodes);
    let leads = graph.lead_into_loops();
    let mut met = vec![false; leads.len()];
    let (mut at, mut choices) = (leads.len() - 1, Vec::new());
    while !std::mem::replace(&mut met[at], true) {
        let [right, left] = graph.children[at];
        let goes_right = right & SUBSECTOR_BIT == 0 && leads[usize::from(right)];
        choices.push(if goes_right { b'R' } else { b'L' });
        at = usize::from(if goes_right { right } else { left });
    }
    choices
}

/// The choices of a route as long as the depth, right where both children have one. There must be no loop.
pub(crate) fn longest_route(nodes: &[u8]) -> Vec<u8> {
    let graph = Graph::read(nodes);
    let heights = graph.heights();
    let height = |word: u16| if word & SUBSECTOR_BIT == 0 { heights[usize::from(word)] } else { 0 };
    let mut word = heights.len().checked_sub(1).map_or(SUBSECTOR_BIT, |root| root as u16);
    let mut choices = Vec::new();
    while word & SUBSECTOR_BIT == 0 {
        let [right, left] = graph.children[usize::from(word)];
        let goes_right = height(right) >= height(left);
        choices.push(if goes_right { b'R' } else { b'L' });
        word = if goes_right { right } else { left };
    }
    choices
}

impl Graph {
    /// Of each node, whether a loop can be reached from it. One after the other, nodes are taken that have no node as a child but taken
    /// ones; what can never be taken leads into a loop.
    fn lead_into_loops(&self) -> Vec<bool> {
        let (first, next) = self.places();
        let mut open: Vec<usize> = (0..self.children.len()).map(|node| self.node_children(node).count()).collect();
        let mut free: Vec<usize> = (0..open.len()).filter(|&node| open[node] == 0).collect();
        while let Some(node) = free.pop() {
            let places = std::iter::successors(first[node], |&place: &usize| next[place]);
            for parent in places.map(|place| place / 2) {
                open[parent] -= 1;
                free.extend((open[parent] == 0).then_some(parent));
            }
        }
        open.into_iter().map(|children| children > 0).collect()
    }

    /// The places that name each node, two for each parent, as chains: the first one of a node, and which one follows a place.
    fn places(&self) -> (Vec<Option<usize>>, Vec<Option<usize>>) {
        let mut first = vec![None; self.children.len()];
        let mut next = vec![None; 2 * self.children.len()];
        for (place, &word) in self.children.as_flattened().iter().enumerate() {
            if word & SUBSECTOR_BIT == 0 {
                next[place] = first[usize::from(word)].replace(place);
            }
        }
        (first, next)
    }

    /// The most nodes that a route from each reached node passes, itself among them.
    fn heights(&self) -> Vec<usize> {
        let mut heights = vec![0; self.children.len()];
        let order = heights.len().checked_sub(1).and_then(|root| self.order_below(root)).unwrap_or_default();
        for &node in order.iter().rev() {
            heights[node] = 1 + self.node_children(node).map(|child| heights[child]).max().unwrap_or(0);
        }
        heights
    }
}
