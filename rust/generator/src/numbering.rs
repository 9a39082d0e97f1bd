//! Orders of a map's nodes with every child before its parent (W-212), and faults of such orders.

use crate::Rng;
use reader::{Node, SUBSECTOR_BIT};
use std::collections::VecDeque;

/// How an order comes about. The nodes are taken from the root down, a parent before its children, and listed the other way round.
#[derive(Clone, Copy, Debug, PartialEq, Eq)]
pub enum Numbering {
    /// Post-order: what is below the right child, what is below the left, the node.
    RightFirst,
    /// The same with the left child first.
    LeftFirst,
    /// Level by level, the lowest first.
    Levels,
    /// Any order of them all.
    Any,
}

impl Numbering {
    /// All of them.
    pub const ALL: [Self; 4] = [Self::RightFirst, Self::LeftFirst, Self::Levels, Self::Any];

    /// The nodes that the root reaches, each once. Children that are not there are passed over, and of a graph that is no tree it is some
    /// order of what is reached.
    pub fn order(self, nodes: &[Node], rng: &mut Rng) -> Vec<u16> {
        let mut open: VecDeque<usize> = nodes.len().checked_sub(1).into_iter().collect();
        let (mut met, mut order) = (vec![false; nodes.len()], Vec::new());
        while let Some(node) = self.next(&mut open, rng) {
            if std::mem::replace(&mut met[node], true) {
                continue;
            }
            order.push(node as u16);
            let children = node_children(nodes, node);
            let [first, second] = if self == Self::LeftFirst { [1, 0] } else { [0, 1] };
            open.extend([children[first], children[second]].into_iter().flatten());
        }
        order.reverse();
        order
    }

    fn next(self, open: &mut VecDeque<usize>, rng: &mut Rng) -> Option<usize> {
        match self {
            Self::Levels => open.pop_front(),
            Self::Any => open.swap_remove_back(rng.below(open.len().max(1))),
            _ => open.pop_back(),
        }
    }
}

/// The right and the left child of a node, where they are nodes that are there.
fn node_children(nodes: &[Node], node: usize) -> [Option<usize>; 2] {
    let Node { right, left, .. } = nodes[node];
    [right, left].map(|word| Some(usize::from(word)).filter(|&child| word & SUBSECTOR_BIT == 0 && child < nodes.len()))
}

/// What can be wrong with an order, as it is tested: what comes first compares less.
#[derive(Clone, Copy, Debug, PartialEq, Eq, PartialOrd, Ord)]
pub enum OrderFault {
    /// Another length than there are reached nodes.
    Length,
    /// A number twice, or one that is no reached node.
    Once,
    /// The root elsewhere than at the end.
    Root,
    /// A child behind its parent.
    Child,
    /// Too short an output.
    Room,
}

impl OrderFault {
    /// All of them, as they are tested.
    pub const ALL: [Self; 5] = [Self::Length, Self::Once, Self::Root, Self::Child, Self::Room];

    /// The refusal's number.
    pub fn number(self) -> u32 {
        match self {
            Self::Length => 73,
            Self::Once => 70,
            Self::Root => 72,
            Self::Child => 71,
            Self::Room => 74,
        }
    }

    /// Puts the fault into an order that is good, or has faults that are tested later; answers whether it can be. The output's length is not
    /// the order's.
    pub(crate) fn spoil(self, order: &mut Vec<u16>, nodes: &[Node], rng: &mut Rng) -> bool {
        match self {
            Self::Length => lengthen_or_shorten(order, nodes, rng),
            Self::Once => replace_one(order, nodes, rng),
            Self::Root => move_root(order, rng),
            Self::Child => (0..rng.between(1, 3)).fold(false, |is_done, _| move_parent(order, nodes, rng) || is_done),
            Self::Room => !order.is_empty(),
        }
    }
}

/// Any number: of the list, of a node, or of none, some of which are a listed one's but for a bit.
fn any_number(order: &[u16], nodes: &[Node], rng: &mut Rng) -> u16 {
    let listed = if order.is_empty() { 0 } else { rng.pick(order) };
    let (count, any) = (nodes.len() as u16, rng.u16());
    let node = rng.below(nodes.len().max(1)) as u16;
    rng.pick(&[listed, listed, listed ^ 0x8000, node, node, count, count + 1, any, 0x7FFF, 0x8000, 0xFFFF])
}

fn lengthen_or_shorten(order: &mut Vec<u16>, nodes: &[Node], rng: &mut Rng) -> bool {
    let (length, number) = (order.len(), any_number(order, nodes, rng));
    match rng.below(if length == 0 { 3 } else { 8 }) {
        0 if rng.once_in(8) => order.resize(65_536, number),
        1 if rng.once_in(8) => order.resize(length + 65_536, number),
        0..=2 => order.insert(rng.below(length + 1), number),
        3 => order.clear(),
        4 => order.truncate(rng.below(length)),
        _ => {
            order.remove(rng.below(length));
        }
    }
    true
}

/// Another number in place of one: the one is missing then.
fn replace_one(order: &mut [u16], nodes: &[Node], rng: &mut Rng) -> bool {
    if order.is_empty() {
        return false;
    }
    let any = rng.below(order.len());
    let place = rng.pick(&[any, any, 0, order.len() - 1]);
    let other = std::iter::repeat_with(|| any_number(order, nodes, rng)).find(|number| *number != order[place]);
    order[place] = other.expect("some number is another");
    true
}

/// The root, which is the last, to any other place.
fn move_root(order: &mut [u16], rng: &mut Rng) -> bool {
    let Some(last) = order.len().checked_sub(1).filter(|last| *last > 0) else { return false };
    let place = rng.below(last);
    if rng.once_in(2) {
        order.swap(place, last);
    } else {
        order[place..].rotate_right(1);
    }
    true
}

/// A parent other than the root, which stays the last, to the place of one of its children, and that behind it: it takes the parent's place, or
/// comes next to it.
fn move_parent(order: &mut [u16], nodes: &[Node], rng: &mut Rng) -> bool {
    let mut places = vec![usize::MAX; nodes.len()];
    order.iter().enumerate().for_each(|(place, &node)| places[usize::from(node)] = place);
    let pairs = order.iter().rev().skip(1).flat_map(|&parent| {
        let children = node_children(nodes, parent.into()).into_iter().flatten();
        children.map(move |child| (child, usize::from(parent)))
    });
    let pairs: Vec<(usize, usize)> = pairs.map(|(child, parent)| (places[child], places[parent])).collect();
    let pairs: Vec<(usize, usize)> = pairs.into_iter().filter(|(child, parent)| child < parent).collect();
    if pairs.is_empty() {
        return false;
    }
    let (child, parent) = rng.pick(&pairs);
    if rng.once_in(2) {
        order.swap(child, parent);
    } else {
        order[child..=parent].rotate_right(1);
    }
    true
}
