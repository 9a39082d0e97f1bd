//! Node graphs of many shapes: the children of each node, and what is known of the whole.

use crate::Rng;
use reader::SUBSECTOR_BIT;
use std::ops::Range;

/// How the nodes hang together. The root is always the last node.
#[derive(Clone, Copy, Debug, PartialEq, Eq)]
pub enum Shape {
    /// Each node has the one before it as a child.
    Chain,
    /// The root has node 0, node 0 has node 1 and so on: children above their parents.
    Rising,
    /// A balanced tree.
    Balanced,
    /// Any tree with children below their parents.
    Falling,
    /// Any tree.
    Shuffled,
    /// A short chain at the root; all other nodes name any nodes and are reached by no route.
    Islands,
    /// Both children of each node are the one before it, and of the first one the same subsector.
    Ladder,
    /// Each node has the two before it: many routes share them.
    Diamond,
    /// A tree, but for one node that two places name.
    TwiceNode,
    /// A tree, but for one subsector that two places name.
    TwiceSubsector,
    /// Any children, without a loop.
    Tangle,
    /// A chain whose last node has one of the chain as a child.
    Ring,
    /// Any children in range.
    Any,
}

/// What is known of a graph.
#[derive(Clone, Copy, Debug, PartialEq, Eq)]
pub enum Truth {
    /// A tree of this depth: no loop, and nothing shared.
    Depth(usize),
    /// A shared child and no loop.
    Shared,
    /// A loop.
    Loop,
    /// Nothing.
    Unknown,
}

impl Shape {
    /// Shapes without a loop and, over one subsector more than they have nodes, without a shared child.
    pub const TREES: [Self; 6] = [Self::Chain, Self::Rising, Self::Balanced, Self::Falling, Self::Shuffled, Self::Islands];

    /// Shapes with a shared child, from three nodes on, and without a loop.
    pub const SHARING: [Self; 4] = [Self::Ladder, Self::Diamond, Self::TwiceNode, Self::TwiceSubsector];

    /// Shapes without a loop.
    pub fn loopless() -> Vec<Self> {
        [&Self::TREES[..], &Self::SHARING, &[Self::Tangle]].concat()
    }

    /// The children (right, left) of `nodes` nodes over `subsectors` subsectors, all in range. Each place of a reached node that
    /// has no node has a subsector of its own, as long as there are enough.
    pub fn children(self, nodes: usize, subsectors: usize, rng: &mut Rng) -> (Vec<[u16; 2]>, Truth) {
        if nodes == 0 {
            return (Vec::new(), Truth::Depth(0));
        }
        let mut grower = Grower { subsectors, rng, children: vec![[None; 2]; nodes] };
        let truth = grower.grow(self);
        (grower.children.iter().map(|both| both.map(Option::unwrap_or_default)).collect(), truth)
    }
}

/// A place that names a child: a node, and its right (0) or left (1).
type Place = (usize, usize);

struct Grower<'a> {
    subsectors: usize,
    rng: &'a mut Rng,
    /// What each place names; `None` is still to be filled with a subsector.
    children: Vec<[Option<u16>; 2]>,
}

impl Grower<'_> {
    fn grow(&mut self, shape: Shape) -> Truth {
        let all = self.children.len();
        match shape {
            Shape::Chain => self.chain(falling(0, all)),
            Shape::Rising => self.chain([all - 1].into_iter().chain(0..all - 1).collect()),
            Shape::Balanced => self.balanced(),
            Shape::Falling => self.tree(falling(0, all)),
            Shape::Shuffled => self.shuffled(),
            Shape::Islands => self.islands(),
            Shape::Ladder => self.ladder(),
            Shape::Diamond => self.diamond(),
            Shape::TwiceNode => self.twice_node(),
            Shape::TwiceSubsector => self.twice_subsector(),
            Shape::Tangle => self.tangle(),
            Shape::Ring => self.ring(),
            Shape::Any => self.any(0..all),
        }
    }

    fn subsector(&mut self) -> u16 {
        SUBSECTOR_BIT | self.rng.below(self.subsectors) as u16
    }

    /// Makes `child` a child of `node`, on either side.
    fn link(&mut self, node: usize, child: usize) {
        let side = self.rng.below(2);
        self.children[node][side] = Some(child as u16);
    }

    /// Gives each empty place a subsector: all different if there are enough. Answers the truth of a tree of this depth.
    fn end(&mut self, depth: usize) -> Truth {
        let places = self.empty_places();
        let mut free: Vec<u16> = (0..self.subsectors as u16).collect();
        shuffle(&mut free, self.rng);
        for &(node, side) in &places {
            let subsector = free.pop().map_or_else(|| self.subsector(), |number| SUBSECTOR_BIT | number);
            self.children[node][side] = Some(subsector);
        }
        if places.len() > self.subsectors {
            return Truth::Shared;
        }
        Truth::Depth(depth)
    }

    fn empty_places(&self) -> Vec<Place> {
        let places = (0..self.children.len()).flat_map(|node| [(node, 0), (node, 1)]);
        places.filter(|&(node, side)| self.children[node][side].is_none()).collect()
    }

    /// Each node of `order` has the next one as a child; all others are filled already.
    fn chain(&mut self, order: Vec<usize>) -> Truth {
        for pair in order.windows(2) {
            self.link(pair[0], pair[1]);
        }
        self.end(order.len())
    }

    /// A heap, numbered from the last node down.
    fn balanced(&mut self) -> Truth {
        let last = self.children.len() - 1;
        for heap in 1..=last {
            self.children[last - (heap - 1) / 2][(heap - 1) % 2] = Some((last - heap) as u16);
        }
        self.end(self.children.len().ilog2() as usize + 1)
    }

    /// Each node of `order` but the first hangs at any place of those before it that is still free.
    fn tree(&mut self, order: Vec<usize>) -> Truth {
        let depth = self.hang(&order);
        self.end(depth)
    }

    /// Hangs the nodes of `order` up and answers the depth; the subsectors are still to come.
    fn hang(&mut self, order: &[usize]) -> usize {
        let mut levels = vec![1; self.children.len()];
        let mut free: Vec<Place> = vec![(order[0], 0), (order[0], 1)];
        for &node in &order[1..] {
            let (parent, side) = free.swap_remove(self.rng.below(free.len()));
            self.children[parent][side] = Some(node as u16);
            levels[node] = levels[parent] + 1;
            free.extend([(node, 0), (node, 1)]);
        }
        levels.into_iter().max().unwrap_or(0)
    }

    fn shuffled(&mut self) -> Truth {
        let order = self.any_order();
        self.tree(order)
    }

    /// The nodes in any order, the root first.
    fn any_order(&mut self) -> Vec<usize> {
        let last = self.children.len() - 1;
        let mut order: Vec<usize> = (0..=last).collect();
        shuffle(&mut order[..last], self.rng);
        order.reverse();
        order
    }

    fn islands(&mut self) -> Truth {
        let all = self.children.len();
        let first = all - self.rng.between(1, all);
        self.any(0..first);
        self.chain(falling(first, all))
    }

    fn ladder(&mut self) -> Truth {
        let end = self.subsector();
        for node in 0..self.children.len() {
            self.children[node] = [Some(node.checked_sub(1).map_or(end, |below| below as u16)); 2];
        }
        Truth::Shared
    }

    /// Up to two nodes are a chain.
    fn diamond(&mut self) -> Truth {
        let all = self.children.len();
        for node in 1..all {
            self.children[node] = [1, 2].map(|step| node.checked_sub(step).map(|below| below as u16));
        }
        let chain = self.end(all);
        if all < 3 {
            chain
        } else {
            Truth::Shared
        }
    }

    /// A free place of a node names one that was hung up later a second time. A lone node has none to name.
    fn twice_node(&mut self) -> Truth {
        let order = self.any_order();
        let depth = self.hang(&order);
        let last = order[order.len() - 1];
        let places: Vec<Place> = self.empty_places().into_iter().filter(|(node, _)| *node != last).collect();
        if places.is_empty() {
            return self.end(depth);
        }
        let (node, side) = self.rng.pick(&places);
        let later = order.iter().skip_while(|it| **it != node).skip(1).copied().collect::<Vec<_>>();
        self.children[node][side] = Some(self.rng.pick(&later) as u16);
        self.end(depth);
        Truth::Shared
    }

    /// Of a tree's places that end at a subsector, one names that of another.
    fn twice_subsector(&mut self) -> Truth {
        let order = self.any_order();
        let depth = self.hang(&order);
        let mut places = self.empty_places();
        shuffle(&mut places, self.rng);
        self.end(depth);
        let [(node, side), (other, its)] = [places[0], places[1]];
        self.children[node][side] = self.children[other][its];
        Truth::Shared
    }

    /// Each node has children out of those behind it in some order, or any subsectors.
    fn tangle(&mut self) -> Truth {
        let order = self.any_order();
        for (at, &node) in order.iter().enumerate() {
            self.children[node] = [0; 2].map(|_| Some(self.subsector()));
            let behind = &order[at + 1..];
            for _ in 0..self.rng.below(3).min(behind.len()) {
                let child = self.rng.pick(behind);
                self.link(node, child);
            }
        }
        Truth::Unknown
    }

    fn ring(&mut self) -> Truth {
        let all = self.children.len();
        let first = all - self.rng.between(1, all);
        self.any(0..first);
        self.chain(falling(first, all));
        let back = self.rng.between(first, all - 1);
        self.link(first, back);
        if self.rng.once_in(2) {
            self.share_ends(first);
        }
        Truth::Loop
    }

    /// All subsectors of the nodes from `first` on become one.
    fn share_ends(&mut self, first: usize) {
        let end = self.subsector();
        let ends = self.children[first..].iter_mut().flatten().flatten();
        ends.filter(|word| **word & SUBSECTOR_BIT != 0).for_each(|word| *word = end);
    }

    /// Any children for these nodes.
    fn any(&mut self, nodes: Range<usize>) -> Truth {
        let all = self.children.len();
        for node in nodes {
            for side in 0..2 {
                let word = if self.rng.once_in(2) { self.rng.below(all) as u16 } else { self.subsector() };
                self.children[node][side] = Some(word);
            }
        }
        Truth::Unknown
    }
}

/// The same nodes behind one that no route reaches, and whose children are the root and itself.
pub(crate) fn behind_unreached(children: &[[u16; 2]]) -> Vec<[u16; 2]> {
    let raised = |word: u16| if word & SUBSECTOR_BIT == 0 { word + 1 } else { word };
    let raised = children.iter().map(|both| both.map(raised));
    [[children.len() as u16, 0]].into_iter().chain(raised).collect()
}

/// The nodes from `first` up to `end`, the last one first.
fn falling(first: usize, end: usize) -> Vec<usize> {
    (first..end).rev().collect()
}

fn shuffle<T>(items: &mut [T], rng: &mut Rng) {
    for at in (1..items.len()).rev() {
        items.swap(at, rng.below(at + 1));
    }
}
