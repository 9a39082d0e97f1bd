//! The node graph: loop, shared children and depth, all by topological order.

use crate::{Node, Refusal, SUBSECTOR_BIT};

/// How many child words there are.
const WORDS: usize = 1 << 16;

/// The two child words of each node.
pub(crate) struct Graph {
    pub(crate) children: Vec<[u16; 2]>,
}

/// The depth of the graph below the last node: refusals 31 and 32. Children must be in range.
///
/// A loop in 01's sense (some list of N choices is still on a node) is a cycle that the root
/// reaches: N choices pass N + 1 nodes, so one of them twice. Where there is none, the lists of
/// choices that lead to a node or subsector can be counted, and W-202 allows one.
pub(crate) fn judge(nodes: &[u8]) -> Result<usize, Refusal> {
    let graph = Graph::read(nodes);
    let Some(root) = graph.children.len().checked_sub(1) else { return Ok(0) };
    let order = graph.order_below(root).ok_or(Refusal::new(31, 7, 0))?;
    if graph.is_shared(&order) {
        return Err(Refusal::new(32, 7, 0));
    }
    Ok(graph.depth(&order))
}

impl Graph {
    pub(crate) fn read(nodes: &[u8]) -> Self {
        Self { children: Node::all(nodes).map(|node| [node.right, node.left]).collect() }
    }

    /// The nodes among a node's children.
    pub(crate) fn node_children(&self, node: usize) -> impl Iterator<Item = usize> {
        self.children[node].into_iter().filter(|word| word & SUBSECTOR_BIT == 0).map(usize::from)
    }

    /// The nodes that the root reaches, each behind all its parents; `None` where there is a loop.
    ///
    /// Nodes are taken as soon as all reached places that name them are taken (Kahn); a cycle is
    /// what can never be taken.
    pub(crate) fn order_below(&self, root: usize) -> Option<Vec<usize>> {
        let (mut parents, reached) = self.parents_below(root);
        let mut order = Vec::with_capacity(reached);
        let mut free = if parents[root] == 0 { vec![root] } else { vec![] };
        while let Some(node) = free.pop() {
            order.push(node);
            for child in self.node_children(node) {
                parents[child] -= 1;
                if parents[child] == 0 {
                    free.push(child);
                }
            }
        }
        (order.len() == reached).then_some(order)
    }

    /// For each node, how many times reached nodes name it as a child; and how many are reached.
    fn parents_below(&self, root: usize) -> (Vec<usize>, usize) {
        let mut parents = vec![0; self.children.len()];
        let mut seen = vec![false; self.children.len()];
        seen[root] = true;
        let (mut open, mut reached) = (vec![root], 0);
        while let Some(node) = open.pop() {
            reached += 1;
            for child in self.node_children(node) {
                parents[child] += 1;
                if !std::mem::replace(&mut seen[child], true) {
                    open.push(child);
                }
            }
        }
        (parents, reached)
    }

    /// Whether two lists of choices lead to one word. One list, the empty one, leads to the root;
    /// and as many as lead to a node lead on to each of its children. More than two count as two.
    fn is_shared(&self, order: &[usize]) -> bool {
        let mut lists = vec![0_u8; WORDS];
        lists[order[0]] = 1;
        for &node in order {
            for child in self.children[node].map(usize::from) {
                lists[child] = 2.min(lists[child] + lists[node]);
            }
        }
        lists.contains(&2)
    }

    /// The largest number of nodes on a route.
    fn depth(&self, order: &[usize]) -> usize {
        let mut passed = vec![1; self.children.len()];
        for &node in order {
            for child in self.node_children(node) {
                passed[child] = passed[child].max(passed[node] + 1);
            }
        }
        order.iter().map(|&node| passed[node]).max().unwrap_or(0)
    }
}
