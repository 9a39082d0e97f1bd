//! NODES numbered anew, children before their parents (W-212).

use crate::graph::Graph;
use crate::map::{judge_lumps, lumps_of};
use crate::{Node, Refusal, SUBSECTOR_BIT};

/// How many numbers a list can name.
const NUMBERS: usize = 1 << 16;

/// Bytes of a node's record before its two children.
const BEFORE_CHILDREN: usize = Node::SIZE - 4;

/// Writes the NODES of a map in the order of a list of old numbers, and answers how many bytes they have: the refusals of
/// [`judge_map`](crate::judge_map), then 73, 70, 72, 71 and 74.
///
/// The list must be as long as there are nodes that the root reaches (73), hold each of them once (70), end with the root if it is not
/// empty (72), and have every child node before its parent (71); the output must be long enough (74). A refusal writes nothing, and bytes
/// behind the lump stay as found. The words end as `judge_map` leaves them.
pub fn renumber(wad: &[u8], name: &[u8], words: &mut [u16], order: &[u16], out: &mut [u8]) -> Result<usize, Refusal> {
    let (lumps, _) = lumps_of(wad, name)?;
    judge_lumps(&lumps, words)?;
    let graph = Graph::read(lumps.at(7));
    judge_order(&graph, order)?;
    let new = written(lumps.at(7), &graph, order);
    let place = out.get_mut(..new.len()).ok_or(Refusal::plain(74))?;
    place.copy_from_slice(&new);
    Ok(new.len())
}

/// Whether a list is a good order of an accepted map's nodes: refusals 73, 70, 72 and 71.
fn judge_order(graph: &Graph, order: &[u16]) -> Result<(), Refusal> {
    let root = graph.children.len().checked_sub(1);
    let reached = root.and_then(|root| graph.order_below(root)).unwrap_or_default();
    if order.len() != reached.len() {
        return Err(Refusal::plain(73));
    }
    if !holds_each_once(order, &reached) {
        return Err(Refusal::plain(70));
    }
    if order.last().is_some_and(|&last| Some(usize::from(last)) != root) {
        return Err(Refusal::plain(72));
    }
    if !has_children_first(graph, order) {
        return Err(Refusal::plain(71));
    }
    Ok(())
}

/// Whether each of these nodes stands in the list once.
fn holds_each_once(order: &[u16], nodes: &[usize]) -> bool {
    let mut times = vec![0_usize; NUMBERS];
    order.iter().for_each(|&number| times[usize::from(number)] += 1);
    nodes.iter().all(|&node| times[node] == 1)
}

/// Whether all nodes among the children of each listed node are listed before it. All listed numbers must be nodes.
fn has_children_first(graph: &Graph, order: &[u16]) -> bool {
    let mut met = vec![false; graph.children.len()];
    order.iter().map(|&number| usize::from(number)).all(|node| {
        let are_met = graph.node_children(node).all(|child| met[child]);
        met[node] = true;
        are_met
    })
}

/// The listed records; a child that is a node has its place in the list as its number, and every other byte stays.
fn written(nodes: &[u8], graph: &Graph, order: &[u16]) -> Vec<u8> {
    let mut places = vec![0_u16; graph.children.len()];
    for (place, &number) in (0..).zip(order) {
        places[usize::from(number)] = place;
    }
    let renamed = |word: u16| if word & SUBSECTOR_BIT == 0 { places[usize::from(word)] } else { word };
    let mut new = Vec::with_capacity(Node::SIZE * order.len());
    for at in order.iter().map(|&number| usize::from(number)) {
        new.extend(&nodes[at * Node::SIZE..][..BEFORE_CHILDREN]);
        new.extend(graph.children[at].iter().flat_map(|&word| renamed(word).to_le_bytes()));
    }
    new
}
