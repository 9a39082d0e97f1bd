//! Maps whose nodes are to be numbered anew (W-212), with orders good and bad, into outputs of every length around what is written.

use crate::{any_plan, flipped_map_case, map_case, pair_case, single_case, sound_plan, valid_case};
use crate::{Case, Expected, Layout, MapSpec, Numbering, OrderFault, Plan, Question, Rng, Shape, Sizes};
use reader::{Node, Refusal, SUBSECTOR_BIT};

/// A map check's case as one that asks for new numbers, with this order, whose faults are known, and an output of so many bytes.
pub(crate) fn ordered_case(case: Case, order: Vec<u16>, faults: &[OrderFault], room: usize) -> Case {
    let Question::JudgeMap { name, words } = case.question else { return case };
    let expected = match (case.expected, faults.iter().min()) {
        (Expected::Map(_) | Expected::Accepted, Some(fault)) => Expected::Refused(Refusal::plain(fault.number())),
        (Expected::Map(_) | Expected::Accepted, None) => Expected::Count(Node::SIZE * order.len()),
        (expected, _) => expected,
    };
    let out = (0..room).map(|at| 0x5A ^ at as u8).collect();
    Case { question: Question::Renumber { name, words, order, out }, expected, ..case }
}

/// A map check's case as one that asks for new numbers: the order is good, or has one fault, or any of them.
pub fn with_order(case: Case, rng: &mut Rng) -> Case {
    let faults: Vec<OrderFault> = match rng.below(5) {
        0 | 1 => Vec::new(),
        2 | 3 => vec![rng.pick(&OrderFault::ALL)],
        _ => OrderFault::ALL.into_iter().filter(|_| rng.once_in(2)).collect(),
    };
    with_faults(case, rng.pick(&Numbering::ALL), &faults, rng)
}

/// The same with a numbering, and those of the faults that can be put into its order.
pub(crate) fn with_faults(case: Case, numbering: Numbering, faults: &[OrderFault], rng: &mut Rng) -> Case {
    let Question::JudgeMap { name, .. } = &case.question else { return case };
    let nodes = nodes_of(&case.bytes, name);
    let mut order = numbering.order(&nodes, rng);
    let length = Node::SIZE * order.len();
    let is_put = |fault: &OrderFault| fault.spoil(&mut order, &nodes, rng);
    // What is tested later is put in first, so that what is due is not undone.
    let put: Vec<OrderFault> = faults.iter().copied().rev().filter(is_put).collect();
    let room = match put.contains(&OrderFault::Room) {
        true => {
            let any = rng.below(length);
            rng.pick(&[length - 1, length - 1, 0, any])
        }
        false => length + rng.pick(&[0, 0, 0, 1, 1, 9, Node::SIZE]),
    };
    ordered_case(case, order, &put, room)
}

/// The nodes of a map, if it is there.
fn nodes_of(wad: &[u8], name: &[u8]) -> Vec<Node> {
    let marker = reader::find_map(wad, name).marker;
    marker.map_or_else(|_| Vec::new(), |marker| Node::all(reader::lump(wad, marker + Node::PLACE)).collect())
}

/// A small map with an order of its nodes: trees mostly, and among them some that leave nodes unreached.
pub fn renumber_case(rng: &mut Rng) -> Case {
    let (seed, turn) = (rng.word(), rng.below(1 << 30));
    let case = match rng.below(12) {
        0 => valid_case(rng),
        1 => single_case(seed, turn),
        2 => pair_case(seed, turn),
        3 => flipped_map_case(rng),
        4 => chain_case(rng),
        5..=7 => pruned_case(rng),
        _ => tree_case(rng),
    };
    with_order(case, rng)
}

fn tree_case(rng: &mut Rng) -> Case {
    let plan = sound_plan(rng);
    map_case("tree", &plan, Expected::Accepted)
}

/// A deep map: a chain of some hundred nodes, whose numbers fall or rise.
fn chain_case(rng: &mut Rng) -> Case {
    let shape = rng.pick(&[Shape::Chain, Shape::Rising, Shape::Falling]);
    let sizes = Sizes::tree(rng.between(60, 300)).of(rng.once_in(3));
    let (map, _) = MapSpec::new(sizes, shape, Layout::Shared, rng);
    map_case("deep tree", &Plan::new(map, crate::MAP_NAME), Expected::Accepted)
}

/// A good map from which some branches are cut, which no route reaches any more.
fn pruned_case(rng: &mut Rng) -> Case {
    let (mut plan, expected) = any_plan(rng);
    if !matches!(expected, Expected::Map(_)) {
        return map_case("map of any shape", &plan, expected);
    }
    for _ in 0..rng.between(1, 3) {
        prune(&mut plan.map.nodes, rng);
    }
    map_case("pruned tree", &plan, Expected::Accepted)
}

/// A child that is a node gives its place to a subsector that is reached through it, and through nothing else; what was below it stays in
/// NODES. Unreached nodes may be pruned too, but not where they lead to what is reached.
fn prune(nodes: &mut [Node], rng: &mut Rng) {
    let reached = Numbering::Any.order(nodes, rng);
    let places = reached.iter().flat_map(|&node| [(usize::from(node), true), (usize::from(node), false)]);
    let word_at = |nodes: &[Node], (node, right): (usize, bool)| if right { nodes[node].right } else { nodes[node].left };
    let places: Vec<(usize, bool)> = places.filter(|&place| word_at(nodes, place) & SUBSECTOR_BIT == 0).collect();
    if places.is_empty() {
        return;
    }
    let (node, right) = rng.pick(&places);
    let mut word = word_at(nodes, (node, right));
    while word & SUBSECTOR_BIT == 0 {
        word = word_at(nodes, (word.into(), rng.once_in(2)));
    }
    *if right { &mut nodes[node].right } else { &mut nodes[node].left } = word;
}

/// The file with other bytes for one entry's lump, which stand behind all others.
pub fn with_lump(wad: &[u8], entry: usize, lump: &[u8]) -> Vec<u8> {
    let start = i32::from_le_bytes([8, 9, 10, 11].map(|at| wad[at])) as usize;
    let mut new = [wad, lump].concat();
    let part = [wad.len() as i32, lump.len() as i32].map(i32::to_le_bytes).concat();
    new[start + 16 * entry..][..8].copy_from_slice(&part);
    new
}
