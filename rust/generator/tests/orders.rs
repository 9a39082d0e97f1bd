//! Orders of nodes (W-212): all lists over all small graphs, and orders that the generator calls good.

mod common;

use common::check;
use generator::*;
use reader::{judge_map, Node, SUBSECTOR_BIT};
use std::collections::{BTreeMap, BTreeSet};

/// The file of a map with these children over one subsector more than it has nodes, if it is accepted.
fn accepted(children: &[[u16; 2]]) -> Option<Vec<u8>> {
    let mut map = MapSpec::plain(Sizes::tree(children.len()), &mut Rng::new(1));
    map.nodes = children.iter().map(|&[right, left]| Node { x: 3, right, left, ..Node::default() }).collect();
    let wad = Plan::wad_of(map);
    judge_map(&wad, &MAP_NAME, &mut vec![9; 4 * children.len()]).is_ok().then_some(wad)
}

/// Asks for all lists of this length over the numbers up to `most`, and counts the answers.
fn ask_all(wad: &[u8], nodes: usize, length: u32, most: u16, met: &mut BTreeMap<u32, usize>) {
    let numbers = usize::from(most) + 1;
    for turn in 0..numbers.pow(length) {
        let order: Vec<u16> = (0..length).map(|at| (turn / numbers.pow(at) % numbers) as u16).collect();
        let out = vec![7; Node::SIZE * order.len()];
        let question = Question::Renumber { name: MAP_NAME.to_vec(), words: vec![9; 4 * nodes], order, out };
        *met.entry(check(&Case::new("any list", wad.to_vec(), question, Expected::Unknown))).or_insert(0) += 1;
    }
}

/// Every list of numbers of nodes, and of one that no node has, up to one more than there are nodes.
#[test]
fn all_lists_over_all_graphs_of_up_to_two_nodes_and_some_of_three() {
    let mut met = BTreeMap::new();
    for (count, step) in [(0, 1), (1, 1), (2, 1), (3, 29)] {
        let words: Vec<u16> = (0..count as u16).chain((0..=count as u16).map(|number| SUBSECTOR_BIT | number)).collect();
        for number in (0..words.len().pow(2 * count)).step_by(step) {
            let word = |at: u32| words[number / words.len().pow(at) % words.len()];
            let children: Vec<[u16; 2]> = (0..count).map(|at| [word(2 * at), word(2 * at + 1)]).collect();
            let Some(wad) = accepted(&children) else { continue };
            (0..=count + 1).for_each(|length| ask_all(&wad, count as usize, length, count as u16, &mut met));
        }
    }
    assert_eq!(met.keys().copied().collect::<Vec<u32>>(), [0, 70, 71, 72, 73], "{met:?}");
}

/// The different orders that a numbering gives of a balanced tree of three levels.
fn orders_of(numbering: Numbering) -> BTreeSet<Vec<u16>> {
    let (children, _) = Shape::Balanced.children(7, 8, &mut Rng::new(1));
    let nodes: Vec<Node> = children.iter().map(|&[right, left]| Node { right, left, ..Node::default() }).collect();
    (0..4_000).map(|seed| numbering.order(&nodes, &mut Rng::new(seed))).collect()
}

/// A heap of seven, numbered from the last: the root 6 has 5 and 4, 5 has 3 and 2, 4 has 1 and 0.
#[test]
fn numberings_are_what_they_are_called() {
    assert_eq!(orders_of(Numbering::RightFirst), [vec![3, 2, 5, 1, 0, 4, 6]].into());
    assert_eq!(orders_of(Numbering::LeftFirst), [vec![0, 1, 4, 2, 3, 5, 6]].into());
    assert_eq!(orders_of(Numbering::Levels), [vec![0, 1, 2, 3, 4, 5, 6]].into());
    // Two trees of three, each with two orders, put into each other in twenty ways.
    assert_eq!(orders_of(Numbering::Any).len(), 2 * 2 * 20);
}
