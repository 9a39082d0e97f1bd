//! NODES numbered anew (W-212), on maps made by hand.

mod common;

use common::{s, words, Map, NAME};
use reader::*;

/// The byte `at` of the part of a node that must stay.
fn kept(node: usize, at: usize) -> u8 {
    (37 * node + at + 1) as u8
}

/// A map with these children (right, left), all of whose nodes differ in all their other bytes.
fn map_of(children: &[[u16; 2]], hexen: bool) -> Map {
    let mut map = Map::good(hexen);
    map.nodes(children);
    for (node, record) in map.lumps[6].chunks_exact_mut(Node::SIZE).enumerate() {
        record[..24].iter_mut().enumerate().for_each(|(at, byte)| *byte = kept(node, at));
    }
    if children.is_empty() {
        map.set(6, words(&[1, 0]));
    }
    map
}

impl Map {
    /// The new lump, or the refusal's number. Outputs of every length around the lump's are tried: 74 is for those that are too short. A
    /// refusal writes nothing, and the words end as the map check leaves them.
    fn renumber(&self, order: &[u16]) -> Result<Vec<u8>, u32> {
        let (wad, lent) = (self.wad(), vec![7; 4 * self.lumps[6].len() / Node::SIZE + 1]);
        let (mut judged, mut long) = (lent.clone(), vec![0xEE; Node::SIZE * order.len() + 9]);
        judge_map(&wad, NAME, &mut judged).expect("a good map");
        let answer = renumber(&wad, NAME, &mut lent.clone(), order, &mut long);
        let length = answer.unwrap_or(0);
        for room in [0, 1, length.saturating_sub(1), length, length + 1] {
            let (mut words, mut out) = (lent.clone(), vec![0xEE; room]);
            let wanted = if room < length { Err(Refusal::plain(74)) } else { answer };
            assert_eq!((renumber(&wad, NAME, &mut words, order, &mut out), &words), (wanted, &judged));
            let written = wanted.unwrap_or(0);
            assert_eq!(out[..written], long[..written]);
            assert!(out[written..].iter().all(|&byte| byte == 0xEE));
        }
        assert!(long[length..].iter().all(|&byte| byte == 0xEE));
        let plain = |refusal: Refusal| (refusal == Refusal::plain(refusal.number)).then_some(refusal.number);
        answer.map(|length| long[..length].to_vec()).map_err(|refusal| plain(refusal).expect("neither place nor record"))
    }
}

/// The list is accepted in both games, and these are the new children, behind the bytes that stay.
fn becomes(children: &[[u16; 2]], order: &[u16], new: &[[u16; 2]]) {
    let record = |(&[right, left], &node): (&[u16; 2], &u16)| {
        let front: Vec<u8> = (0..24).map(|at| kept(node.into(), at)).collect();
        [front, words(&[right, left])].concat()
    };
    assert_eq!(new.len(), order.len());
    let wanted: Vec<u8> = new.iter().zip(order).flat_map(record).collect();
    for hexen in [false, true] {
        assert_eq!(map_of(children, hexen).renumber(order), Ok(wanted.clone()), "{children:?} {order:?}");
    }
}

fn is_refused(children: &[[u16; 2]], order: &[u16], number: u32) {
    for hexen in [false, true] {
        assert_eq!(map_of(children, hexen).renumber(order), Err(number), "{children:?} {order:?}");
    }
}

/// A root, number 4, with node 0 on the right and node 3 on the left, and below node 0, above it in number, node 2. Nothing leads to node 1.
const FIVE: [[u16; 2]; 5] = [[s(0), 2], [1, 4], [s(1), s(2)], [s(3), s(4)], [0, 3]];

#[test]
fn a_map_without_nodes_has_the_empty_order() {
    becomes(&[], &[], &[]);
    for order in [&[0][..], &[65_535], &[0, 0]] {
        is_refused(&[], order, 73);
    }
}

#[test]
fn one_node() {
    becomes(&[[s(1), s(0)]], &[0], &[[s(1), s(0)]]);
    is_refused(&[[s(1), s(0)]], &[], 73);
    is_refused(&[[s(1), s(0)]], &[0, 0], 73);
    for number in [1, 0x7FFF, 0x8000, 0x8001, 0xFFFF] {
        is_refused(&[[s(1), s(0)]], &[number], 70);
    }
}

#[test]
fn children_have_their_new_numbers_and_subsectors_keep_theirs() {
    becomes(&[[s(0), s(1)], [0, s(2)]], &[0, 1], &[[s(0), s(1)], [0, s(2)]]);
    becomes(&FIVE, &[2, 0, 3, 4], &[[s(1), s(2)], [s(0), 0], [s(3), s(4)], [1, 2]]);
    becomes(&FIVE, &[2, 3, 0, 4], &[[s(1), s(2)], [s(3), s(4)], [s(0), 0], [2, 1]]);
    becomes(&FIVE, &[3, 2, 0, 4], &[[s(3), s(4)], [s(1), s(2)], [s(0), 1], [2, 0]]);
}

#[test]
fn unreached_nodes_are_dropped() {
    becomes(&[[0, 0], [s(0), s(1)]], &[1], &[[s(0), s(1)]]);
    becomes(&[[2, 2], [s(0), s(1)], [s(2), 1]], &[1, 2], &[[s(0), s(1)], [s(2), 0]]);
    is_refused(&[[0, 0], [s(0), s(1)]], &[0, 1], 73);
    is_refused(&[[0, 0], [s(0), s(1)]], &[0], 70);
}

#[test]
fn the_length_comes_first() {
    let long = [vec![2, 0, 3, 4], vec![4; 65_536]].concat();
    for order in [&[][..], &[4], &[2, 0, 3], &[0, 3, 4], &[2, 0, 3, 4, 4], &[2, 0, 1, 3, 4], &[9; 5], &long[..65_536], &long] {
        is_refused(&FIVE, order, 73);
    }
}

#[test]
fn each_reached_node_stands_once() {
    for order in [[2, 0, 0, 4], [2, 0, 4, 4], [2, 0, 1, 4], [2, 0, 5, 4], [2, 0, 0x8003, 4], [2, 0, 3, 0xFFFF], [4; 4], [0; 4]] {
        is_refused(&FIVE, &order, 70);
    }
}

#[test]
fn the_root_comes_last() {
    for order in [[4, 0, 2, 3], [2, 4, 0, 3], [2, 0, 4, 3]] {
        is_refused(&FIVE, &order, 72);
    }
}

#[test]
fn every_child_comes_before_its_parent() {
    for order in [[0, 2, 3, 4], [0, 3, 2, 4], [3, 0, 2, 4]] {
        is_refused(&FIVE, &order, 71);
    }
}

#[test]
fn of_all_orders_of_five_nodes_three_are_good() {
    let mut met = std::collections::BTreeMap::new();
    for number in 0..6_usize.pow(4) {
        let order = [0, 1, 2, 3].map(|at| (number / 6_usize.pow(at) % 6) as u16);
        let answer = map_of(&FIVE, false).renumber(&order).map_or_else(|number| number, |_| 0);
        *met.entry(answer).or_insert(0) += 1;
    }
    // Of the rearrangements of four six end with the root, and half of those have node 2 behind node 0.
    assert_eq!(met, [(0, 3), (70, 6 * 6 * 6 * 6 - 24), (71, 3), (72, 18)].into());
}

#[test]
fn the_map_must_be_accepted() {
    let refused = |map: &Map, order: &[u16]| {
        let (mut words, mut judged, mut out) = (vec![7; 21], vec![7; 21], vec![0xEE; 140]);
        let refusal = judge_map(&map.wad(), NAME, &mut judged).expect_err("a bad map");
        assert_eq!(renumber(&map.wad(), NAME, &mut words, order, &mut out), Err(refusal));
        assert_eq!((words, out), (judged, vec![0xEE; 140]));
        (refusal.number, refusal.place, refusal.record)
    };
    let map = map_of(&FIVE, false);
    for order in [&[2, 0, 3, 4][..], &[]] {
        assert_eq!(refused(&map.with(7, 28 * 4 + 24, 4), order), (31, 7, 0));
        assert_eq!(refused(&map.with(7, 28 * 4 + 24, 3), order), (32, 7, 0));
        assert_eq!(refused(&map.with(7, 28 + 24, 5), order), (27, 7, 1));
        assert_eq!(refused(&map.with(3, 30 + 28, 9), order), (24, 3, 1));
    }
    let (wad, mut words) = (map.wad(), vec![7; 19]);
    assert_eq!(renumber(&wad, NAME, &mut words, &[2, 0, 3, 4], &mut [0; 112]), Err(Refusal::new(30, 7, 0)));
    assert_eq!(words, vec![7; 19]);
    for (wad, name, number) in [(&wad[..], b"MAP02\0\0\0", 11), (&wad, b"MAP00\0\0\0", 10), (&wad[..11], NAME, 1)] {
        assert_eq!(renumber(wad, name, &mut [], &[], &mut []).map_err(|refusal| refusal.number), Err(number));
    }
}

/// The most nodes that an accepted map reaches, below one that it does not: a chain whose numbers rise from the root's child down.
#[test]
fn the_longest_chain_is_turned_around() {
    let child = |node: u16| if node == 32_765 { s(32_766) } else { node + 1 };
    let chain: Vec<[u16; 2]> = (0..32_766).map(|node| [child(node), s(node)]).chain([[1, s(0)]]).collect();
    let order: Vec<u16> = (1..32_766).rev().chain([32_766]).collect();
    let new = |place: u16| [place.checked_sub(1).unwrap_or(s(32_766)), s(order[usize::from(place)])];
    let mut wanted: Vec<[u16; 2]> = (0..32_766).map(new).collect();
    wanted[32_765][1] = s(0);
    becomes(&chain, &order, &wanted);
    is_refused(&chain, &[&order[1..], &[32_766]].concat(), 70);
    is_refused(&chain, &[&order[..32_764], &[0, 32_766]].concat(), 70);
    let late: Vec<u16> = order[..32_763].iter().copied().chain([1, 2, 32_766]).collect();
    is_refused(&chain, &late, 71);
}

#[test]
fn every_point_gets_the_same_from_old_and_new() {
    let map = map_of(&FIVE, false);
    let (new, old) = (map.renumber(&[2, 3, 0, 4]).unwrap(), &map.lumps[6]);
    for x in (-32_768..=32_767).step_by(1_021) {
        for y in (-32_768..=32_767).step_by(1_021) {
            assert_eq!(descend(&new, 6, x as i16, y as i16), descend(old, 6, x as i16, y as i16));
        }
    }
}
