//! Both sides of each rule on an order of nodes (W-212): its length, each reached node once, the root last, children first, and the output.

use crate::graph::behind_unreached;
use crate::limit::Build;
use crate::renumber::{ordered_case, with_faults};
use crate::{map_case, Case, Expected, Layout, MapSpec, Numbering, OrderFault, Plan, Rng, Shape, Sizes, MAP_NAME};
use reader::{Node, Refusal, SUBSECTOR_BIT};
use OrderFault::{Child, Length, Once, Room, Root};

/// All of them.
pub(crate) fn renumber_limits() -> Vec<Build> {
    let mut all: Vec<Build> = Vec::new();
    for hexen in [false, true] {
        for &(label, children, orders) in DRAWINGS {
            all.extend(orders.iter().flat_map(|&(order, fault)| drawn(label, children, order, fault, hexen)));
        }
    }
    all.extend(number_limits());
    all.extend(length_limits());
    all.extend(several_faults());
    all.extend(refused_maps());
    all.extend(largest());
    all
}

/// The word of a subsector.
const fn s(number: u16) -> u16 {
    SUBSECTOR_BIT | number
}

/// The children (right, left) of each node.
type Children = &'static [[u16; 2]];

/// What a graph shows, its nodes, and orders of them, each with its fault.
type Drawing = (&'static str, Children, &'static [(&'static [u16], Option<OrderFault>)]);

/// A root, number 4, with node 0 and node 3; node 0 has node 2; nothing leads to node 1.
const FIVE: Children = &[[s(0), 2], [1, 4], [s(1), s(2)], [s(3), s(4)], [0, 3]];

const DRAWINGS: &[Drawing] = &[
    ("no node", &[], &[(&[], None), (&[0], Some(Length)), (&[0xFFFF], Some(Length)), (&[0x8000, 0], Some(Length))]),
    (
        "one node",
        &[[s(0), s(1)]],
        &[
            (&[0], None),
            (&[], Some(Length)),
            (&[0, 0], Some(Length)),
            (&[0, 1], Some(Length)),
            (&[1], Some(Once)),
            (&[0x8000], Some(Once)),
            (&[0xFFFF], Some(Once)),
        ],
    ),
    (
        "two nodes, the child below its parent",
        &[[s(0), s(1)], [s(2), 0]],
        &[(&[0, 1], None), (&[1, 0], Some(Root)), (&[1, 1], Some(Once)), (&[0, 0], Some(Once)), (&[1], Some(Length))],
    ),
    (
        "one node unreached",
        &[[0, 1], [s(0), s(1)]],
        &[(&[1], None), (&[0], Some(Once)), (&[0, 1], Some(Length)), (&[1, 0], Some(Length)), (&[], Some(Length))],
    ),
    (
        "all but the root unreached",
        &[[3, 3], [0, 2], [s(0), s(0)], [s(1), s(2)]],
        &[(&[3], None), (&[2], Some(Once)), (&[0, 1, 2, 3], Some(Length)), (&[3, 3], Some(Length))],
    ),
    (
        "children above their parents",
        &[[1, s(0)], [s(1), s(2)], [s(3), 0]],
        &[
            (&[1, 0, 2], None),
            (&[0, 1, 2], Some(Child)),
            (&[2, 0, 1], Some(Root)),
            (&[1, 2, 0], Some(Root)),
            (&[1, 2, 2], Some(Once)),
        ],
    ),
    (
        "five nodes, one of them unreached",
        FIVE,
        &[
            (&[2, 0, 3, 4], None),
            (&[2, 3, 0, 4], None),
            (&[3, 2, 0, 4], None),
            (&[0, 2, 3, 4], Some(Child)),
            (&[0, 3, 2, 4], Some(Child)),
            (&[3, 0, 2, 4], Some(Child)),
            (&[2, 0, 4, 3], Some(Root)),
            (&[4, 3, 0, 2], Some(Root)),
            (&[2, 0, 1, 4], Some(Once)),
            (&[2, 0, 0, 4], Some(Once)),
            (&[2, 0, 3, 3], Some(Once)),
            (&[4, 0, 2, 4], Some(Once)),
            (&[2, 0, 5, 4], Some(Once)),
            (&[2, 0, 3 | 0x8000, 4], Some(Once)),
            (&[2, 0, 3, 4 | 0x8000], Some(Once)),
            (&[2, 0, 3], Some(Length)),
            (&[2, 0, 1, 3, 4], Some(Length)),
            (&[2, 0, 3, 4, 4], Some(Length)),
        ],
    ),
    (
        "the right below the left, and the left below the right",
        &[[3, s(0)], [s(1), s(2)], [s(3), 1], [s(4), s(5)], [s(6), 2], [4, 0]],
        &[
            (&[1, 2, 4, 3, 0, 5], None),
            (&[3, 0, 1, 2, 4, 5], None),
            (&[3, 1, 0, 2, 4, 5], None),
            (&[1, 3, 2, 0, 4, 5], None),
            (&[1, 2, 4, 0, 3, 5], Some(Child)),
            (&[2, 1, 4, 3, 0, 5], Some(Child)),
            (&[3, 0, 1, 4, 2, 5], Some(Child)),
            (&[0, 1, 2, 3, 4, 5], Some(Child)),
            (&[5, 4, 3, 2, 1, 0], Some(Root)),
        ],
    ),
];

/// A small map of these nodes, which is accepted, with a spare work word.
fn case_of(label: &str, children: &[[u16; 2]], hexen: bool) -> Case {
    let sizes = Sizes { subsectors: if children.is_empty() { 1 } else { 32_767.min(children.len() + 2) }, ..Sizes::LEAST };
    let mut map = MapSpec::plain(sizes.of(hexen), &mut Rng::new(17));
    let coordinate = |at: usize, times: usize| (times * (at + 1)) as i16;
    let node = |(at, &[right, left]): (usize, &[u16; 2])| {
        let (x, y, dx, dy) = (coordinate(at, 41), -coordinate(at, 67), coordinate(at, 7_001), coordinate(at, 911));
        Node { x, y, dx, dy, right_box: [x, y, dx, dy], left_box: [dy, dx, y, x], right, left }
    };
    map.nodes = children.iter().enumerate().map(node).collect();
    let mut plan = Plan::new(map, MAP_NAME);
    (plan.spare_words, plan.fill) = (1, 0xA5A5);
    map_case(label, &plan, Expected::Accepted)
}

/// Outputs have one byte too few, just enough, one more, and none.
fn drawn(label: &'static str, children: Children, order: &'static [u16], fault: Option<OrderFault>, hexen: bool) -> Vec<Build> {
    let length = Node::SIZE * order.len();
    let mut rooms = vec![length, length + 1, 0, length.saturating_sub(1)];
    rooms.dedup();
    let build = |room: usize| -> Build {
        Box::new(move || {
            let faults: Vec<OrderFault> = fault.into_iter().chain((room < length).then_some(Room)).collect();
            ordered_case(case_of(label, children, hexen), order.to_vec(), &faults, room)
        })
    };
    rooms.into_iter().map(build).collect()
}

/// Every number that is near one of a node, near the bit of subsectors, or the largest, at each place of a good order.
fn number_limits() -> Vec<Build> {
    let mut all: Vec<Build> = Vec::new();
    let order: [u16; 4] = [2, 0, 3, 4];
    for number in
        [0, 1, 2, 3, 4, 5, 6, 255, 256, 259, 260, 0x7FFE, 0x7FFF, 0x8000, 0x8002, 0x8003, 0x8004, 0xFF04, 0xFFFE, 0xFFFF]
    {
        for place in 0..order.len() {
            all.push(Box::new(move || {
                let mut order = order.to_vec();
                let faults: &[OrderFault] = if order[place] == number { &[] } else { &[Once] };
                order[place] = number;
                ordered_case(case_of("number of an order", FIVE, false), order, faults, 4 * Node::SIZE)
            }));
        }
    }
    all
}

/// Lengths around the right one, and those that are the right one but for a bit above 16 or below.
fn length_limits() -> Vec<Build> {
    let mut all: Vec<Build> = Vec::new();
    for length in [0, 1, 3, 4, 5, 255, 256, 260, 32_767, 32_768, 32_772, 65_535, 65_536, 65_537, 65_540, 131_072, 131_076] {
        for fill in [0, 4, 9, 0xFFFF] {
            all.push(Box::new(move || {
                let mut order = vec![2, 0, 3, 4];
                order.resize(length, fill);
                let faults: &[OrderFault] = if length == 4 { &[] } else { &[Length] };
                ordered_case(case_of("length of an order", FIVE, false), order, faults, 4 * Node::SIZE)
            }));
        }
    }
    all
}

/// Every choice of faults, put into orders of all kinds: the one that is tested first is due.
fn several_faults() -> Vec<Build> {
    let mut all: Vec<Build> = Vec::new();
    for seed in 0..6 {
        for bits in 0..32 {
            for numbering in Numbering::ALL {
                all.push(Box::new(move || {
                    let faults: Vec<OrderFault> = OrderFault::ALL
                        .into_iter()
                        .zip(0..)
                        .filter(|(_, at)| bits >> at & 1 == 1)
                        .map(|(fault, _)| fault)
                        .collect();
                    with_faults(case_of("faults of an order", FIVE, seed % 2 == 1), numbering, &faults, &mut Rng::new(seed))
                }));
            }
        }
    }
    all
}

/// Makes a map bad.
type PlanEdit = fn(&mut Plan);

/// Too few work words, a loop, a shared child and a child that is not there come before whatever the order is, good or not.
fn refused_maps() -> Vec<Build> {
    let mut all: Vec<Build> = Vec::new();
    let edits: [(u32, usize, PlanEdit); 4] = [
        (30, 0, |plan| plan.spare_words = -1),
        (31, 0, |plan| plan.map.nodes[2].left = 2),
        (32, 0, |plan| plan.map.nodes[2].left = s(1)),
        (27, 1, |plan| plan.map.nodes[1].left = 5),
    ];
    for (number, record, edit) in edits {
        for order in [&[2, 0, 3, 4][..], &[], &[2, 2, 3, 4], &[4, 2, 0, 3], &[0, 2, 3, 4]] {
            for room in [0, 4 * Node::SIZE] {
                all.push(Box::new(move || {
                    let mut map = MapSpec::plain(Sizes::tree(5), &mut Rng::new(18));
                    map.nodes = FIVE.iter().map(|&[right, left]| Node { right, left, ..Node::default() }).collect();
                    let mut plan = Plan::new(map, MAP_NAME);
                    (plan.spare_words, plan.fill) = (1, 0xA5A5);
                    edit(&mut plan);
                    let refused = Expected::Refused(Refusal::new(number, 7, record));
                    ordered_case(map_case("order of a refused map", &plan, refused), order.to_vec(), &[], room)
                }));
            }
        }
    }
    all
}

/// The most nodes that an accepted map reaches, without and with one that it does not: good orders, and every fault, also at the very end.
fn largest() -> Vec<Build> {
    let mut all: Vec<Build> = Vec::new();
    for (shape, is_one_unreached) in
        [(Shape::Chain, false), (Shape::Rising, false), (Shape::Balanced, false), (Shape::Chain, true)]
    {
        for numbering in Numbering::ALL {
            all.push(Box::new(move || with_faults(large_case(shape, is_one_unreached), numbering, &[], &mut Rng::new(3))));
        }
        for fault in OrderFault::ALL {
            all.push(Box::new(move || {
                with_faults(large_case(shape, is_one_unreached), Numbering::Any, &[fault], &mut Rng::new(4))
            }));
        }
        for (fault, edit) in AT_THE_END {
            all.push(Box::new(move || {
                let case = large_case(shape, is_one_unreached);
                let mut order = Numbering::RightFirst.order(&large_nodes(shape, is_one_unreached), &mut Rng::new(5));
                let room = Node::SIZE * order.len();
                edit(&mut order);
                ordered_case(case, order, &[*fault], room)
            }));
        }
    }
    all
}

/// Makes an order bad.
type OrderEdit = fn(&mut Vec<u16>);

/// Edits of the last places of a long post-order, in which the root's child stands before it, and a child of that before both.
const AT_THE_END: &[(OrderFault, OrderEdit)] = &[
    (Length, |order| order.push(0)),
    (Length, |order| order.truncate(order.len() - 1)),
    (Length, |order| order.resize(65_536, 0)),
    (Once, |order| {
        let last = order.len() - 1;
        order[last] = order[0];
    }),
    (Once, |order| {
        let last = order.len() - 1;
        order[last - 1] = order[last];
    }),
    (Root, |order| {
        let last = order.len() - 1;
        order.swap(last - 1, last);
    }),
    (Child, |order| {
        let last = order.len() - 1;
        order.swap(last - 2, last - 1);
    }),
];

fn large_nodes(shape: Shape, is_one_unreached: bool) -> Vec<Node> {
    let (children, _) = shape.children(32_766, 32_767, &mut Rng::new(6));
    let children = if is_one_unreached { behind_unreached(&children) } else { children };
    children.iter().map(|&[right, left]| Node { dx: 5, dy: -3, right, left, ..Node::default() }).collect()
}

fn large_case(shape: Shape, is_one_unreached: bool) -> Case {
    let (mut map, _) = MapSpec::new(Sizes { subsectors: 32_767, ..Sizes::LEAST }, shape, Layout::Empty, &mut Rng::new(7));
    map.nodes = large_nodes(shape, is_one_unreached);
    map_case(format!("{shape:?} of {} nodes, in order", map.nodes.len()), &Plan::new(map, MAP_NAME), Expected::Accepted)
}
