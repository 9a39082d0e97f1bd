//! Descents: NODES lumps, counts of subsectors and points.

use crate::flip::flip;
use crate::map::encode;
use crate::record::any_node;
use crate::{Case, Expected, Question, Rng, Shape};
use reader::{Found, Node, Refusal, SUBSECTOR_BIT};
use std::cmp::Ordering;

/// A descent of any kind, good or bad.
pub fn descent_case(rng: &mut Rng) -> Case {
    match rng.below(10) {
        0 => staircase(rng),
        1 => on_the_slant(rng),
        2 => by_a_straight_line(rng),
        3 => bad_sizes(rng),
        4 => bad_child(rng),
        5 => round_and_round(rng),
        6 => any_children(rng),
        7 => flipped(rng),
        _ => good_graph(rng),
    }
}

fn ask(label: &str, nodes: &[Node], subsectors: usize, (x, y): (i16, i16), expected: Expected) -> Case {
    Case::new(label, encode(nodes), Question::Descend { subsectors, x, y }, expected)
}

/// Upright lines from east to west, each with a subsector to its right: the answer is known.
fn staircase(rng: &mut Rng) -> Case {
    let count = rng.between(1, 9);
    let line = |index: usize| 10 * index as i16;
    let nodes: Vec<Node> = (0..count)
        .map(|index| Node {
            x: line(index),
            dy: 64,
            right: SUBSECTOR_BIT | (index + 1) as u16,
            left: if index == 0 { SUBSECTOR_BIT } else { index as u16 - 1 },
            ..Node::default()
        })
        .collect();
    let (x, y) = (rng.below(10 * count + 20) as i16 - 10, rng.i16());
    let first_right = (0..count).rev().find(|&index| x > line(index));
    let found = match first_right {
        Some(index) => Found { subsector: index + 1, count: count - index },
        None => Found { subsector: 0, count },
    };
    ask("descent down a staircase", &nodes, count + 1, (x, y), Expected::Found(found))
}

/// A point on the slanting line of one node: always left.
fn on_the_slant(rng: &mut Rng) -> Case {
    let (x, y) = (rng.i16(), rng.i16());
    let (dx, dy) = (slope(rng), slope(rng));
    let node = Node { x, y, dx, dy, ..leaf(rng) };
    ask("point on a slanting line", &[node], 2, along((x, y), (dx, dy)), goes(Side::Left))
}

/// A part of a slanting direction: anything but 0.
fn slope(rng: &mut Rng) -> i16 {
    match rng.i16() {
        0 => 1,
        any => any,
    }
}

/// A node whose children are subsectors: 1 to the right, 0 to the left.
fn leaf(rng: &mut Rng) -> Node {
    Node { right: SUBSECTOR_BIT | 1, left: SUBSECTOR_BIT, ..any_node(rng) }
}

/// The answer of a descent over one leaf that goes to that side.
fn goes(side: Side) -> Expected {
    Expected::Found(Found { subsector: side as usize, count: 1 })
}

/// The side that a point goes to, with the subsector that a leaf has there.
#[derive(Clone, Copy)]
enum Side {
    Left = 0,
    Right = 1,
}

/// A straight direction: its name, its dx and dy, and the sides of points that lie below, at and above the line's start in the
/// coordinate across it.
struct Straight(&'static str, [i16; 3], [i16; 3], [Side; 3]);

const NONE: [i16; 3] = [0; 3];
const MORE: [i16; 3] = [1, 64, i16::MAX];
const LESS: [i16; 3] = [-1, -64, i16::MIN];

const STRAIGHT: [Straight; 5] = [
    Straight("point by a line up", NONE, MORE, [Side::Left, Side::Left, Side::Right]),
    Straight("point by a line down", NONE, LESS, [Side::Right, Side::Right, Side::Left]),
    Straight("point by a line to the east", MORE, NONE, [Side::Right, Side::Right, Side::Left]),
    Straight("point by a line to the west", LESS, NONE, [Side::Left, Side::Left, Side::Right]),
    Straight("point by a line of no direction", NONE, NONE, [Side::Right; 3]),
];

/// A point beside a straight line, on it or at its start. A node of no direction is its own left child, which no point takes.
fn by_a_straight_line(rng: &mut Rng) -> Case {
    let Straight(label, dxs, dys, [below, at, above]) = &STRAIGHT[rng.below(STRAIGHT.len())];
    let (x, y, dx, dy) = (rng.i16(), rng.i16(), rng.pick(dxs), rng.pick(dys));
    let point = (near(x, rng), near(y, rng));
    let across = if dx == 0 { point.0.cmp(&x) } else { point.1.cmp(&y) };
    let side = match across {
        Ordering::Less => below,
        Ordering::Equal => at,
        Ordering::Greater => above,
    };
    let mut node = Node { x, y, dx, dy, ..leaf(rng) };
    if (dx, dy) == (0, 0) {
        node.left = 0;
    }
    ask(label, &[node], 2, point, goes(*side))
}

/// That coordinate, one beside it, or any, often at the ends of 16 bits.
fn near(at: i16, rng: &mut Rng) -> i16 {
    let any = rng.i16();
    rng.pick(&[at, at, at.saturating_sub(1), at.saturating_add(1), i16::MIN, i16::MAX, any])
}

/// The end of the line where that is a point, otherwise its start.
fn along((x, y): (i16, i16), (dx, dy): (i16, i16)) -> (i16, i16) {
    match (x.checked_add(dx), y.checked_add(dy)) {
        (Some(x), Some(y)) => (x, y),
        _ => (x, y),
    }
}

fn good_graph(rng: &mut Rng) -> Case {
    let (count, subsectors) = (rng.between(0, 12), rng.between(1, 9));
    let subsectors = if count == 0 { 1 } else { subsectors };
    let nodes = graph(rng.pick(&Shape::loopless()), count, subsectors, rng);
    let point = (rng.i16(), rng.i16());
    ask("descent in a good graph", &nodes, subsectors, point, Expected::Accepted)
}

fn graph(shape: Shape, count: usize, subsectors: usize, rng: &mut Rng) -> Vec<Node> {
    let (children, _) = shape.children(count, subsectors, rng);
    children.iter().map(|&[right, left]| Node { right, left, ..any_node(rng) }).collect()
}

/// Refusals 40 and 41, and both at once.
fn bad_sizes(rng: &mut Rng) -> Case {
    let count = rng.between(0, 3);
    let mut case = ask("descent's sizes", &graph(Shape::Chain, count, 1, rng), 1, (0, 0), Expected::Accepted);
    let wrong = rng.pick(&[0, 32_768, 65_535, 1 << 16, 1 << 32, usize::MAX]);
    let subsectors = if count == 0 && rng.once_in(2) { 2 } else { wrong };
    let (spoil_size, spoil_count) = rng.pick(&[(true, false), (false, true), (true, true)]);
    if spoil_count {
        case.question = Question::Descend { subsectors, x: rng.i16(), y: rng.i16() };
        case.expected = Expected::Refused(Refusal::plain(41));
    }
    if spoil_size {
        case.bytes.extend(vec![0; rng.between(1, 27)]);
        case.expected = Expected::Refused(Refusal::plain(40));
    }
    case
}

/// A chain in which both children of one node are out of range: 42 there.
fn bad_child(rng: &mut Rng) -> Case {
    let count = rng.between(1, 9);
    let mut nodes = graph(Shape::Ladder, count, 3, rng);
    let bad = rng.below(count);
    let wrong = [count as u16, SUBSECTOR_BIT | 3, 0x7FFF, 0xFFFF];
    (nodes[bad].right, nodes[bad].left) = (rng.pick(&wrong), rng.pick(&wrong));
    let refused = Expected::Refused(Refusal::new(42, 0, bad));
    ask("child out of range", &nodes, 3, (rng.i16(), rng.i16()), refused)
}

/// A ladder whose lowest node leads back into it: 43. Or one whose last allowed choice is good.
fn round_and_round(rng: &mut Rng) -> Case {
    let count = rng.between(1, 9);
    let mut nodes = graph(Shape::Ladder, count, 3, rng);
    let point = (rng.i16(), rng.i16());
    if rng.once_in(4) {
        return ask("N choices and no more", &nodes, 3, point, Expected::Accepted);
    }
    (nodes[0].right, nodes[0].left) = (rng.below(count) as u16, rng.below(count) as u16);
    ask("descent in a ring", &nodes, 3, point, Expected::Refused(Refusal::plain(43)))
}

/// A good graph with some bytes changed.
fn flipped(rng: &mut Rng) -> Case {
    let mut case = good_graph(rng);
    flip(&mut case.bytes, rng);
    (case.label, case.expected) = ("flipped nodes".into(), Expected::Unknown);
    case
}

/// Children in range or a little out of it.
fn any_children(rng: &mut Rng) -> Case {
    let (count, subsectors) = (rng.between(1, 6), rng.between(1, 6));
    let mut nodes = graph(Shape::Any, count, subsectors, rng);
    for _ in 0..rng.below(3) {
        let child = rng.below(8) as u16 | rng.pick(&[0, SUBSECTOR_BIT]);
        let node = &mut nodes[rng.below(count)];
        *rng.either(&mut node.right, &mut node.left) = child;
    }
    ask("descent anywhere", &nodes, subsectors, (rng.i16(), rng.i16()), Expected::Unknown)
}
