//! Draw orders: NODES lumps, counts of subsectors, points and words to write to.

use crate::flip::flip;
use crate::map::encode;
use crate::record::any_node;
use crate::{Case, Expected, Question, Rng, Shape};
use reader::{Node, Refusal, SUBSECTOR_BIT};

/// A draw order of any kind, good or bad.
pub fn draw_case(rng: &mut Rng) -> Case {
    match rng.below(10) {
        0 | 1 => tree(rng),
        2 => no_loop(rng),
        3 => ladder(rng),
        4 => ring(rng),
        5 => bad_child(rng),
        6 => bad_sizes(rng),
        7 => few_words(rng),
        8 => any_children(rng),
        _ => flipped(rng),
    }
}

/// Words that are one more than the nodes, and some; what they hold tells them apart.
fn words(nodes: usize, rng: &mut Rng) -> Vec<u16> {
    let (count, fill) = (nodes + 1 + rng.pick(&[0, 0, 1, 5]), rng.pick(&[0x5A00, 0, 0xFFF0]));
    (0..count as u16).map(|at| at.wrapping_add(fill)).collect()
}

fn ask(label: &str, nodes: &[Node], subsectors: usize, expected: Expected, rng: &mut Rng) -> Case {
    let question = Question::DrawOrder { subsectors, x: rng.i16(), y: rng.i16(), words: words(nodes.len(), rng) };
    Case::new(label, encode(nodes), question, expected)
}

fn graph(shape: Shape, count: usize, subsectors: usize, rng: &mut Rng) -> Vec<Node> {
    let (children, _) = shape.children(count, subsectors, rng);
    children.iter().map(|&[right, left]| Node { right, left, ..any_node(rng) }).collect()
}

/// A tree that reaches all its nodes, and so one subsector more.
fn whole_tree(rng: &mut Rng) -> (Vec<Node>, usize) {
    let (count, shape) = (rng.between(1, 40), rng.pick(&Shape::TREES[..5]));
    let subsectors = rng.between(count + 1, count + 3);
    (graph(shape, count, subsectors, rng), subsectors)
}

fn tree(rng: &mut Rng) -> Case {
    let (nodes, subsectors) = whole_tree(rng);
    let count = nodes.len() + 1;
    ask("draw order of a tree", &nodes, subsectors, Expected::Count(count), rng)
}

/// Any graph without a loop: shared children, unreached nodes, or no node at all.
fn no_loop(rng: &mut Rng) -> Case {
    let (count, shape) = (rng.between(0, 9), rng.pick(&Shape::loopless()));
    let subsectors = if count == 0 { 1 } else { rng.between(1, 9) };
    let nodes = graph(shape, count, subsectors, rng);
    ask("draw order without a loop", &nodes, subsectors, Expected::Unknown, rng)
}

/// Both children of each node the next: two ways down are listed by one node, more pass the end.
fn ladder(rng: &mut Rng) -> Case {
    let count = rng.between(1, 30);
    let expected = if count == 1 { Expected::Count(2) } else { Expected::Refused(Refusal::plain(46)) };
    let nodes = graph(Shape::Ladder, count, 3, rng);
    ask("draw order of doublings", &nodes, 3, expected, rng)
}

/// A loop of nodes that have nothing else: the first route never ends, and passes 256 nodes before any entry.
fn ring(rng: &mut Rng) -> Case {
    let count = rng.between(1, 20);
    let mut nodes = graph(Shape::Ladder, count, 3, rng);
    (nodes[0].right, nodes[0].left) = (rng.below(count) as u16, rng.below(count) as u16);
    if rng.once_in(2) {
        let nodes = graph(Shape::Ring, count, 3, rng);
        return ask("draw order with a loop", &nodes, 3, Expected::Unknown, rng);
    }
    ask("draw order of a loop", &nodes, 3, Expected::Refused(Refusal::plain(44)), rng)
}

/// A tree in which one place, near or far, names what is not there; now and then a second place.
fn bad_child(rng: &mut Rng) -> Case {
    let (mut nodes, subsectors) = whole_tree(rng);
    let wrong = [nodes.len() as u16, SUBSECTOR_BIT | subsectors as u16, 0x7FFF, 0xFFFF];
    let mut ends: Vec<usize> = (0..nodes.len()).filter(|&at| has_end(&nodes[at])).collect();
    let at = ends.swap_remove(rng.below(ends.len()));
    *end_of(&mut nodes[at]) = rng.pick(&wrong);
    let mut expected = Expected::Refused(Refusal::new(42, 0, at));
    if !ends.is_empty() && rng.once_in(2) {
        *end_of(&mut nodes[rng.pick(&ends)]) = rng.pick(&wrong);
        expected = Expected::Unknown;
    }
    ask("draw order with a child out of range", &nodes, subsectors, expected, rng)
}

fn has_end(node: &Node) -> bool {
    (node.right | node.left) & SUBSECTOR_BIT != 0
}

/// The place of a node's subsector, the right one if it has two.
fn end_of(node: &mut Node) -> &mut u16 {
    if node.right & SUBSECTOR_BIT != 0 {
        &mut node.right
    } else {
        &mut node.left
    }
}

/// Refusals 40 and 41, and both at once, with words enough or too few.
fn bad_sizes(rng: &mut Rng) -> Case {
    let count = rng.between(0, 3);
    let mut case = ask("draw order's sizes", &graph(Shape::Chain, count, 4, rng), 4, Expected::Unknown, rng);
    let wrong = rng.pick(&[0, 32_768, 65_535, 1 << 16, 1 << 32, usize::MAX]);
    let bad = if count == 0 && rng.once_in(2) { 2 } else { wrong };
    let (spoil_size, spoil_count) = rng.pick(&[(true, false), (false, true), (true, true)]);
    if let Question::DrawOrder { subsectors, words, .. } = &mut case.question {
        *subsectors = if spoil_count { bad } else { count + 1 };
        words.truncate(rng.pick(&[0, 1, 99]));
    }
    case.expected = Expected::Refused(Refusal::plain(if spoil_size { 40 } else { 41 }));
    if spoil_size {
        case.bytes.extend(vec![0; rng.between(1, 27)]);
    }
    case
}

/// 45, whatever else is wrong with the nodes.
fn few_words(rng: &mut Rng) -> Case {
    let count = rng.between(0, 12);
    let (shape, subsectors) = (rng.pick(&[Shape::Chain, Shape::Ring, Shape::Any, Shape::Ladder]), if count == 0 { 1 } else { 3 });
    let nodes = graph(shape, count, subsectors, rng);
    let mut case = ask("draw order with few words", &nodes, subsectors, Expected::Refused(Refusal::plain(45)), rng);
    if let Question::DrawOrder { words, .. } = &mut case.question {
        words.truncate(rng.pick(&[count, 0, count / 2]));
    }
    case
}

/// Children in range or a little out of it.
fn any_children(rng: &mut Rng) -> Case {
    let (count, subsectors) = (rng.between(1, 6), rng.between(1, 6));
    let mut nodes = graph(Shape::Any, count, subsectors, rng);
    for _ in 0..rng.below(3) {
        let child = rng.below(8) as u16 | rng.pick(&[0, SUBSECTOR_BIT]);
        let node = &mut nodes[rng.below(count)];
        *rng.either(&mut node.right, &mut node.left) = child;
    }
    ask("draw order anywhere", &nodes, subsectors, Expected::Unknown, rng)
}

/// A tree with some bytes changed.
fn flipped(rng: &mut Rng) -> Case {
    let mut case = tree(rng);
    flip(&mut case.bytes, rng);
    (case.label, case.expected) = ("draw order of flipped nodes".into(), Expected::Unknown);
    case
}
