//! Both sides of the limits of draw orders: words, routes of 256 nodes, lists of one more than the nodes, and which fault comes first.
//! Every line runs north through x = 0, so that from x = 1 the right child is the near one and from x = 0 the left one.

use crate::limit::{plainly, Build};
use crate::map::encode;
use crate::{Case, Expected, Question, Rng, Shape};
use reader::{Node, Refusal, SUBSECTOR_BIT};

/// The most nodes that a route may pass.
const MOST_PASSED: usize = 256;
/// The most nodes and subsectors that there may be.
const MOST: usize = 32_767;

/// All of them.
pub(crate) fn draw_limits() -> Vec<Build> {
    let mut all = size_limits();
    all.extend(depth_limits());
    all.extend(fault_at_the_depth());
    all.extend(length_limits());
    all.extend(full_list_limits());
    all.extend(child_limits());
    all.extend(largest());
    all
}

/// The word of a subsector.
const fn s(number: usize) -> u16 {
    SUBSECTOR_BIT | number as u16
}

/// The children of each node, right and left.
type Children = Vec<[u16; 2]>;

fn case(label: &str, children: &[[u16; 2]], subsectors: usize, x: i16, spare: isize, expected: Expected) -> Case {
    let nodes: Vec<Node> = children.iter().map(|&[right, left]| Node { dy: 64, right, left, ..Node::default() }).collect();
    let words = vec![0xA5A5; (nodes.len() as isize + 1 + spare).max(0) as usize];
    Case::new(label, encode(&nodes), Question::DrawOrder { subsectors, x, y: 5, words }, expected)
}

/// The same graph asked from both sides; from the other side its mirror image has the same answer.
fn both(label: &'static str, children: Children, subsectors: usize, expected: Expected) -> [Build; 2] {
    let mirrored: Children = children.iter().map(|&[right, left]| [left, right]).collect();
    [
        Box::new(move || case(label, &children, subsectors, 1, 1, expected)),
        Box::new(move || case(label, &mirrored, subsectors, 0, 1, expected)),
    ]
}

/// 40, 41 and 45, in this order, at every count of words near the least.
fn size_limits() -> Vec<Build> {
    let sizes = [
        (0, 1, 0),
        (0, 0, 41),
        (0, 2, 41),
        (1, 0, 41),
        (1, 1, 0),
        (1, MOST, 0),
        (1, MOST + 1, 41),
        (1, 1 << 32 | 1, 41),
        (7, usize::MAX, 41),
        (9, 9, 0),
        (MOST + 1, 1, 40),
        (MOST + 1, 0, 40),
    ];
    let mut all: Vec<Build> = Vec::new();
    for (nodes, subsectors, number) in sizes {
        for spare in [-1, 0, 1, 3, -(nodes as isize) - 1] {
            all.push(Box::new(move || {
                let number = if number == 0 && spare < 0 { 45 } else { number };
                let expected = if number == 0 { Expected::Count(nodes + 1) } else { plainly(number) };
                case("draw order's sizes", &combed(nodes), subsectors, 1, spare, expected)
            }));
        }
    }
    for bytes in [1, 27, 29, 55] {
        all.push(Box::new(move || {
            let mut case = case("draw order's bytes", &combed(2), 0, 1, -3, plainly(40));
            case.bytes.resize(bytes, 0);
            case
        }));
    }
    all
}

/// Each node has the one before it to the right, and subsector 0 everywhere else: N + 1 entries of it.
fn combed(nodes: usize) -> Children {
    (0..nodes).map(|at| [at.checked_sub(1).map_or(s(0), |below| below as u16), s(0)]).collect()
}

/// A chain of `count` nodes, the root last, over one subsector more. The chain goes on to the right where `right` says so.
fn chain(count: usize, right: impl Fn(usize) -> bool) -> Children {
    let link = |at: usize| {
        let on = at.checked_sub(1).map_or(s(0), |below| below as u16);
        if right(at) {
            [on, s(at + 1)]
        } else {
            [s(at + 1), on]
        }
    };
    (0..count).map(link).collect()
}

/// Routes of 255 to 258 nodes on the near side, on the far side and on either, with nodes that no route reaches and without.
fn depth_limits() -> Vec<Build> {
    let mut all: Vec<Build> = Vec::new();
    for count in [1, 2, MOST_PASSED - 1, MOST_PASSED, MOST_PASSED + 1, MOST_PASSED + 2, 1_000] {
        let sides: [fn(usize) -> bool; 3] = [|_| true, |_| false, |at| at % 3 == 0];
        for right in sides {
            for unreached in [0, 40] {
                let mut children: Children = chain(count, right).to_vec();
                let shift = |word: u16| if word & SUBSECTOR_BIT == 0 { word + unreached } else { word };
                children.iter_mut().flatten().for_each(|word| *word = shift(*word));
                children.splice(0..0, vec![[0, 1]; usize::from(unreached)]);
                let expected = if count <= MOST_PASSED { Expected::Count(count + 1) } else { plainly(44) };
                all.extend(both("route of many nodes", children, count + 1, expected));
            }
        }
    }
    for children in [vec![[0, 0]], vec![[0, s(0)]], vec![[1, s(0)], [0, s(0)]]] {
        all.extend(both("route without an end", children, 1, plainly(44)));
    }
    all.extend(both("far route without an end", vec![[s(0), 0]], 1, plainly(46)));
    all
}

/// The 257th node of a route is refused before its children are looked at, the 256th's children are still judged; and what stands on
/// the near side of a node on the way is met before either.
fn fault_at_the_depth() -> Vec<Build> {
    let bad = s(MOST);
    let mut all: Vec<Build> = Vec::new();
    for count in [MOST_PASSED, MOST_PASSED + 1] {
        let deep = |node: usize| if count > MOST_PASSED { plainly(44) } else { Expected::Refused(Refusal::new(42, 0, node)) };
        let mut children = chain(count, |_| true);
        children[0] = [bad, bad];
        all.extend(both("bad children at the end of a long route", children, MOST, deep(0)));
        let mut children = chain(count, |_| true);
        children[0] = [count as u16, s(0)];
        all.extend(both("bad node at the end of a long route", children, MOST, deep(0)));
        let mut children = chain(count, |_| true);
        children[count - 1][1] = bad;
        all.extend(both("bad far child at the root of a long route", children, MOST, deep(count - 1)));
        let mut children = chain(count, |_| false);
        children[count - 1][0] = bad;
        let near = Expected::Refused(Refusal::new(42, 0, count - 1));
        all.extend(both("bad near child at the root of a long route", children, MOST, near));
    }
    all
}

/// Doublings: 2 to the power N entries where N + 1 are allowed; from 257 nodes on the first route is too long.
fn length_limits() -> Vec<Build> {
    let mut all: Vec<Build> = Vec::new();
    for count in [1, 2, 3, 30, MOST_PASSED - 1, MOST_PASSED, MOST_PASSED + 1, MOST] {
        let expected = match count {
            1 => Expected::Count(2),
            2..=MOST_PASSED => plainly(46),
            _ => plainly(44),
        };
        let child = |at: usize| at.checked_sub(1).map_or(s(0), |below| below as u16);
        all.extend(both("doublings", (0..count).map(|at| [child(at); 2]).collect(), 1, expected));
    }
    for entries in 2..=9 {
        let expected = if entries <= 5 { Expected::Count(entries) } else { plainly(46) };
        all.extend(both("entries of four nodes", listing(entries), 1, expected));
    }
    all
}

/// Four nodes, the root last, that list subsector 0 so many times, 2 to 9.
fn listing(entries: usize) -> Children {
    let (end, two, three, four) = (s(0), [s(0), s(0)], [0, s(0)], [0, 0]);
    match entries {
        2 => vec![two, two, two, two],
        3 => vec![two, two, two, three],
        4 => vec![two, two, two, four],
        5 => vec![two, four, two, [1, end]],
        6 => vec![two, four, two, [1, 0]],
        7 => vec![two, three, [1, 0], [2, 0]],
        8 => vec![two, four, two, [1, 1]],
        _ => vec![two, four, [1, end], [2, 1]],
    }
}

/// Where the list is full, a child out of range is 42, the 257th node of a route 44, and a subsector that is there 46.
fn full_list_limits() -> Vec<Build> {
    let mut all: Vec<Build> = Vec::new();
    let full = |far: u16| vec![[s(0), s(1)], [0, 0], [1, far]];
    let at_the_root = Expected::Refused(Refusal::new(42, 0, 2));
    for (far, expected) in
        [(s(0), plainly(46)), (0, plainly(46)), (2, plainly(46)), (s(2), at_the_root), (0xFFFF, at_the_root), (3, at_the_root)]
    {
        all.extend(both("child where the list is full", full(far), 2, expected));
    }
    for (on_the_right, number) in [(true, 44), (false, 46)] {
        all.extend(both("long route where the list is full", full_and_deep(on_the_right), MOST, plainly(number)));
    }
    all
}

/// 268 nodes: the root's near child lists 269 entries, all that there may be, and its far child is a chain of 256 nodes. The chain
/// goes on at the near side, so that its last node comes before any entry, or at the far side.
fn full_and_deep(near: bool) -> Children {
    let mut children = chain(MOST_PASSED, |_| near);
    let first = children.len() as u16;
    children.push([s(0); 2]);
    children.extend((0..7).map(|at| [first + at; 2]));
    let power = |exponent: u16| first + exponent - 1;
    let comb = children.len() as u16;
    children.extend([[power(2), s(0)], [power(3), comb], [power(8), comb + 1]]);
    children.push([comb + 2, first - 1]);
    children
}

/// Out of range at one node, near, far and both, by one and by as much as can be.
fn child_limits() -> Vec<Build> {
    let mut all: Vec<Build> = Vec::new();
    let refused = Expected::Refused(Refusal::new(42, 0, 0));
    for bad in [1, s(3), 0x7FFF, 0xFFFF] {
        for children in [[bad, s(2)], [s(2), bad], [bad, bad], [bad, 0]] {
            all.extend(both("child out of range", vec![children], 3, refused));
        }
    }
    all.extend(both("children in range", vec![[s(2), s(0)]], 3, Expected::Count(2)));
    let two_bad = |near: u16, far: u16| vec![[s(0), near], [s(1), far], [0, 1]];
    for (near, far, node) in [(s(9), s(2), 0), (s(2), s(9), 1), (s(9), 9, 0)] {
        let refused = Expected::Refused(Refusal::new(42, 0, node));
        all.extend(both("near child's fault before the far one's", two_bad(near, far), 9, refused));
    }
    all
}

/// The most nodes, of many shapes.
fn largest() -> Vec<Build> {
    let mut all: Vec<Build> = Vec::new();
    for (shape, count, expected) in [
        (Shape::Balanced, MOST - 1, Expected::Count(MOST)),
        (Shape::Chain, MOST - 1, plainly(44)),
        (Shape::Rising, MOST - 1, plainly(44)),
        (Shape::Falling, MOST - 1, Expected::Count(MOST)),
        (Shape::Diamond, MOST, Expected::Unknown),
        (Shape::TwiceNode, MOST - 1, Expected::Unknown),
        (Shape::Tangle, MOST, Expected::Unknown),
        (Shape::Any, MOST, Expected::Unknown),
    ] {
        all.push(Box::new(move || {
            let (children, _) = shape.children(count, MOST, &mut Rng::new(16));
            case("draw order of the most nodes", &children, MOST, 1, 1, expected)
        }));
    }
    all
}
