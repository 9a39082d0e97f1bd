//! The reader against 01's definitions, spelt out without any regard to cost: every list of
//! choices, every cell's list for itself, every pixel for itself.

use generator::*;
use reader::{descend, draw_order, judge_map, judge_picture, paint_picture, write_picture};
use reader::{Accepted, Node, Refusal, SUBSECTOR_BIT};
use std::collections::BTreeSet;

/// The child word reached from `word` by the choices, one bit each; `None` where a choice would
/// have to be made at a subsector.
fn follow(nodes: &[Node], mut word: u16, choices: u32, count: usize) -> Option<u16> {
    for turn in 0..count {
        if word & SUBSECTOR_BIT != 0 {
            return None;
        }
        let node = &nodes[usize::from(word)];
        word = if choices >> turn & 1 == 1 { node.right } else { node.left };
    }
    Some(word)
}

/// All words reached by lists of `count` choices from the root.
fn reached(nodes: &[Node], count: usize) -> Vec<u16> {
    let root = nodes.len() as u16 - 1;
    (0..1 << count).filter_map(|choices| follow(nodes, root, choices, count)).collect()
}

/// 01's words: a loop when some list of N choices is still on a node; otherwise the largest
/// number of choices of a route. W-202's: no word may be reached by two different lists.
fn verdict_of(nodes: &[Node]) -> Result<Accepted, Refusal> {
    let is_node = |word: &u16| word & SUBSECTOR_BIT == 0;
    if reached(nodes, nodes.len()).iter().any(is_node) {
        return Err(Refusal::new(31, 7, 0));
    }
    let mut met: Vec<u16> = (0..=nodes.len()).flat_map(|count| reached(nodes, count)).collect();
    met.sort_unstable();
    if met.windows(2).any(|pair| pair[0] == pair[1]) {
        return Err(Refusal::new(32, 7, 0));
    }
    let ends = |count: &usize| reached(nodes, *count).iter().any(|word| !is_node(word));
    let depth = (0..=nodes.len()).rev().find(ends).expect("a route");
    Ok(Accepted { depth, marker: 0 })
}

fn judge(map: MapSpec) -> Result<Accepted, Refusal> {
    let mut words = vec![9; 4 * map.nodes.len()];
    judge_map(&Plan::wad_of(map), &MAP_NAME, &mut words)
}

/// Judges nodes over one subsector more than they are. An accepted map reaches one subsector more than nodes.
fn judge_nodes(nodes: Vec<Node>) -> Result<Accepted, Refusal> {
    let mut map = MapSpec::plain(Sizes::tree(nodes.len()), &mut Rng::new(1));
    map.nodes = nodes.clone();
    let verdict = judge(map);
    assert_eq!(verdict, verdict_of(&nodes), "{nodes:?}");
    if verdict.is_ok() {
        let met: Vec<u16> = (0..=nodes.len()).flat_map(|count| reached(&nodes, count)).collect();
        let subsectors = met.iter().filter(|word| **word & SUBSECTOR_BIT != 0).count();
        assert_eq!(subsectors, met.len() - subsectors + 1);
    }
    verdict
}

/// How many of all graphs of 0 to 3 nodes over one subsector more are accepted, by the count of reached nodes: ways to place the
/// reached nodes below the root, times lists of different subsectors, times words for both children of each unreached node.
const TREES: [usize; 4] = [1, 2, 2 * 6 + 6 * 5_usize.pow(2), 10 * 24 + 4 * 24 * 7_usize.pow(2) + 12 * 7_usize.pow(4)];

#[test]
fn all_graphs_of_up_to_three_nodes() {
    for count in 1..=3 {
        let words: Vec<u16> = (0..count as u16).chain((0..=count as u16).map(|number| SUBSECTOR_BIT | number)).collect();
        let mut accepted = 0;
        for number in 0..words.len().pow(2 * count) {
            let word = |at: u32| words[number / words.len().pow(at) % words.len()];
            let node = |at: u32| Node { right: word(2 * at), left: word(2 * at + 1), ..Node::default() };
            accepted += usize::from(judge_nodes((0..count).map(node).collect()).is_ok());
        }
        assert_eq!(accepted, TREES[count as usize], "{count} nodes");
    }
}

#[test]
fn any_graphs_of_up_to_nine_nodes() {
    let (mut rng, mut met) = (Rng::new(5), BTreeSet::new());
    for _ in 0..4_000 {
        let shape = match rng.below(4) {
            0 => Shape::Any,
            1 => Shape::Ring,
            _ => rng.pick(&Shape::loopless()),
        };
        let count = rng.between(4, 9);
        let (children, _) = shape.children(count, count + 1, &mut rng);
        let node = |&[right, left]: &[u16; 2]| Node { right, left, ..Node::default() };
        met.insert(judge_nodes(children.iter().map(node).collect()).map_or_else(|refusal| refusal.number, |_| 0));
    }
    assert_eq!(met, [0, 31, 32].into());
}

/// W-208's words: the walk of a child and the walk of a node call each other.
struct Drawing<'a> {
    nodes: &'a [Node],
    subsectors: usize,
    x: i16,
    list: Vec<u16>,
}

impl Drawing<'_> {
    fn child(&mut self, word: u16, parent: usize, passed: usize) -> Result<(), Refusal> {
        let number = usize::from(word & !SUBSECTOR_BIT);
        if word & SUBSECTOR_BIT == 0 {
            return if number < self.nodes.len() { self.node(number, passed + 1) } else { Err(Refusal::new(42, 0, parent)) };
        }
        if number >= self.subsectors {
            return Err(Refusal::new(42, 0, parent));
        }
        if self.list.len() > self.nodes.len() {
            return Err(Refusal::plain(46));
        }
        self.list.push(number as u16);
        Ok(())
    }

    /// All lines run north through 0: east is right.
    fn node(&mut self, at: usize, passed: usize) -> Result<(), Refusal> {
        if passed > 256 {
            return Err(Refusal::plain(44));
        }
        let Node { right, left, .. } = self.nodes[at];
        let (near, far) = if self.x > 0 { (right, left) } else { (left, right) };
        self.child(near, at, passed)?;
        self.child(far, at, passed)
    }
}

/// Holds the reader's draw order to the definition, words too; answers the refusal's number.
fn draw_nodes(nodes: &[Node], subsectors: usize, x: i16) -> u32 {
    let mut drawing = Drawing { nodes, subsectors, x, list: Vec::new() };
    let drawn = drawing.node(nodes.len() - 1, 1);
    let mut words = vec![7; nodes.len() + 2];
    let lump: Vec<u8> = nodes.iter().flat_map(Encode::encode).collect();
    let answer = draw_order(&lump, subsectors, x, 0, &mut words);
    let list = if drawn.is_ok() { drawing.list } else { vec![0; nodes.len() + 1] };
    assert_eq!(answer, drawn.map(|()| list.len()), "{nodes:?}");
    let rest = words.len() - list.len();
    assert_eq!(words, [list, vec![7; rest]].concat(), "{nodes:?}");
    answer.map_or_else(|refusal| refusal.number, |_| 0)
}

fn upright(right: u16, left: u16) -> Node {
    Node { dy: 1, right, left, ..Node::default() }
}

#[test]
fn all_draw_orders_of_up_to_two_nodes() {
    let words = [0, 1, 2, SUBSECTOR_BIT, SUBSECTOR_BIT | 1, SUBSECTOR_BIT | 2];
    let mut met = BTreeSet::new();
    for right in words {
        for left in words {
            met.insert(draw_nodes(&[upright(right, left)], 2, 1));
            for (near, far) in words.into_iter().flat_map(|near| words.map(|far| (near, far))) {
                met.insert(draw_nodes(&[upright(right, left), upright(near, far)], 2, 1));
                met.insert(draw_nodes(&[upright(right, left), upright(near, far)], 2, 0));
            }
        }
    }
    assert_eq!(met, [0, 42, 44, 46].into());
}

#[test]
fn any_draw_orders() {
    let (mut rng, mut met) = (Rng::new(8), BTreeSet::new());
    for _ in 0..6_000 {
        let shape = if rng.once_in(4) { rng.pick(&[Shape::Any, Shape::Ring]) } else { rng.pick(&Shape::loopless()) };
        let count = rng.between(1, 300);
        let (children, truth) = shape.children(count, count + 1, &mut rng);
        let mut nodes: Vec<Node> = children.iter().map(|&[right, left]| upright(right, left)).collect();
        let x = rng.pick(&[0, 1]);
        let number = draw_nodes(&nodes, count + 1, x);
        match truth {
            Truth::Depth(depth) => assert_eq!(number, if depth <= 256 { 0 } else { 44 }),
            Truth::Loop => assert!(number == 44 || number == 46),
            _ => {}
        }
        nodes[rng.below(count)].left = rng.pick(&[count as u16, SUBSECTOR_BIT | (count as u16 + 1)]);
        met.extend([number, draw_nodes(&nodes, count + 1, x)]);
    }
    assert_eq!(met, [0, 42, 44, 46].into());
}

/// On an accepted map of depth at most 256 each reached subsector is listed once, and the descent's own answer first.
#[test]
fn draw_orders_of_accepted_maps() {
    let mut rng = Rng::new(9);
    for _ in 0..2_000 {
        let shape = rng.pick(&Shape::TREES);
        let count = rng.between(1, 9);
        let (children, _) = shape.children(count, count + 1, &mut rng);
        let node = |&[right, left]: &[u16; 2]| Node { right, left, dx: 3, dy: -5, ..Node::default() };
        let nodes: Vec<Node> = children.iter().map(node).collect();
        let lump: Vec<u8> = nodes.iter().flat_map(Encode::encode).collect();
        let (x, y, mut words) = (rng.i16(), rng.i16(), vec![7; count + 1]);
        let drawn = draw_order(&lump, count + 1, x, y, &mut words).expect("a tree");
        assert_eq!(descend(&lump, count + 1, x, y).map(|it| it.subsector), Ok(usize::from(words[0])));
        let met: BTreeSet<u16> = (0..=count).flat_map(|choices| reached(&nodes, choices)).collect();
        let subsectors: Vec<u16> =
            met.iter().filter(|word| **word & SUBSECTOR_BIT != 0).map(|word| word & !SUBSECTOR_BIT).collect();
        words.truncate(drawn);
        words.sort_unstable();
        assert_eq!(words, subsectors);
    }
}

/// Whether the list at word `offset` is good, read from its start to its end.
fn list_is_good(words: &[u16], first: usize, offset: u16, linedefs: usize) -> bool {
    let mut rest = words.iter().skip(usize::from(offset));
    if usize::from(offset) < first || rest.next() != Some(&0) {
        return false;
    }
    let end = rest.clone().position(|&word| word == 65_535);
    end.is_some_and(|end| rest.take(end).all(|&word| usize::from(word) < linedefs))
}

#[test]
fn lists_one_by_one() {
    let mut rng = Rng::new(6);
    for _ in 0..20_000 {
        let sizes = Sizes { linedefs: 2, columns: 3, rows: 2, ..Sizes::LEAST };
        let mut map = MapSpec::plain(sizes, &mut rng);
        let length = rng.between(1, 12);
        let odds = if rng.once_in(4) { 6 } else { 40 };
        let mut word = || if rng.once_in(odds) { 2 } else { rng.pick(&[0, 0, 0, 1, 65_535]) };
        map.blockmap.lists = (0..length).map(|_| word()).collect();
        let zeros: Vec<usize> = (0..length).filter(|&at| map.blockmap.lists[at] == 0).collect();
        for offset in &mut map.blockmap.offsets {
            let any = 10 + rng.below(length + 1) as u16 - u16::from(rng.once_in(30));
            let aimed = zeros.get(rng.below(zeros.len().max(1))).map_or(any, |at| 10 + *at as u16);
            *offset = if rng.once_in(12) { any } else { aimed };
        }
        let words = [&[0; 4][..], &map.blockmap.offsets, &map.blockmap.lists].concat();
        let bad = map.blockmap.offsets.iter().position(|&at| !list_is_good(&words, 10, at, 2));
        let wanted = match bad {
            Some(cell) => Err(Refusal::new(28, 10, cell)),
            None => Ok(Accepted { depth: 0, marker: 0 }),
        };
        assert_eq!(judge(map), wanted);
    }
}

/// The pixel of a good picture at a row of a column, if any post paints it.
fn pixel(lump: &[u8], column: usize, row: usize) -> Option<u8> {
    let mut at = u32::from_le_bytes(lump[8 + 4 * column..][..4].try_into().unwrap()) as usize;
    while lump[at] != 255 {
        let (start, length) = (usize::from(lump[at]), usize::from(lump[at + 1]));
        if (start..start + length).contains(&row) {
            return Some(lump[at + 3 + row - start]);
        }
        at += length + 4;
    }
    None
}

#[test]
fn pixels_one_by_one() {
    let mut rng = Rng::new(7);
    for _ in 0..2_000 {
        let (width, height) = (rng.between(1, 7), rng.between(1, 14));
        let lump = PictureSpec::good(width as u16, height as u16, &mut rng).encode();
        let (mut colour, mut cover) = (vec![3; width * height], vec![4; width * height + 1]);
        assert_eq!(paint_picture(&lump, &mut colour, &mut cover), judge_picture(&lump));
        for at in 0..width * height {
            let wanted = pixel(&lump, at % width, at / width);
            assert_eq!((colour[at], cover[at]), (wanted.unwrap_or(0), u8::from(wanted.is_some())));
        }
        assert_eq!(cover[width * height], 4);
    }
}

/// The lump is made post by post from the runs that the pixels are made from.
#[test]
fn written_pictures_are_their_runs() {
    let mut rng = Rng::new(10);
    for turn in 0..4_000 {
        let (width, height) = if turn % 100 == 0 { (320, 200) } else { (rng.between(1, 9), rng.between(1, 14)) };
        let canvas = if rng.once_in(9) { Canvas::checkerboard } else { Canvas::any };
        let Canvas { picture, colour, cover, lump } = canvas(width as u16, height as u16, &mut rng);
        let mut out = vec![7; lump.len() + 2];
        assert_eq!(write_picture(picture, &colour, &cover, &mut out), Ok(lump.len()));
        assert_eq!(out, [&lump[..], &[7, 7]].concat());
    }
}
