//! The large inputs of a benchmark, most of them at any size so that growth can be measured.
//! Every map among them is called [`MAP_NAME`](crate::MAP_NAME), and good, but for those with a shared child and those that are
//! refused for their reason.

use crate::blockmap::LIST_END;
use crate::graph::behind_unreached;
use crate::map::encode;
use crate::{facing, joined, littered, named_entries, BlockmapSpec, MAP_NAME};
use crate::{Canvas, Content, EntryPlan, Layout, MapSpec, Numbering, PictureSpec, Plan, Post, Rng, Run, Shape, Sizes};
use reader::{Node, SUBSECTOR_BIT};

/// The largest file there may be.
pub const MOST_BYTES: usize = 16_777_216;

/// A file with a map of about the size of E1M1.
pub fn ordinary_map() -> Vec<u8> {
    map_of(1)
}

/// A file with a map that has `scale` times the records of an ordinary one, up to 60 times.
pub fn map_of(scale: usize) -> Vec<u8> {
    ordinary_of(false, scale)
}

/// The same as a patch over a base of 3,000 entries, with a map of its own that the patch's takes the place of: see
/// [`halves`](crate::halves).
pub fn pair_of(scale: usize) -> Vec<u8> {
    joined(directory_of(3_000), map_of(scale))
}

/// The same of Hexen.
pub fn hexen_map_of(scale: usize) -> Vec<u8> {
    ordinary_of(true, scale)
}

/// The same as [`map_of`], but the last sidedef faces a sector that is not there. It is refused 24.
pub fn bad_sidedef_of(scale: usize) -> Vec<u8> {
    let mut map = ordinary_spec(false, scale);
    let last = map.sidedefs.len() - 1;
    map.sidedefs[last].sector = map.sectors.len() as u16;
    Plan::wad_of(map)
}

/// The same, but the last seg has no such direction. It is refused 25.
pub fn bad_seg_of(scale: usize) -> Vec<u8> {
    let mut map = ordinary_spec(false, scale);
    let last = map.segs.len() - 1;
    map.segs[last].direction = 2;
    Plan::wad_of(map)
}

/// A file with a small map, of 848 bytes where `quarters` is 4.
pub fn little_map(quarters: usize) -> Vec<u8> {
    let lines = 2 * quarters;
    let tree = Sizes::tree(quarters / 2);
    let sizes = Sizes { things: 1, linedefs: lines, sidedefs: lines, vertices: lines, segs: lines, sectors: 3, ..tree };
    Plan::wad_of(MapSpec::plain(sizes, &mut Rng::new(7)))
}

fn ordinary_of(hexen: bool, scale: usize) -> Vec<u8> {
    Plan::wad_of(ordinary_spec(hexen, scale))
}

fn ordinary_spec(hexen: bool, scale: usize) -> MapSpec {
    let mut rng = Rng::new(1);
    let sizes = Sizes {
        hexen,
        things: 143 * scale,
        linedefs: 486 * scale,
        sidedefs: 666 * scale,
        vertices: 470 * scale,
        segs: 747 * scale,
        subsectors: 239 * scale,
        nodes: 239 * scale - 1,
        sectors: 88 * scale,
        columns: 36,
        rows: 23 * scale.min(8) as u16,
    };
    MapSpec::new(sizes, Shape::Balanced, Layout::Separate, &mut rng).0
}

/// The largest map that fits 16 MiB: most counts at their limits, the rest shared between
/// REJECT and BLOCKMAP.
pub fn largest_map() -> Vec<u8> {
    largest_map_of(4)
}

/// A map with so many quarters of the largest map's records and bytes, 1 to 4.
pub fn largest_map_of(quarters: usize) -> Vec<u8> {
    largest_of(false, quarters)
}

/// The same of Hexen.
pub fn largest_hexen_map_of(quarters: usize) -> Vec<u8> {
    largest_of(true, quarters)
}

fn largest_of(hexen: bool, quarters: usize) -> Vec<u8> {
    let mut rng = Rng::new(2);
    let (most, fewer) = (65_535 * quarters / 4, 32_767 * quarters / 4);
    let sizes = Sizes {
        hexen,
        things: most,
        linedefs: most,
        sidedefs: most,
        vertices: most,
        segs: most,
        subsectors: fewer,
        nodes: fewer - 1,
        sectors: 2_000 * quarters,
        columns: 128,
        rows: 128,
    };
    let mut map = MapSpec::plain(sizes, &mut rng);
    many_lists(&mut map.blockmap, sizes.linedefs, &mut rng);
    filled(map, MOST_BYTES * quarters / 4, || rng.below(sizes.linedefs) as u16)
}

/// Gives the cells lists of any length as far as offsets reach.
fn many_lists(blockmap: &mut BlockmapSpec, linedefs: usize, rng: &mut Rng) {
    let start = BlockmapSpec::lists_start(blockmap.offsets.len());
    let mut starts = Vec::new();
    blockmap.lists.clear();
    while start + blockmap.lists.len() < 65_500 {
        starts.push((start + blockmap.lists.len()) as u16);
        blockmap.lists.push(0);
        let length = rng.below(12);
        blockmap.lists.extend((0..length).map(|_| rng.below(linedefs) as u16));
        blockmap.lists.push(LIST_END);
    }
    starts.push((start + blockmap.lists.len()) as u16);
    blockmap.lists.push(0);
    blockmap.offsets.iter_mut().for_each(|offset| *offset = rng.pick(&starts));
}

/// The file of `map`, its last list filled up so that the file has `bytes` bytes, or one less.
fn filled(mut map: MapSpec, bytes: usize, mut linedef: impl FnMut() -> u16) -> Vec<u8> {
    let rest = bytes.saturating_sub(Plan::wad_of(map.clone()).len());
    map.blockmap.lists.extend((1..rest / 2).map(|_| linedef()));
    map.blockmap.lists.push(LIST_END);
    Plan::wad_of(map)
}

/// A file of `count` entries. From 11 on, a small map comes first.
pub fn directory_of(count: usize) -> Vec<u8> {
    let mut plan = Plan::new(MapSpec::plain(Sizes::LEAST, &mut Rng::new(3)), MAP_NAME);
    plan.entries.truncate(count);
    for index in plan.entries.len()..count {
        let name = format!("LUMP{index:04}");
        let name = std::array::from_fn(|at| name.as_bytes()[at]);
        plan.entries.push(EntryPlan::new(name, Content::Bytes(vec![index as u8; index % 3])));
    }
    plan.wad()
}

/// A file of `count` entries without a lump, each with a name of one character to seven, and rubbish behind its zero.
pub fn littered_directory_of(count: usize) -> Vec<u8> {
    let mut rng = Rng::new(7);
    let mut name = |at: usize| {
        let mut name = [0; 8];
        name[..1 + at % 7].fill(b'A' + (at % 26) as u8);
        littered(name, &mut rng)
    };
    named_entries(&(0..count).map(&mut name).collect::<Vec<_>>())
}

/// A file with a map whose nodes are a chain of `nodes`, up to 32,766: its depth is `nodes`.
pub fn chain(nodes: usize) -> Vec<u8> {
    Plan::wad_of(small_map(Shape::Chain, nodes))
}

/// A file with a map whose nodes are a balanced tree of `nodes`, up to 32,766.
pub fn balanced(nodes: usize) -> Vec<u8> {
    Plan::wad_of(small_map(Shape::Balanced, nodes))
}

/// A file with a map of `nodes` nodes, up to 32,767, each with both children the next: 2 to the power `nodes` ways down. It is
/// refused 32.
pub fn doublings(nodes: usize) -> Vec<u8> {
    Plan::wad_of(small_map(Shape::Ladder, nodes))
}

/// A file with a map whose nodes are a chain of `nodes`, up to 32,766, in which the first node and the root, which is the last
/// one, both name the highest subsector. It is refused 32 for that alone.
pub fn shared_subsector(nodes: usize) -> Vec<u8> {
    let mut map = small_map(Shape::Chain, nodes);
    let highest = SUBSECTOR_BIT | (map.subsectors.len() - 1) as u16;
    for (at, node) in map.nodes.iter_mut().enumerate() {
        (node.right, node.left) = match at {
            0 => (SUBSECTOR_BIT, highest),
            _ => (at as u16 - 1, SUBSECTOR_BIT | at as u16),
        };
    }
    map.nodes[nodes - 1].left = highest;
    Plan::wad_of(map)
}

/// A file with a map whose nodes, up to 32,767, are a chain that ends at its own root. It is refused 31, and the way into the loop has a choice
/// at each node.
pub fn long_loop(nodes: usize) -> Vec<u8> {
    let mut map = small_map(Shape::Chain, nodes);
    for (at, node) in map.nodes.iter_mut().enumerate() {
        let below = at.checked_sub(1).unwrap_or(nodes - 1) as u16;
        (node.right, node.left) = if at % 2 == 0 { (below, SUBSECTOR_BIT) } else { (SUBSECTOR_BIT, below) };
    }
    Plan::wad_of(map)
}

/// A file with a map whose root has a balanced tree of all but two of its nodes, up to 32,767, on the right, and a node that is its own child on
/// the left. It is refused 31, for a way of two choices.
pub fn loop_behind_tree(nodes: usize) -> Vec<u8> {
    let mut map = small_map(Shape::Balanced, nodes - 2);
    let (tree, own) = (nodes as u16 - 3, nodes as u16 - 2);
    for (right, left) in [(own, SUBSECTOR_BIT), (tree, own)] {
        map.nodes.push(Node { right, left, ..Node::default() });
    }
    Plan::wad_of(map)
}

/// An order of nodes and a file, as one: how many numbers there are, in four bytes, the numbers, and the file.
fn listed(order: &[u16], map: MapSpec) -> Vec<u8> {
    let count = (order.len() as u32).to_le_bytes();
    let numbers = order.iter().flat_map(|number| number.to_le_bytes());
    count.into_iter().chain(numbers).chain(Plan::wad_of(map)).collect()
}

/// The order and the file of a benchmark's input.
pub fn order_and_file(input: &[u8]) -> (Vec<u16>, &[u8]) {
    let (count, rest) = input.split_at(4);
    let count = count.iter().rev().fold(0, |count, &byte| count << 8 | usize::from(byte));
    let (numbers, file) = rest.split_at(2 * count);
    (numbers.chunks_exact(2).map(|pair| u16::from_le_bytes([pair[0], pair[1]])).collect(), file)
}

/// A map like [`map_of`]'s, with its nodes in post-order: see [`order_and_file`].
pub fn map_in_order(scale: usize) -> Vec<u8> {
    let map = ordinary_spec(false, scale);
    listed(&Numbering::RightFirst.order(&map.nodes, &mut Rng::new(11)), map)
}

/// A map of `nodes` nodes, up to 32,767, of which the first is unreached and the others are a chain whose numbers rise from the root's child on; with
/// its post-order, edited. See [`order_and_file`].
pub fn chain_in_order(nodes: usize, edit: fn(Vec<u16>) -> Vec<u16>) -> Vec<u8> {
    let mut map = small_map(Shape::Rising, nodes - 1);
    let children: Vec<[u16; 2]> = map.nodes.iter().map(|node| [node.right, node.left]).collect();
    map.nodes.push(map.nodes[0]);
    for (node, [right, left]) in map.nodes.iter_mut().zip(behind_unreached(&children)) {
        (node.right, node.left) = (right, left);
    }
    let order = edit(Numbering::RightFirst.order(&map.nodes, &mut Rng::new(12)));
    listed(&order, map)
}

/// An order whose last number, the root, is its first a second time: 70.
pub fn repeat_at_the_end(mut order: Vec<u16>) -> Vec<u16> {
    let last = order.len() - 1;
    order[last] = order[0];
    order
}

/// A chain's order in which the root's child stands before its own child, and these are the last before the root: 71.
pub fn child_at_the_end(mut order: Vec<u16>) -> Vec<u16> {
    let last = order.len() - 1;
    order.swap(last - 2, last - 1);
    order
}

/// An order of all nodes but one with two numbers more than twice as many as there are nodes: 73. Of 32,767 nodes these are 65,536.
pub fn twice_as_long(mut order: Vec<u16>) -> Vec<u16> {
    order.resize(2 * (order.len() + 2), 0);
    order
}

/// A map with these nodes, as many subsectors as their tree needs, if a map may have so many, and no more than it must of the rest.
fn small_map(shape: Shape, nodes: usize) -> MapSpec {
    let sizes = Sizes { nodes, subsectors: 32_767.min(nodes + 1), ..Sizes::LEAST };
    MapSpec::new(sizes, shape, Layout::Shared, &mut Rng::new(4)).0
}

/// 32,000 cells whose lists all run to the end of a 16 MiB file.
pub fn hostile_blockmap() -> Vec<u8> {
    hostile_blockmap_of(MOST_BYTES)
}

/// The same in a file of `bytes` bytes, at least 140,000.
pub fn hostile_blockmap_of(bytes: usize) -> Vec<u8> {
    let sizes = Sizes { columns: 250, rows: 128, ..Sizes::LEAST };
    let mut map = MapSpec::plain(sizes, &mut Rng::new(5));
    let start = BlockmapSpec::lists_start(32_000) as u16;
    map.blockmap.offsets = (start..).take(32_000).collect();
    map.blockmap.lists.clear();
    filled(map, bytes, || 0)
}

/// A file of `bytes` bytes, at least 140,000, with a BLOCKMAP of 32,000 cells: the lists of all but the last run through the same words, and that of
/// the last runs from there to the lump's last word, which is no linedef. It is refused 28.
pub fn bad_blockmap_of(bytes: usize) -> Vec<u8> {
    let sizes = Sizes { columns: 250, rows: 128, ..Sizes::LEAST };
    let mut map = MapSpec::plain(sizes, &mut Rng::new(5));
    let start = BlockmapSpec::lists_start(32_000) as u16;
    map.blockmap.offsets = (start..).take(31_999).chain([start + 32_000]).collect();
    map.blockmap.lists = [vec![0; 31_999], vec![LIST_END, 0]].concat();
    let rest = bytes.saturating_sub(Plan::wad_of(map.clone()).len()) / 2;
    map.blockmap.lists.resize(map.blockmap.lists.len() + rest - 1, 0);
    map.blockmap.lists.push(sizes.linedefs as u16);
    Plan::wad_of(map)
}

/// A picture like a sprite: columns of their own, most rows painted, some gaps.
pub fn picture(width: u16, height: u16) -> Vec<u8> {
    let mut rng = Rng::new(6);
    let mut picture = PictureSpec::blank(width, height);
    for column in 0..usize::from(width) {
        let (mut posts, mut row) = (Vec::new(), rng.below(8));
        while row < usize::from(height) {
            let length = rng.between(1, 80).min(usize::from(height) - row);
            let (pixels, ignored) = (rng.bytes(length), [0, 0]);
            posts.push(Post { start: row as u8, pixels, ignored });
            row += length + rng.below(12);
        }
        picture.give_column(column, &posts);
        picture.data.push(255);
    }
    picture.encode()
}

/// The pixels of such a picture, to be written: colour, and then cover; see [`halves`](crate::halves).
pub fn pixels(width: u16, height: u16) -> Vec<u8> {
    let runs = |_, rng: &mut Rng| {
        let (mut runs, mut start) = (Vec::new(), rng.below(8));
        while start < usize::from(height) {
            let length = rng.between(1, 80).min(usize::from(height) - start);
            runs.push(Run { start, length });
            start += length + rng.between(1, 12);
        }
        runs
    };
    let canvas = Canvas::new(width, height, runs, &mut Rng::new(8));
    joined(canvas.colour, canvas.cover)
}

/// The same of a checkerboard: the most posts that there can be.
pub fn checkered(width: u16, height: u16) -> Vec<u8> {
    let canvas = Canvas::checkerboard(width, height, &mut Rng::new(9));
    joined(canvas.colour, canvas.cover)
}

/// How many sectors the sidedefs of a benchmark face.
pub const FACED: usize = 300;

/// A good SIDEDEFS lump of `count` records, which face any of [`FACED`] sectors.
pub fn sidedefs_of(count: usize) -> Vec<u8> {
    let mut rng = Rng::new(10);
    let sectors: Vec<u16> = (0..count).map(|_| rng.below(FACED) as u16).collect();
    facing(&sectors, &mut rng)
}

/// A NODES lump that halves the plane in turn, `levels` times, 1 to 14, over 2 to the power `levels` subsectors.
pub fn halving_nodes(levels: u32) -> Vec<u8> {
    encode(&halved((1 << levels) - 1))
}

/// The same with every second line, by chance, a little slanting: a processor cannot foretell which kind of line comes next.
pub fn mixed_nodes(levels: u32) -> Vec<u8> {
    mixed_nodes_of((1 << levels) - 1)
}

/// The same of any count of nodes, up to 32,766.
pub fn mixed_nodes_of(count: usize) -> Vec<u8> {
    let mut rng = Rng::new(1);
    let mut nodes = halved(count);
    for node in &mut nodes {
        if rng.once_in(2) {
            (node.dx, node.dy) = (node.dx.max(1), node.dy.max(1));
        }
    }
    encode(&nodes)
}

/// A NODES lump of `nodes` nodes, 257 to 32,767, that makes a draw order as long and as deep as can be: 240 nodes are a chain, at its end
/// are sixteen doublings, and no route reaches the others. The list is full long before its end.
pub fn deep_doublings(nodes: usize) -> Vec<u8> {
    let first = nodes - 256;
    let child = |at: usize| if at == first { SUBSECTOR_BIT } else { at as u16 - 1 };
    let children = |at: usize| match at.checked_sub(first) {
        None => [SUBSECTOR_BIT; 2],
        Some(0..=15) => [child(at); 2],
        Some(_) => [child(at), SUBSECTOR_BIT | at as u16],
    };
    let node = |[right, left]: [u16; 2]| Node { dy: 64, right, left, ..Node::default() };
    encode(&(0..nodes).map(children).map(node).collect::<Vec<_>>())
}

/// A NODES lump of `nodes` nodes, each with both children the next: 2 to the power `nodes` ways down.
pub fn double_nodes(nodes: usize) -> Vec<u8> {
    let child = |at: usize| at.checked_sub(1).map_or(SUBSECTOR_BIT, |below| below as u16);
    let node = |at: usize| Node { dy: 64, right: child(at), left: child(at), ..Node::default() };
    encode(&(0..nodes).map(node).collect::<Vec<_>>())
}

/// A NODES lump that is a chain of `nodes` nodes, always on the near side of a point in the east.
pub fn deep_chain(nodes: usize) -> Vec<u8> {
    let child = |at: usize| at.checked_sub(1).map_or(SUBSECTOR_BIT, |below| below as u16);
    let node = |at: usize| Node { dy: 64, right: child(at), left: SUBSECTOR_BIT, ..Node::default() };
    encode(&(0..nodes).map(node).collect::<Vec<_>>())
}

fn halved(count: usize) -> Vec<Node> {
    let mut nodes = vec![Node::default(); count];
    let area = [i32::from(i16::MIN), i32::from(i16::MIN), 65_536, 65_536];
    halve(&mut nodes, 0, area);
    nodes
}

/// Node `heap` of the heap halves `[x, y, width, height]`; the heap is numbered from the last.
fn halve(nodes: &mut [Node], heap: usize, [x, y, width, height]: [i32; 4]) {
    let last = nodes.len() - 1;
    let child = |side: usize| match 2 * heap + 1 + side {
        node if node <= last => (last - node) as u16,
        end => SUBSECTOR_BIT | (end - last - 1) as u16,
    };
    let upright = width >= height;
    let node = &mut nodes[last - heap];
    (node.right, node.left) = (child(0), child(1));
    let (half_width, half_height) = (width / 2, height / 2);
    let [right, left] = if upright {
        (node.x, node.y, node.dy) = ((x + half_width) as i16, y as i16, 64);
        [[x + half_width, y, half_width, height], [x, y, half_width, height]]
    } else {
        (node.x, node.y, node.dx) = (x as i16, (y + half_height) as i16, 64);
        [[x, y, width, half_height], [x, y + half_height, width, half_height]]
    };
    for (side, area) in [right, left].into_iter().enumerate() {
        if 2 * heap + 1 + side <= last {
            halve(nodes, 2 * heap + 1 + side, area);
        }
    }
}
