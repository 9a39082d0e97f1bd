//! The examples (a) to (l) of paper 01, as W-202 has them, that request's own, the sides of W-214, the search of W-203
//! and the names of W-204.

use reader::*;

const NAME: &[u8; 8] = b"MAP01\0\0\0";
const ORDER: [&[u8; 8]; 10] = [
    b"THINGS\0\0", b"LINEDEFS", b"SIDEDEFS", b"VERTEXES", b"SEGS\0\0\0\0", b"SSECTORS", b"NODES\0\0\0", b"SECTORS\0",
    b"REJECT\0\0", b"BLOCKMAP",
];

fn words(words: &[u16]) -> Vec<u8> {
    words.iter().flat_map(|word| word.to_le_bytes()).collect()
}

/// A node with the given children and a line of no direction.
fn node(right: u16, left: u16) -> Vec<u8> {
    let mut bytes = vec![0; Node::SIZE];
    Node { right, left, ..Node::default() }.write(&mut bytes, 0).unwrap();
    bytes
}

/// A file with one map: everything is there once, but for linedefs, nodes, the blockmap, and a
/// subsector more than there are nodes, if a map may have so many.
fn wad(linedefs: usize, nodes: &[u8], blockmap: &[u8]) -> Vec<u8> {
    let linedef = words(&[0, 0, 0, 0, 0, 0, NO_SIDEDEF]);
    let lumps = [
        vec![],
        linedef.repeat(linedefs),
        vec![0; 30],
        vec![0; 4],
        vec![0; 12],
        words(&[1, 0]).repeat(32_767.min(nodes.len() / Node::SIZE + 1)),
        nodes.to_vec(),
        vec![0; 26],
        vec![0],
        blockmap.to_vec(),
    ];
    let (mut data, mut directory) = (vec![], [&[0; 8][..], NAME].concat());
    for (name, lump) in ORDER.iter().zip(&lumps) {
        directory.extend((12 + data.len() as u32).to_le_bytes());
        directory.extend((lump.len() as u32).to_le_bytes());
        directory.extend(*name);
        data.extend(lump);
    }
    let start = (12 + data.len() as u32).to_le_bytes();
    [&b"PWAD"[..], &11u32.to_le_bytes(), &start, &data, &directory].concat()
}

/// A blockmap of one cell with the given list.
fn one_cell(list: &[u16]) -> Vec<u8> {
    words(&[&[0, 0, 1, 1, 5], list].concat())
}

fn judge(linedefs: usize, nodes: &[u8], list: &[u16]) -> Result<Accepted, Refusal> {
    let mut lent = vec![7; 4 * nodes.len() / Node::SIZE + 1];
    let verdict = judge_map(&wad(linedefs, nodes, &one_cell(list)), NAME, &mut lent);
    let (last, first) = lent.split_last().unwrap();
    let zeroed = verdict.is_ok() || verdict.unwrap_err().number >= 31;
    assert!(*last == 7 && first.iter().all(|&word| word == if zeroed { 0 } else { 7 }));
    verdict
}

fn judge_nodes(nodes: &[u8]) -> Result<Accepted, Refusal> {
    judge(1, nodes, &[0, 65535])
}

const SHARED: Result<Accepted, Refusal> = Err(Refusal::new(32, 7, 0));

fn accepted(depth: usize) -> Result<Accepted, Refusal> {
    Ok(Accepted { depth, marker: 0 })
}

#[test]
fn a_reject_sizes() {
    assert_eq!([1, 3, 10].map(reject_size), [1, 2, 13]);
}

#[test]
fn b_demo1_is_a_name() {
    assert_eq!([0x44, 0x45, 0x4D, 0x4F, 0x31, 0, 0, 0], *b"DEMO1\0\0\0");
    assert!(is_name(b"DEMO1\0\0\0") && !is_name(b"DEMO 1\0\0") && !is_name(&[0; 8]));
}

#[test]
fn w_204_a_name_is_what_precedes_its_first_zero() {
    assert!(is_name(b"DEMO1\0a\0") && is_name(b"A\0\0\0\0\0\0\x01") && is_name(b"ABCDEFGH"));
    assert!(!is_name(b"\0DEMO1\0\0") && !is_name(b"a\0EMO1\0\0") && !is_name(b"DEMO1\0"));
    assert!(is_map_name(b"MAP01\0zz") && is_map_name(b"E1M1\x001\0\xFF"));
    assert!(!is_map_name(b"MAP0\x001\0\0") && !is_map_name(b"\0MAP01\0\0") && !is_map_name(b"MAP01\0") && !is_map_name(&[0; 8]));
}

#[test]
fn w_204_equal_names_may_differ_behind_the_zero() {
    let search = |names: &[&[u8; 8]], asked| find_map(&named(names), asked);
    let names = [b"MAP01\0AP", b"MAP01A\0\0", b"MAP0\x001\0\0"];
    let found = Search { marker: Ok(0), compared: 3 };
    assert_eq!([search(&names, NAME), search(&names, b"MAP01\0\0\x01")], [found; 2]);
    assert_eq!(search(&[NAME, b"MAP01\0zz"], NAME), Search { marker: Ok(1), compared: 1 });
}

/// Right is subsector 1, left is subsector 0.
fn side(x: i16, y: i16, dx: i16, dy: i16, point: (i16, i16)) -> usize {
    let mut bytes = vec![0; Node::SIZE];
    let node = Node { x, y, dx, dy, right: 0x8001, left: 0x8000, ..Node::default() };
    node.write(&mut bytes, 0).unwrap();
    descend(&bytes, 2, point.0, point.1).unwrap().subsector
}

#[test]
fn c_sides_of_a_line() {
    let sides = [(1, 0), (0, 5), (-1, 0)].map(|point| side(0, 0, 0, 64, point));
    assert_eq!(sides, [1, 0, 0]);
}

#[test]
fn w_214_straight_lines() {
    let about = [-1, 0, 1];
    let upright = |dy| about.map(|x| side(0, 7, 0, dy, (x, 7)));
    assert_eq!([upright(64), upright(-64)], [[0, 0, 1], [1, 1, 0]]);
    let level = |dx| about.map(|y| side(7, 0, dx, 0, (7, y)));
    assert_eq!([level(64), level(-64)], [[1, 1, 0], [0, 0, 1]]);
}

#[test]
fn w_214_straight_lines_at_the_ends_of_16_bits() {
    let (least, most) = (i16::MIN, i16::MAX);
    assert_eq!([least, most].map(|x| side(least, 0, 0, most, (x, most))), [0, 1]);
    assert_eq!([least, most].map(|x| side(most, 0, 0, least, (x, least))), [1, 1]);
    assert_eq!([least, most].map(|y| side(0, least, most, 0, (most, y))), [1, 0]);
    assert_eq!([least, most].map(|y| side(0, most, least, 0, (least, y))), [0, 0]);
}

#[test]
fn w_214_no_direction_is_right() {
    for point in [(0, 0), (-1, 5), (1, -5), (i16::MIN, i16::MAX), (i16::MAX, i16::MIN)] {
        assert_eq!(side(0, 0, 0, 0, point), 1);
        let own = |right, left| descend(&node(right, left), 1, point.0, point.1);
        assert_eq!(own(0x8000, 0), Ok(Found { subsector: 0, count: 1 }));
        assert_eq!(own(0, 0x8000), Err(Refusal::plain(43)));
    }
}

#[test]
fn d_products_that_need_more_than_32_bits() {
    let least = i16::MIN;
    assert_eq!(side(least, least, least, least, (i16::MAX, i16::MAX)), 0);
    assert_eq!(side(least, least, least, least, (i16::MAX - 1, i16::MAX)), 1);
}

#[test]
fn e_child_words() {
    assert_eq!(descend(&node(0x8000, 0x8000), 1, 0, 0), Ok(Found { subsector: 0, count: 1 }));
    assert_eq!(descend(&node(0xFFFF, 0xFFFF), 32767, 0, 0), Err(Refusal::plain(42)));
    assert_eq!(judge_nodes(&node(0x8000, 0xFFFF)), Err(Refusal::new(27, 7, 0)));
}

#[test]
fn f_no_nodes() {
    assert_eq!(judge_nodes(&[]), accepted(0));
    assert_eq!(descend(&[], 1, 3, 4), Ok(Found { subsector: 0, count: 0 }));
    assert_eq!(descend(&[], 2, 3, 4), Err(Refusal::plain(41)));
}

#[test]
fn g_one_node() {
    assert_eq!(judge_nodes(&node(0x8000, 0x8000)), SHARED);
    assert_eq!(judge_nodes(&node(0x8000, 0x8001)), accepted(1));
}

#[test]
fn h_its_own_child() {
    let refused = Err(Refusal::new(31, 7, 0));
    assert_eq!(judge_nodes(&node(0x8000, 0)), refused);
    assert_eq!(judge_nodes(&node(0, 0x8000)), refused);
}

#[test]
fn i_a_loop_that_no_route_reaches() {
    assert_eq!(judge_nodes(&[node(0, 0x8000), node(0x8000, 0x8001)].concat()), accepted(1));
    assert_eq!(judge_nodes(&[node(0, 0x8000), node(0x8000, 0x8000)].concat()), SHARED);
}

#[test]
fn j_children_above_their_parents() {
    let nodes = [node(1, 0x8000), node(0x8001, 0x8002), node(0x8003, 0)].concat();
    assert_eq!(judge_nodes(&nodes), accepted(3));
    let nodes = [node(1, 0x8000), node(0x8001, 0x8000), node(0x8003, 0)].concat();
    assert_eq!(judge_nodes(&nodes), SHARED);
}

/// So many nodes, each with both children the one before it; the first has these two.
fn doublings(count: u16, first: Vec<u8>) -> Vec<u8> {
    let more = (1..count).map(|at| node(at - 1, at - 1));
    [first].into_iter().chain(more).flatten().collect()
}

#[test]
fn doublings_are_shared() {
    for count in [2, 3, 30, 32_766, 32_767] {
        assert_eq!(judge_nodes(&doublings(count, node(0x8000, 0x8001))), SHARED);
        assert_eq!(judge_nodes(&doublings(count, node(0x8000, 0))), Err(Refusal::new(31, 7, 0)));
    }
}

#[test]
fn unreached_nodes_may_share() {
    let nodes = [node(0x8000, 0x8000), node(0, 0), node(0x8000, 0x8001)].concat();
    assert_eq!(judge_nodes(&nodes), accepted(1));
}

/// A file whose directory has these names and nothing else.
fn named(names: &[&[u8; 8]]) -> Vec<u8> {
    let directory: Vec<u8> = names.iter().flat_map(|name| [&[0; 8][..], &name[..]].concat()).collect();
    [&b"PWAD"[..], &(names.len() as u32).to_le_bytes(), &12u32.to_le_bytes(), &directory].concat()
}

#[test]
fn w_203_the_search_stops_at_the_last_of_the_name() {
    let other = b"DEMO1\0\0\0";
    let search = |names: &[&[u8; 8]]| find_map(&named(names), NAME);
    let found = |marker, compared| Search { marker: Ok(marker), compared };
    assert_eq!(search(&[NAME, other, other]), found(0, 3));
    assert_eq!(search(&[NAME, NAME, other]), found(1, 2));
    assert_eq!(search(&[other, other, NAME]), found(2, 1));
    let none = |compared| Search { marker: Err(Refusal::plain(11)), compared };
    assert_eq!([search(&[other, other, other]), search(&[])], [none(3), none(0)]);
}

#[test]
fn w_203_nothing_is_compared_before_the_search() {
    let refused = |number, record| Search { marker: Err(Refusal::new(number, 0, record)), compared: 0 };
    assert_eq!(find_map(&named(&[NAME]), b"MAP00\0\0\0"), refused(10, 0));
    assert_eq!(find_map(&named(&[NAME, b"demo1\0\0\0", NAME]), NAME), refused(6, 1));
    assert_eq!(find_map(&[], NAME), refused(1, 0));
}

#[test]
fn k_lists() {
    let three = [0, 330, 331, 333, 65535];
    assert_eq!(judge(1, &[], &[0, 65535]), accepted(0));
    assert_eq!(judge(334, &[], &three), accepted(0));
    assert_eq!(judge(333, &[], &three), Err(Refusal::new(28, 10, 0)));
    assert_eq!(judge(334, &[], &three[1..]), Err(Refusal::new(28, 10, 0)));
}

#[test]
fn l_a_picture() {
    let lump = [1, 0, 3, 0, 0, 0, 0, 0, 12, 0, 0, 0, 1, 1, 0, 7, 0, 255];
    let picture = Picture { width: 1, height: 3, left: 0, top: 0 };
    let (mut colour, mut cover) = ([9; 4], [9; 4]);
    assert_eq!(judge_picture(&lump), Ok(picture));
    assert_eq!(paint_picture(&lump, &mut colour, &mut cover), Ok(picture));
    assert_eq!((colour, cover), ([0, 7, 0, 9], [0, 1, 0, 9]));
    let (mut colour, mut cover) = ([9; 3], [9; 2]);
    assert_eq!(paint_picture(&lump, &mut colour, &mut cover), Err(Refusal::plain(55)));
    assert_eq!((colour, cover), ([9; 3], [9; 2]));
}

#[test]
fn sizes_and_places_of_the_table() {
    let places = [Thing::PLACE, Linedef::PLACE, Sidedef::PLACE, Vertex::PLACE];
    let more_places = [Seg::PLACE, Subsector::PLACE, Node::PLACE, Sector::PLACE];
    assert_eq!((places, more_places), ([1, 2, 3, 4], [5, 6, 7, 8]));
    let sizes = [Thing::SIZE, Linedef::SIZE, Sidedef::SIZE, Vertex::SIZE];
    let more_sizes = [Seg::SIZE, Subsector::SIZE, Node::SIZE, Sector::SIZE];
    assert_eq!((sizes, more_sizes), ([10, 14, 30, 4], [12, 4, 28, 26]));
}

#[test]
fn records_are_written_inside_only() {
    let mut lump = [1; 13];
    let linedef = Linedef { start: 1, left: NO_SIDEDEF, ..Linedef::default() };
    assert_eq!(linedef.write(&mut lump, 0), Err(Refusal::plain(60)));
    assert_eq!(Vertex { x: -1, y: 2 }.write(&mut lump, 2), Ok(()));
    assert_eq!(Vertex::read(&lump, 2), Ok(Vertex { x: -1, y: 2 }));
    assert_eq!(lump, [1, 1, 1, 1, 1, 1, 1, 1, 255, 255, 2, 0, 1]);
    assert_eq!(Vertex::read(&lump, 3), Err(Refusal::plain(60)));
    assert_eq!(Vertex::read(&lump, usize::MAX), Err(Refusal::plain(60)));
}
